#compdef jri_check
# Completes the words of jri_check in zsh: its options, and JPEG files before others.
_arguments -S \
    '(- *)'{-h,--help}'[print help]' \
    '(- *)'{-V,--version}'[print version]' \
    '--map=-[also list each damaged restart interval]::which:(damaged all)' \
    '--json[print each line as a JSON object]' \
    '(-q --quiet)'{-q,--quiet}'[list no sound files and print no counts]' \
    '--counts[also print the counts as the last line]' \
    '(-r --recursive)'{-r,--recursive}'[check the JPEG files in directories, recursively]' \
    '--files0-from=[also check the NUL-terminated names in a list]:list:_files' \
    '(--state)--resync[check files read past restart markers that are out of step]' \
    '--state=[record files, and skip those recorded]:state file:_files' \
    '--verify[read recorded files again; report changed, new and missing ones]' \
    '--strict[exit with 6 if a file is a new version, missing, or has doubtful values]' \
    '(-j --workers)'{-j+,--workers=}'[number of threads, 1 to 64]:files at once:(1 2 4 8 16 32 64)' \
    '*:JPEG file:_files -g "*.(#i)(jpg|jpeg|jpe|jfif)(-.)"'
