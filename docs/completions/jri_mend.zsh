#compdef jri_mend
# Completes the arguments of jri_mend in zsh: its options, and JPEG files before others.
_arguments -S \
    '(- *)'{-h,--help}'[print help]' \
    '(- *)'{-V,--version}'[print version]' \
    '(-o --output)'{-o+,--output=}'[write the mended file to this file]:mended file:_files' \
    '--json[print the report as a JSON object]' \
    '(--no-resync)--resync[read past restart markers that are out of step: the default]' \
    '(--resync)--no-resync[do not read past restart markers that are out of step]' \
    '--borrow-headers[read copies with damaged headers under the header of another copy]' \
    '--trees[mend the files of each name in directories, which are copies of one]' \
    '--copy-equal[with --trees, also copy files that are equal in all directories]' \
    '*:JPEG file:_files -g "*.(#i)(jpg|jpeg|jpe|jfif)(-.)"'
