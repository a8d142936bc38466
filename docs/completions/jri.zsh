#compdef jri
# Completes the words of jri in zsh: its options, and JPEG files before others.
_arguments -S \
    '(- *)'{-h,--help}'[print help]' \
    '(- *)'{-V,--version}'[print version]' \
    '--workers=[number of decoding threads, 1 to 64]:threads:(1 2 4 8 16 32 64)' \
    '--first=[decode only the first K restart intervals]:restart intervals:' \
    '--resync[read past restart markers that are out of step]' \
    '(-o --output)'{-o,--output}'[write the image to this file]:picture:_files' \
    '--output-dir=[write the image of each file to this directory]:directory:_files -/' \
    '--info[print what the headers of files say]' \
    '--json[with --info, print JSON objects]' \
    '--force[write the image even to a terminal]' \
    '--quiet[do not print the report]' \
    '--verbose[add the file name and the system error to each line]' \
    '*:JPEG file:_files -g "*.(#i)(jpg|jpeg|jpe|jfif)(-.)"'
