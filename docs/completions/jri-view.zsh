#compdef jri-view
# Completes the arguments of jri-view in zsh: its options, and JPEG files and directories before others.
_arguments -S \
    '(- *)'{-h,--help}'[print help]' \
    '--no-open[print the address, and open no browser]' \
    '--port=[use this port of 127.0.0.1]:port:' \
    '*:JPEG file:_files -g "*.(#i)(jpg|jpeg|jpe|jfif)(-.)"'
