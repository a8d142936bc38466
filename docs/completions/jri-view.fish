# Completes the arguments of jri-view in fish: its options; fish itself completes the files.
complete -c jri-view -l no-open -d 'Print the address, and open no browser'
complete -c jri-view -l port -x -d 'Use this port of 127.0.0.1'
complete -c jri-view -s h -l help -d 'Print help'
