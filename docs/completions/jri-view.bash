# Completes the arguments of jri-view in bash: its options, and JPEG files and directories before others.

# The JPEG files and directories whose names begin with the argument so far, which may be quoted; names may contain anything.
_jri_view_names() {
    local plain=$1 name
    case $plain in
        \"* | \'*) plain=${plain:1} ;;
        *) plain=${plain//\\/} ;;
    esac
    case $plain in '~/'*) plain=$HOME${plain:1} ;; esac
    for name in "$plain"*; do
        case ${name,,} in
            *.jpg | *.jpeg | *.jpe | *.jfif) [ ! -e "$name" ] || COMPREPLY+=("$name") ;;
            *) [ ! -d "$name" ] || COMPREPLY+=("$name") ;;
        esac
    done
}

_jri_view() {
    local word=${COMP_WORDS[COMP_CWORD]} before=${COMP_WORDS[COMP_CWORD - 1]}
    COMPREPLY=()
    [ "$before" != --port ] || return 0
    case $word in
        -*) compopt +o default; mapfile -t COMPREPLY < <(compgen -W '--no-open --port --help' -- "$word"); return ;;
    esac
    _jri_view_names "$word"
}
complete -o filenames -o default -F _jri_view jri-view
