# Completes the arguments of jri_mend in bash: its options, and JPEG files before others.

# The JPEG files and directories whose names begin with the argument so far, which may be quoted; names may contain anything.
_jri_mend_names() {
    local plain=$1 name
    case $plain in
        \"* | \'*) plain=${plain:1} ;;
        *) plain=${plain//\\/} ;;
    esac
    case $plain in '~/'*) plain=$HOME${plain:1} ;; esac
    for name in "$plain"*; do
        case ${name,,} in
            *.jpg | *.jpeg | *.jpe | *.jfif) [ ! -e "$name" ] || COMPREPLY+=("$name") ;;
            *) [ ! -d "$name" ] || COMPREPLY+=("$name") ;;
        esac
    done
}

# Whether the argument that is completed is after a `--`, so that it is no option.
_jri_mend_is_after_options() {
    local at
    for ((at = 1; at < COMP_CWORD; at++)); do [ "${COMP_WORDS[at]}" != -- ] || return 0; done
    return 1
}

_jri_mend() {
    local word=${COMP_WORDS[COMP_CWORD]} before=${COMP_WORDS[COMP_CWORD - 1]}
    COMPREPLY=()
    if ! _jri_mend_is_after_options; then
        case $before in -o | --output) return ;; esac
        case $word in
            -*) compopt +o default; mapfile -t COMPREPLY < <(compgen -W '-o --output --json --resync --no-resync --borrow-headers --trees --copy-equal --help --version' -- "$word"); return ;;
        esac
    fi
    _jri_mend_names "$word"
}
complete -o filenames -o default -F _jri_mend jri_mend
