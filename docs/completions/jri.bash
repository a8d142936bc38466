# Completes the words of jri in bash: its options, and JPEG files before others.

# The JPEG files and folders whose names begin with the word so far, which may be quoted; names may have anything in them.
_jri_names() {
    local plain=$1 name
    case $plain in
        \"* | \'*) plain=${plain:1} ;;
        *) plain=${plain//\\/} ;;
    esac
    case $plain in '~/'*) plain=$HOME${plain:1} ;; esac
    for name in "$plain"*; do
        case ${name,,} in
            *.jpg | *.jpeg | *.jpe | *.jfif) [ ! -e "$name" ] || COMPREPLY+=("$name") ;;
            *) [ ! -d "$name" ] || COMPREPLY+=("$name") ;;
        esac
    done
}

# Whether the word that is completed stands behind a `--`, so that it is no option.
_jri_is_behind_options() {
    local at
    for ((at = 1; at < COMP_CWORD; at++)); do [ "${COMP_WORDS[at]}" != -- ] || return 0; done
    return 1
}

_jri() {
    local word=${COMP_WORDS[COMP_CWORD]} before=${COMP_WORDS[COMP_CWORD - 1]}
    COMPREPLY=()
    # bash takes --workers=4 for three words.
    if [ "$word" = = ]; then
        word=""
    elif [ "$before" = = ] && [ "$COMP_CWORD" -gt 2 ]; then
        before=${COMP_WORDS[COMP_CWORD - 2]}
    fi
    if ! _jri_is_behind_options; then
        case $before in
            --workers) compopt +o default; mapfile -t COMPREPLY < <(compgen -W '1 2 4 8 16 32 64' -- "$word"); return ;;
            --first) compopt +o default; return ;;
            -o | --output | --output-dir) return ;;
        esac
        case $word in
            -*) compopt +o default; mapfile -t COMPREPLY < <(compgen -W '--workers --first --resync --output --output-dir --info --json --force --quiet --verbose --help --version' -- "$word"); return ;;
        esac
    fi
    _jri_names "$word"
}
complete -o filenames -o default -F _jri jri
