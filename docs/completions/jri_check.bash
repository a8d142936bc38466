# Completes the words of jri_check in bash: its options, and JPEG files before others.

# The JPEG files and folders whose names begin with the word so far, which may be quoted; names may have anything in them.
_jri_check_names() {
    local plain=$1 name
    case $plain in
        \"* | \'*) plain=${plain:1} ;;
        *) plain=${plain//\\/} ;;
    esac
    case $plain in '~/'*) plain=$HOME${plain:1} ;; esac
    for name in "$plain"*; do
        case ${name,,} in
            *.jpg | *.jpeg | *.jpe | *.jfif) [ ! -e "$name" ] || COMPREPLY+=("$name") ;;
            *) [ ! -d "$name" ] || COMPREPLY+=("$name") ;;
        esac
    done
}

# Whether the word that is completed stands behind a `--`, so that it is no option.
_jri_check_is_behind_options() {
    local at
    for ((at = 1; at < COMP_CWORD; at++)); do [ "${COMP_WORDS[at]}" != -- ] || return 0; done
    return 1
}

_jri_check() {
    local word=${COMP_WORDS[COMP_CWORD]} before=${COMP_WORDS[COMP_CWORD - 1]}
    COMPREPLY=()
    # bash takes --workers=4 for three words.
    if [ "$word" = = ]; then
        word=""
    elif [ "$before" = = ] && [ "$COMP_CWORD" -gt 2 ]; then
        before=${COMP_WORDS[COMP_CWORD - 2]}
    fi
    if ! _jri_check_is_behind_options; then
        case $before in
            --workers | -j) compopt +o default; mapfile -t COMPREPLY < <(compgen -W '1 2 4 8 16 32 64' -- "$word"); return ;;
            --files0-from | --state) return ;;
        esac
        case $word in
            -*) compopt +o default; mapfile -t COMPREPLY < <(compgen -W '--map --json -q --quiet --counts -j --workers --recursive --files0-from --resync --state --verify --strict --help --version' -- "$word"); return ;;
        esac
    fi
    _jri_check_names "$word"
}
complete -o filenames -o default -F _jri_check jri_check
