# made by manual/refresh of what mimelook --help prints
# The types of the rules of the user's data that begin so: PROGRAM WORD
_mimelook_types() {
    "$1" list 2> /dev/null | word=$2 awk -F : 'index($2, ENVIRON["word"]) == 1 && !seen[$2]++ { print $2 }'
}
_mimelook() {
    local word=$2 before=$3 options
    case $before in
        --data-dirs | -d) mapfile -t COMPREPLY < <(compgen -d -- "$word"); return ;;
        --cache | --files0-from | --output | -c | -o) mapfile -t COMPREPLY < <(compgen -f -- "$word"); return ;;
        --stdin) return ;;
    esac
    case ${COMP_WORDS[1]} in
        build) options='-d --data-dirs --drop-twins -o --output -h --help -V --version' ;;
        plain) options='-d --data-dirs --name-only --content-only --magic-first --all-globs --inode -0 --null -b --brief --escape --files0-from --stdin -h --help -V --version' ;;
        list) options='-c --cache -d --data-dirs -h --help -V --version' ;;
        check) options='-c --cache -d --data-dirs -h --help -V --version' ;;
        explain) options='-c --cache -d --data-dirs --name-only --content-only --magic-first --all-globs --escape -h --help -V --version' ;;
        isa) options='-c --cache -d --data-dirs -h --help -V --version' ;;
        icon) options='-c --cache -d --data-dirs -h --help -V --version' ;;
        type) options='-c --cache -d --data-dirs --name-only --content-only --magic-first --all-globs --inode --cost -0 --null -b --brief --escape --files0-from --stdin -h --help -V --version' ;;
        help) options='build plain list check explain isa icon type' ;;
        *) options='build plain list check explain isa icon type help -h --help -V --version' ;;
    esac
    if [[ $word == -* || $COMP_CWORD -eq 1 || ${COMP_WORDS[1]} == help ]]; then
        mapfile -t COMPREPLY < <(compgen -W "$options" -- "$word")
    elif [[ ${COMP_WORDS[1]} == @(isa|icon) ]]; then
        compopt +o filenames 2> /dev/null
        mapfile -t COMPREPLY < <(_mimelook_types "${COMP_WORDS[0]}" "$word")
    else
        mapfile -t COMPREPLY < <(compgen -f -- "$word")
    fi
}
complete -o filenames -F _mimelook mimelook
