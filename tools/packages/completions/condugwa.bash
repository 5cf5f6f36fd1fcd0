# Completions for lgp_lab and lgp_monitor, for bash.

_lgp_lab() {
    local current=${COMP_WORDS[COMP_CWORD]}
    COMPREPLY=()
    if [ "$COMP_CWORD" -eq 1 ]; then
        mapfile -t COMPREPLY < <(compgen -W 'asm tape run script batch help -h --help -V --version' -- "$current")
        return
    fi
    case ${COMP_WORDS[1]} in
        help) mapfile -t COMPREPLY < <(compgen -W 'asm tape run script batch' -- "$current") ;;
        script | asm)
            case $current in
                -*) mapfile -t COMPREPLY < <(compgen -W '-h --help --verbose' -- "$current") ;;
                *) mapfile -t COMPREPLY < <(compgen -f -- "$current") ;;
            esac
            ;;
        tape | run | batch)
            case $current in
                -*) mapfile -t COMPREPLY < <(compgen -W '-h --help' -- "$current") ;;
                *) mapfile -t COMPREPLY < <(compgen -f -- "$current") ;;
            esac
            ;;
    esac
}

_lgp_monitor() {
    local current=${COMP_WORDS[COMP_CWORD]}
    case $current in
        -*) mapfile -t COMPREPLY < <(compgen -W '--echo --json -h --help -V --version' -- "$current") ;;
        *) mapfile -t COMPREPLY < <(compgen -f -- "$current") ;;
    esac
}

complete -o filenames -F _lgp_lab lgp_lab
complete -o filenames -F _lgp_monitor lgp_monitor
