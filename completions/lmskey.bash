# Completions of lmskey for bash: source this file.
_lmskey() {
    local word=${COMP_WORDS[COMP_CWORD]} before=${COMP_WORDS[COMP_CWORD - 1]}
    case $before in
    --log) mapfile -t COMPREPLY < <(compgen -f -- "$word"); return ;;
    --suffix | --gap) return ;;
    --width) mapfile -t COMPREPLY < <(compgen -W "4 8" -- "$word"); return ;;
    --height) mapfile -t COMPREPLY < <(compgen -W "5 10 15" -- "$word"); return ;;
    esac
    if ((COMP_CWORD == 1)); then
        mapfile -t COMPREPLY < <(compgen -W "new sign show restore help --help -h --version -V" -- "$word")
        return
    fi
    case ${COMP_WORDS[1]} in
    new) mapfile -t COMPREPLY < <(compgen -W "--width --height --log --no-log --help -h" -f -- "$word") ;;
    sign) mapfile -t COMPREPLY < <(compgen -W "--log --no-log --suffix --help -h" -f -- "$word") ;;
    show) mapfile -t COMPREPLY < <(compgen -W "--help -h" -f -- "$word") ;;
    restore) mapfile -t COMPREPLY < <(compgen -W "--log --no-log --gap --help -h" -f -- "$word") ;;
    help) mapfile -t COMPREPLY < <(compgen -W "new sign show restore" -- "$word") ;;
    esac
}
complete -o filenames -F _lmskey lmskey
