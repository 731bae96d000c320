# Completions of tufcheck for bash: source this file.
_tufcheck() {
    local word=${COMP_WORDS[COMP_CWORD]} before=${COMP_WORDS[COMP_CWORD - 1]}
    case $before in
    --state | --out | --paths-from) mapfile -t COMPREPLY < <(compgen -f -- "$word"); return ;;
    --metadata | --targets | --into) mapfile -t COMPREPLY < <(compgen -d -- "$word"); return ;;
    --now | --before | --limit | --workers | --keep) return ;;
    --file) mapfile -t COMPREPLY < <(compgen -W "root timestamp snapshot targets" -- "$word"); return ;;
    --only) mapfile -t COMPREPLY < <(compgen -W "metadata targets" -- "$word"); return ;;
    esac
    if ((COMP_CWORD == 1)); then
        mapfile -t COMPREPLY < <(compgen -W "init verify replay next show key text attach signers make help --help -h --version -V" -- "$word")
        return
    fi
    case ${COMP_WORDS[1]} in
    init) mapfile -t COMPREPLY < <(compgen -W "--new --out --help -h" -f -- "$word") ;;
    verify) mapfile -t COMPREPLY < <(compgen -W "--state --unlocked --metadata --targets --now --limit --workers --paths-from --null --every --into --why --progress --out --help -h" -- "$word") ;;
    replay) mapfile -t COMPREPLY < <(compgen -W "--state --unlocked --now --limit --workers --keep --paths-from --null --why --progress --out --help -h" -d -- "$word") ;;
    next) mapfile -t COMPREPLY < <(compgen -W "--state --metadata --targets --now --limit --paths-from --null --only --progress --help -h" -- "$word") ;;
    show) mapfile -t COMPREPLY < <(compgen -W "--before --file --help -h" -f -- "$word") ;;
    make) mapfile -t COMPREPLY < <(compgen -W "--help -h" -f -- "$word") ;;
    key | attach) mapfile -t COMPREPLY < <(compgen -W "--out --help -h" -f -- "$word") ;;
    text) mapfile -t COMPREPLY < <(compgen -W "--help -h" -f -- "$word") ;;
    signers) mapfile -t COMPREPLY < <(compgen -W "--root --from --role --help -h" -f -- "$word") ;;
    help) mapfile -t COMPREPLY < <(compgen -W "init verify replay next show key text attach signers make" -- "$word") ;;
    esac
}
complete -o filenames -F _tufcheck tufcheck
