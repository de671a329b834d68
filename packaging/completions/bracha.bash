# Completions of bash for bracha. Source it, or put it into /usr/share/bash-completion/completions/bracha.
_bracha() {
    local word=${COMP_WORDS[COMP_CWORD]} before=${COMP_WORDS[COMP_CWORD - 1]} at=1
    COMPREPLY=()
    [ "${COMP_WORDS[1]}" != --quiet ] || at=2
    if [ "$COMP_CWORD" -le "$at" ]; then
        compopt +o filenames # no slash after a command, also if a folder has its name
        mapfile -t COMPREPLY < <(compgen -W "new-cluster init check run propose ask decide status transcript audit gateway epochs dump migrate simulate rounds hear help --quiet --help --version" -- "$word")
        return
    fi
    case $before in
    --trace | --chart | --page | --token)
        mapfile -t COMPREPLY < <(compgen -f -- "$word")
        return
        ;;
    --order)
        compopt +o filenames
        mapfile -t COMPREPLY < <(compgen -W "random adversary links" -- "$word")
        return
        ;;
    --n | --t | --questions | --cluster | --port | --desk | --timeout | --question | --member | --from | --to | --seed | --seconds | --liars | --seeds | --me | --listen)
        return # a number or an address
        ;;
    esac
    case ${COMP_WORDS[at]} in
    init) mapfile -t COMPREPLY < <(compgen -W "--quiet --help" -f -- "$word") ;;
    check) mapfile -t COMPREPLY < <(compgen -W "--json --quiet --help" -f -- "$word") ;;
    run) mapfile -t COMPREPLY < <(compgen -W "--stay --log --log-json --any-host --quiet --help" -f -- "$word") ;;
    migrate) mapfile -t COMPREPLY < <(compgen -W "--quiet --help" -f -- "$word") ;;
    dump) mapfile -t COMPREPLY < <(compgen -W "--count --json --quiet --help" -f -- "$word") ;;
    simulate) mapfile -t COMPREPLY < <(compgen -W "--trace --chart --page --question --member --from --to --forever --seed --seconds --quiet --help" -f -- "$word") ;;
    rounds) mapfile -t COMPREPLY < <(compgen -W "--n --t --liars --order --seeds --chart --quiet --help" -- "$word") ;;
    hear) mapfile -t COMPREPLY < <(compgen -W "--n --t --questions --me --quiet --help" -- "$word") ;;
    gateway) mapfile -t COMPREPLY < <(compgen -W "--listen --token --quiet --help" -f -- "$word") ;;
    epochs) mapfile -t COMPREPLY < <(compgen -W "--json --timeout --quiet --help" -f -- "$word") ;;
    audit) mapfile -t COMPREPLY < <(compgen -W "--n --t --questions --all --timeout --quiet --help" -f -- "$word") ;;
    new-cluster) mapfile -t COMPREPLY < <(compgen -W "--n --t --questions --cluster --port --desk --epochs --quiet --help" -d -- "$word") ;;
    propose) mapfile -t COMPREPLY < <(compgen -W "--all --timeout --quiet --help" -f -- "$word") ;;
    ask) mapfile -t COMPREPLY < <(compgen -W "--all --wait --json --timeout --quiet --help" -f -- "$word") ;;
    decide) mapfile -t COMPREPLY < <(compgen -W "--all --json --timeout --quiet --help" -f -- "$word") ;;
    status) mapfile -t COMPREPLY < <(compgen -W "--all --question --links --ready --json --timeout --quiet --help" -f -- "$word") ;;
    transcript) mapfile -t COMPREPLY < <(compgen -W "--all --timeout --quiet --help" -f -- "$word") ;;
    help)
        compopt +o filenames
        mapfile -t COMPREPLY < <(compgen -W "new-cluster init check run propose ask decide status transcript audit gateway epochs dump migrate simulate rounds hear" -- "$word")
        ;;
    esac
}
complete -o filenames -F _bracha bracha
