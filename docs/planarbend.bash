# Completion of planarbend for bash. package/completion.py writes it from --help.
_planarbend() {
    local command= word=$2 before=$3 words=
    if ((COMP_CWORD > 1)); then command=${COMP_WORDS[1]}; fi
    if [[ $word == = ]]; then word=; fi
    if [[ $before == = ]]; then before=${COMP_WORDS[COMP_CWORD - 2]}; fi
    case $command:$before in
    layout:--outer) words="first best" ;;
    layout:--drawing) words="short quick" ;;
    layout:--lanes | layout:--waiting) compopt +o default ;;
    layout:*) if [[ $word == -* ]]; then words="--lanes --waiting --outer --drawing --json --progress -h --help"; fi ;;
    frames:*) if [[ $word == -* ]]; then words="-h --help"; fi ;;
    check:*) if [[ $word == -* ]]; then words="--json --faces -h --help"; fi ;;
    pick:--rule) words="none range loop multi asymmetric edgeless degree disconnected genus" ;;
    pick:--outer) words="first best" ;;
    pick:--bends | pick:--vertices | pick:--edges | pick:--faces | pick:--lanes | pick:--waiting) compopt +o default ;;
    pick:*) if [[ $word == -* ]]; then words="--bends --rule --vertices --edges --faces --not --outer --lanes --waiting --progress -h --help"; fi ;;
    count:--rule) words="none range loop multi asymmetric edgeless degree disconnected genus" ;;
    count:--outer) words="first best" ;;
    count:--bends | count:--vertices | count:--edges | count:--faces | count:--by | count:--lanes) compopt +o default ;;
    count:*) if [[ $word == -* ]]; then words="--bends --rule --vertices --edges --faces --not --by --outer --lanes --progress -h --help"; fi ;;
    help:*) words="layout frames check pick count" ;;
    *) words="layout frames check pick count help --version -h --help" ;;
    esac
    mapfile -t COMPREPLY < <(compgen -W "$words" -- "$word")
}
complete -o default -F _planarbend planarbend
