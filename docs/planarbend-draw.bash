# Completion of planarbend-draw for bash. package/completion.py writes it from --help.
_planarbend_draw() {
    local command= word=$2 before=$3 words=
    if ((COMP_CWORD > 1)); then command=${COMP_WORDS[1]}; fi
    if [[ $word == = ]]; then word=; fi
    if [[ $before == = ]]; then before=${COMP_WORDS[COMP_CWORD - 2]}; fi
    case $command:$before in
    *:--format) words="list dot graphml gml json graph6 netlist board" ;;
    *:--theme) words="light dark auto" ;;
    *:--outer | *:--straight | *:--split | *:--sheet | *:--module | *:--flags | *:--wire | *:--effort | *:--seed | *:--scale | *:--graphs) compopt +o default ;;
    *:*) if [[ $word == -* ]]; then words="-h --help -o --output --format --outer --straight --split --sheet --module --flags --wire --free --compact --effort --seed --scale --theme --graphs"; fi ;;
    esac
    mapfile -t COMPREPLY < <(compgen -W "$words" -- "$word")
}
complete -o default -F _planarbend_draw planarbend-draw
