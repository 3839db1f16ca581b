# Completion for bash, of bmcast and of tools/bm; `source tools/completion.bash` has it in a shell.
# Made by tools/made of the tables in docs/formats.md: change those, and run tools/made.

_bmcast() {
    local word=$2 before=$3 option options=""
    case $before in
        --image | --disk | --schedule | --report | --out) mapfile -t COMPREPLY < <(compgen -f -- "$word") ;;
        --mode) mapfile -t COMPREPLY < <(compgen -W "fresh resume" -- "$word") ;;
        --id) mapfile -t COMPREPLY < <(compgen -W "7" -- "$word") ;;
        --block) mapfile -t COMPREPLY < <(compgen -W "8 16 32 64" -- "$word") ;;
        --gap) mapfile -t COMPREPLY < <(compgen -W "4" -- "$word") ;;
        --window) mapfile -t COMPREPLY < <(compgen -W "16" -- "$word") ;;
        --limit) mapfile -t COMPREPLY < <(compgen -W "8" -- "$word") ;;
        --memory) mapfile -t COMPREPLY < <(compgen -W "1048576" -- "$word") ;;
        --pool) mapfile -t COMPREPLY < <(compgen -W "8" -- "$word") ;;
        bmcast | */bmcast) mapfile -t COMPREPLY < <(compgen -W "run" -- "$word") ;;
        *)
            for option in --image --disk --schedule --report --out --mode --id --block --gap --window --limit --memory --pool; do
                [[ " ${COMP_WORDS[*]} " == *" $option "* ]] || options+="$option "
            done
            mapfile -t COMPREPLY < <(compgen -W "$options" -- "$word")
            ;;
    esac
}
complete -o filenames -F _bmcast bmcast

_bm() {
    local word=$2
    if [[ $COMP_CWORD -eq 1 ]]; then
        mapfile -t COMPREPLY < <(compgen -W "build run try check explain picture why image help" -- "$word")
        return
    fi
    case ${COMP_WORDS[1]}:$word in
        explain:-*) mapfile -t COMPREPLY < <(compgen -W "--timing" -- "$word") ;;
        picture:-*) mapfile -t COMPREPLY < <(compgen -W "--lines" -- "$word") ;;
        explain:* | picture:* | run:*)
            mapfile -t COMPREPLY < <(compgen -d -- "${word:-examples/}") ;;
        *) mapfile -t COMPREPLY < <(compgen -f -- "$word") ;;
    esac
}
complete -o filenames -F _bm bm
