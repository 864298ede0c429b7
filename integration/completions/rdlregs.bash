# Completion of rdlregs for bash: source it, or copy it to /usr/share/bash-completion/completions/rdlregs.
_rdlregs() {
    local word=${COMP_WORDS[COMP_CWORD]} before=${COMP_WORDS[COMP_CWORD - 1]} command=${COMP_WORDS[1]}
    if [ "$COMP_CWORD" -eq 1 ]; then
        mapfile -t COMPREPLY < <(compgen -W "compile axi check map header manual sim vcd pins run drive gen" -- "$word")
        return
    fi
    case $before in
    --waits)
        mapfile -t COMPREPLY < <(compgen -W "0 1" -- "$word")
        return
        ;;
    --top) return ;;
    esac
    case $command:$word in
    compile:-* | run:-*) mapfile -t COMPREPLY < <(compgen -W "--waits --top" -- "$word") ;;
    axi:-* | check:-* | map:-* | header:-* | manual:-* | drive:-*) mapfile -t COMPREPLY < <(compgen -W "--top" -- "$word") ;;
    gen:*) ;;
    *) mapfile -t COMPREPLY < <(compgen -f -- "$word") ;;
    esac
}
complete -o filenames -F _rdlregs rdlregs
