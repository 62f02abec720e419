# Completes the commands of orcc in bash.
_orcc_proved() {
    COMPREPLY=()
    if [ "$COMP_CWORD" -eq 1 ]; then
        mapfile -t COMPREPLY < <(compgen -W "asm asm41 c check check41 dis emulate fmt gen header jobs lib lib41 obj run" -- "$2")
    fi
}
complete -F _orcc_proved @NAME@
