# Completion of uvt for bash.
_uvt() {
    local word=${COMP_WORDS[COMP_CWORD]} command=${COMP_WORDS[1]} words=''
    if [ "$COMP_CWORD" = 1 ]; then
        words='debug replay live why find worst shell view record dump attach force hunt libuv dap help'
    else
        case $command in
        help) [ "$COMP_CWORD" != 2 ] || words='why find worst shell view record dump attach force hunt libuv dap' ;;
        live) words='--workers' ;;
        why) words='--beside' ;;
        view) words='--trace-event --cpuprofile --at' ;;
        libuv) words='--node' ;;
        find) words='-o -j --full' ;;
        worst) words='-o --no-sessions --differ --for --states -j --json' ;;
        record) words='-o --log --most --worst --last --from --bare --lift --keep --late' ;;
        dump) words='-o' ;;
        attach) words='-o --keep --late --javascript --detach' ;;
        force) words='-o --stop --early --random --stall --seed --loop --limit --test --check --quiet' ;;
        hunt) words='-o --for --part --join --same-output --check --seed --report' ;;
        esac
    fi
    COMPREPLY=($(compgen -W "$words" -- "$word"))
    if [ "$COMP_CWORD" != 1 ] && [ "$command" != help ] && [ "$command" != dap ]; then
        compopt -o filenames
        mapfile -t -O "${#COMPREPLY[@]}" COMPREPLY < <(compgen -f -- "$word")
    fi
}
complete -F _uvt uvt
