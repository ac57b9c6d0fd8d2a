# Completion of the words of lotd, for bash: /usr/share/bash-completion/completions/lotd
_lotd() {
    local cur prev words cword
    _init_completion || return
    case $prev in
        --db | --acts) _filedir; return ;;
        --day) COMPREPLY=($(compgen -W "$(date +%F)" -- "$cur")); return ;;
        --port) COMPREPLY=($(compgen -W 8080 -- "$cur")); return ;;
        --max) COMPREPLY=($(compgen -W "1000 1000000" -- "$cur")); return ;;
    esac
    local line=${words[1]} options
    if [ "$cword" = 1 ]; then
        COMPREPLY=($(compgen -W "init serve import apply card notice history audit label --help --version" -- "$cur"))
        return
    fi
    case $line in
        init) options="--db --day" ;;
        serve) options="--db --port --max --log --acts" ;;
        import) options="--db --acts" ;;
        apply | card | notice | history) options="--db" ;;
        audit) options="--db --day" ;;
        label) options="--day" ;;
        *) return ;;
    esac
    if [[ $cur == -* || $line == init || $line == serve || $line == audit || $line == history ]]; then
        local given
        for given in "${words[@]:2:cword-2}"; do options=${options//$given/}; done
        COMPREPLY=($(compgen -W "$options --help" -- "$cur"))
    elif [[ $line == import || $line == apply ]]; then
        _filedir
    fi
}
complete -F _lotd lotd
