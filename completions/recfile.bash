# Completion of recfile in bash, as share/bash-completion/completions/recfile.
_recfile() {
    local word=${COMP_WORDS[COMP_CWORD]} before=${COMP_WORDS[COMP_CWORD - 1]} command=${COMP_WORDS[1]}
    local commands="create run shell check copy explain show rescue dump load memory help" options=--help
    COMPREPLY=()
    if [ "$COMP_CWORD" = 1 ]; then
        COMPREPLY=($(compgen -W "$commands --help --version" -- "$word"))
        return
    fi
    case $before in
    --order) COMPREPLY=($(compgen -W "$(echo {1..16})" -- "$word")); return ;;
    --records | --log | --begins) return ;;
    esac
    case $command in
    create) options="--order --help" ;;
    run | shell) options="--records --log --begins --strict --durable --help" ;;
    memory) options="--records --log --begins --strict --help" ;;
    show) options="--svg --help" ;;
    dump) options="--tsv --csv --json --help" ;;
    load) options="--csv --records --help" ;;
    esac
    case $word,$command in
    -*) COMPREPLY=($(compgen -W "$options" -- "$word")) ;;
    *,help) COMPREPLY=($(compgen -W "$commands" -- "$word")) ;;
    *,memory) ;;
    *) COMPREPLY=($(compgen -f -- "$word")) ;;
    esac
}
complete -o filenames -F _recfile recfile
