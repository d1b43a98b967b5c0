# Completion of hall's words for bash.

_hall() {
    local word=${COMP_WORDS[COMP_CWORD]} before=${COMP_WORDS[COMP_CWORD - 1]}
    local commands="run serve report export check import trial migrate ship follow paper prove"
    commands="$commands list audit acts"
    local options
    COMPREPLY=()
    if [ "$COMP_CWORD" -eq 1 ]; then
        mapfile -t COMPREPLY < <(compgen -W "$commands" -- "$word")
        return
    fi
    case $before in
        --book) mapfile -t COMPREPLY < <(compgen -f -- "$word"); return ;;
        --cells) mapfile -t COMPREPLY < <(compgen -d -- "$word"); return ;;
        --limit | --lanes | --remote | --doors | --port | --connections) return ;;
        --batch | --after | --rows | --shipments) return ;;
    esac
    case ${COMP_WORDS[1]} in
        run) options="--book --limit --lanes --cells --remote" ;;
        serve) options="--book --limit --lanes --cells --remote --doors --port --connections" ;;
        report | paper) options="--book --batch" ;;
        export | check | migrate) options="--book" ;;
        follow) options="--book --shipments" ;;
        audit) options="--book --rows" ;;
        ship | acts) options="--book --after" ;;
        import | list) options="--book --limit" ;;
        *) return ;;
    esac
    mapfile -t COMPREPLY < <(compgen -W "$options" -- "$word")
}
complete -o filenames -F _hall hall
