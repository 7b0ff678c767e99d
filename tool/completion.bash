# Completion of etglavino's commands, flags, forms and files for bash.

_etglavino() {
    local word=${COMP_WORDS[COMP_CWORD]} before=${COMP_WORDS[COMP_CWORD - 1]}
    local commands='convert check show table replace insert remove same extract split hours spool' flags
    COMPREPLY=()

    case $before in
        --from | --text)
            mapfile -t COMPREPLY < <(compgen -W 'canonical basic advanced terminal' -- "$word")
            return
            ;;
        --to | --syntax | -s)
            mapfile -t COMPREPLY < <(compgen -W 'canonical basic advanced' -- "$word")
            return
            ;;
        --threads | --size | --hint) return ;;
    esac
    if ((COMP_CWORD == 1)); then
        mapfile -t COMPREPLY < <(compgen -W "$commands --help --version" -- "$word")
        return
    fi
    if [[ ${COMP_WORDS[1]} == spool && $COMP_CWORD == 2 ]]; then
        mapfile -t COMPREPLY < <(compgen -W 'add list get check --help' -- "$word")
        return
    fi
    case ${COMP_WORDS[1]} in
        convert) flags='--from --to --syntax --output' ;;
        extract) flags='--from --to --output' ;;
        check) flags='--from --threads' ;;
        show) flags='--from --paths --html --output' ;;
        table) flags='--from' ;;
        replace | insert) flags='--from --to --text --output' ;;
        remove) flags='--from --to --output' ;;
        same) flags='--from --hint' ;;
        split) flags='--to --output' ;;
        hours) flags='--from --csv --output' ;;
        spool)
            case ${COMP_WORDS[2]} in
                add) flags='--from --size' ;;
                get) flags='--to --output' ;;
                check) flags='--threads' ;;
            esac
            ;;
    esac
    if [[ $word == -* ]]; then
        mapfile -t COMPREPLY < <(compgen -W "$flags --help" -- "$word")
    else
        mapfile -t COMPREPLY < <(compgen -f -- "$word")
    fi
}

complete -o filenames -F _etglavino etglavino
