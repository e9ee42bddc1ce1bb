# Completion of outagebook for bash.
_outagebook() {
    local current=${COMP_WORDS[COMP_CWORD]} before=${COMP_WORDS[COMP_CWORD-1]} subcommand= word options=
    for word in "${COMP_WORDS[@]:1:COMP_CWORD-1}"; do
        case $word in
            total|init|import|export|interruptions|table|indices|audit|migrate|serve|help) subcommand=$word; break ;;
        esac
    done
    case $before in
        --book) COMPREPLY=($(compgen -f -- "$current")); return ;;
        --by) COMPREPLY=($(compgen -W 'feeder month day cause section whole' -- "$current")); return ;;
        --first|--days|--zone|--port|--streams|--over) COMPREPLY=(); return ;;
    esac
    case $subcommand in
        '') options='total init import export interruptions table indices audit migrate serve help --help --version' ;;
        total) options='--help' ;;
        init) options='--book --first --days --zone --help' ;;
        import) options='--book --whole --help' ;;
        export|interruptions) options='--book --help' ;;
        table|audit|migrate) options='--book --help' ;;
        indices) options='--book --by --over --help' ;;
        serve) options='--book --port --streams --help' ;;
        help) options='total init import export interruptions table indices audit migrate serve' ;;
    esac
    COMPREPLY=($(compgen -W "$options" -- "$current"))
    if [[ $subcommand =~ ^(import|export|interruptions)$ ]] && [[ $current != -* ]]; then
        COMPREPLY+=($(compgen -f -- "$current"))
    fi
}
complete -o filenames -F _outagebook outagebook
