#compdef lpd_server
# zsh completion for lpd_server: the commands and options are those that the program's own --help names.

_lpd_server_options() {
    "$@" --help 2> /dev/null | sed -n 's/^ *\(-[a-zA-Z], \)\{0,1\}\(--[a-z][a-z-]*\).*/\2/p'
}

_lpd_server() {
    local program=$words[1] command=
    local -a found
    (( CURRENT > 2 )) && command=$words[2]
    case $words[CURRENT-1] in
        --log) compadd time journal; return ;;
        --by) compadd user host queue; return ;;
        --printer) compadd -S '' lp=file: lp=folder: lp=socket://; return ;;
        --port|--bind|--server|--allow|--proxied|--status|--status-host|--sessions|--connections|--rotate|--silence|--per-host|--slowest|--patience|--printer-silence|--restart|--since|--until|--after|--ends|--taken)
            return ;;
        --out|--spool|--account|--control|--printed) _files; return ;;
    esac
    if [[ -z $command ]]; then
        found=(${(f)"$("$program" --help 2> /dev/null | sed -n '/^Commands:/,/^$/s/^  \([a-z]*\) .*/\1/p')"} ${(f)"$(_lpd_server_options "$program")"})
        compadd -a found
    elif [[ $command == control && $CURRENT -eq 4 ]]; then
        compadd status start hold release remove cancel resend rotate stop
    elif [[ $words[CURRENT] == -* ]]; then
        found=(${(f)"$(_lpd_server_options "$program" "$command")"})
        compadd -a found
    else
        _files
    fi
}

_lpd_server "$@"
