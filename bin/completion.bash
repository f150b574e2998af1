# Completion of the command fluturenc for bash. `make install` puts its words in.
_fluturenc() {
    local typed=${COMP_WORDS[COMP_CWORD]} known=
    if [ "$COMP_CWORD" -eq 1 ]; then
        mapfile -t COMPREPLY < <(compgen -W '@WORDS@ help --help --version' -- "$typed")
        return
    fi
    case ${COMP_WORDS[1]} in
    help)
        mapfile -t COMPREPLY < <(compgen -W '@WORDS@' -- "$typed")
        return
        ;;
    frames | list | why | registers) known='vv5404 vv6404 vv5300' ;;
    picture) known='vv5404 vv6404 odd-pixels-first -o' ;;
    compare) known='vv5404 vv6404 -o' ;;
    means) known='vv5300' ;;
    settings) [ "$COMP_CWORD" -ne 3 ] || known='save find back messages list' ;;
    esac
    compopt -o filenames 2> /dev/null
    mapfile -t COMPREPLY < <(
        compgen -W "$known --help" -- "$typed"
        compgen -f -- "$typed"
    )
}
complete -F _fluturenc fluturenc
