# Completion of krbtool for bash. Made from commands.toml by `make generate`; don't edit it.
_krbtool() {
    local word=${COMP_WORDS[COMP_CWORD]} before=${COMP_WORDS[COMP_CWORD-1]} options
    COMPREPLY=()
    if [ "$COMP_CWORD" -eq 1 ]; then
        COMPREPLY=($(compgen -W 'list-keytab list-ccache check-keytab check-ccache convert-keytab convert-ccache pick-key remove-key add-keys request accept finish explain help --help --version' -- "$word"))
        return
    fi
    case $before in
        --at | --confounder | --file | --keytab | --kvno | --now | --only | --out | --reply | --service | --skew | --started | --time | --token | --usec) return ;;
    esac
    case ${COMP_WORDS[1]} in
        list-keytab) options='--readable --help' ;;
        list-ccache) options='--readable --now --help' ;;
        check-keytab) options='--help' ;;
        check-ccache) options='--help' ;;
        convert-keytab) options='--replace --help' ;;
        convert-ccache) options='--replace --help' ;;
        pick-key) options='--kvno --help' ;;
        remove-key) options='--out --help' ;;
        add-keys) options='--out --help' ;;
        request) options='--time --usec --confounder --mutual --token --help' ;;
        accept) options='--skew --started --service --only --tokens --help' ;;
        finish) options='--time --usec --reply --help' ;;
        explain) options='--file --keytab --at --skew --only --help' ;;
        help) options='list-keytab list-ccache check-keytab check-ccache convert-keytab convert-ccache pick-key remove-key add-keys request accept finish explain' ;;
        *) return ;;
    esac
    case $word in
        -*) COMPREPLY=($(compgen -W "$options" -- "$word")) ;;
        *) [ "${COMP_WORDS[1]}" = help ] && COMPREPLY=($(compgen -W "$options" -- "$word")) ;;
    esac
}
complete -o default -F _krbtool krbtool
