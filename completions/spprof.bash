# Completions of spprof for bash. To install: docs/INSTALL.md.

_spprof() {
    local cur=${COMP_WORDS[COMP_CWORD]} command='' options='' values=' --burden --join-burden --parts --workers --top --faster --site '
    local used=' ' skip='' ended='' index word
    COMPREPLY=()

    # The words before this one: the command, the options that are used, whether a value comes now, and whether a `--` came.
    # Bash makes three words of --burden=3.
    for ((index = 1; index < COMP_CWORD; index++)); do
        word=${COMP_WORDS[index]}
        if [[ $word == '=' ]]; then
            skip=1
        elif [[ -n $skip ]]; then
            skip=
        elif [[ -z $command ]]; then
            command=$word
        elif [[ -n $ended ]]; then
            :
        elif [[ $word == -- ]]; then
            ended=1
        elif [[ $word == -?* ]]; then
            used+="$word "
            [[ $values != *" $word "* ]] || skip=1
        fi
    done
    # A value is a number or a name of the trace.
    [[ -z $skip && $cur != '=' ]] || return 0

    case $command in
        '') options='check figures profile advise compare encode migrate help -h --help -V --version' ;;
        help)
            ((COMP_CWORD != 2)) || options='check figures profile advise compare encode migrate'
            [[ -z $options ]] || mapfile -t COMPREPLY < <(compgen -W "$options" -- "$cur")
            return 0
            ;;
        check | encode | migrate) options='--explain -h --help' ;;
        figures | compare) options='--burden --join-burden --parts --workers --explain -h --help' ;;
        profile) options='--burden --join-burden --parts --workers --csv --explain -h --help' ;;
        advise) options='--burden --join-burden --parts --workers --top --faster --site --csv --explain -h --help' ;;
        *) return 0 ;;
    esac
    if [[ -z $command ]]; then
        [[ $cur == -* ]] || options=${options%% -*}
        mapfile -t COMPREPLY < <(compgen -W "$options" -- "$cur")
    elif [[ $cur == -* && -z $ended ]]; then
        # An option may stand once.
        for word in $options; do
            [[ $used == *" $word "* || $word != "$cur"* ]] || COMPREPLY+=("$word")
        done
    else
        compopt -o filenames 2> /dev/null
        mapfile -t COMPREPLY < <(compgen -f -- "$cur")
    fi
}

complete -F _spprof spprof
