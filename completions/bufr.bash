# Completes bufr command lines in bash: commands, options, tables and files.

_bufr() {
    local word=${COMP_WORDS[COMP_CWORD]} before=${COMP_WORDS[COMP_CWORD - 1]} command=${COMP_WORDS[1]} options
    COMPREPLY=()
    if [ "$COMP_CWORD" -eq 1 ]; then
        mapfile -t COMPREPLY < <(compgen -W 'ls dump encode help --help --version' -- "$word")
        return
    fi
    case $command in
        ls) options='--help' ;;
        dump) options='-B -D --help' ;;
        encode) options='-B -D --form --help' ;;
        help)
            mapfile -t COMPREPLY < <(compgen -W 'ls dump encode' -- "$word")
            return
            ;;
        *) return ;;
    esac
    # Bash splits `--form=plain` into three words.
    [ "$word" != = ] || word=''
    [ "$before" != = ] || before=${COMP_WORDS[COMP_CWORD - 2]}
    case $before in
        --form)
            mapfile -t COMPREPLY < <(compgen -W 'plain compressed' -- "$word")
            return
            ;;
        -B | -D)
            compopt -o filenames 2> /dev/null
            mapfile -t COMPREPLY < <(compgen -d -- "$word"; compgen -f -X '!*.csv' -- "$word")
            return
            ;;
    esac
    if [[ $word == -* ]]; then
        mapfile -t COMPREPLY < <(compgen -W "$options" -- "$word")
    else
        compopt -o filenames 2> /dev/null
        mapfile -t COMPREPLY < <(compgen -f -- "$word")
    fi
}
complete -F _bufr bufr
