# Completes the scripts' command lines in bash: options, tables, listing fields and files.

_bufr_scripts() {
    local word=${COMP_WORDS[COMP_CWORD]} before=${COMP_WORDS[COMP_CWORD - 1]} options='' words=''
    local keys='offset= length= edition= centre= update= category= tables= time= subsets= observed= compressed= optional= descriptors='
    COMPREPLY=()
    case ${COMP_WORDS[0]##*/} in
        bufr-auto) options='--encode --max-length' ;;
        bufr-csv) options='-c --levels --keep --names --json --where --max-length' ;;
        bufr-extract)
            options='--awk --max-length'
            words=$keys
            ;;
        bufr-parallel)
            options='-P -B -D'
            [[ " ${COMP_WORDS[*]:1:COMP_CWORD-1} " == *' dump '* ]] || words='dump'
            ;;
        bufr-plot)
            options='--value --message --subset'
            [ "$COMP_CWORD" -gt 1 ] || words='map sounding'
            ;;
    esac
    case $before in
        -B | -D)
            compopt -o filenames 2> /dev/null
            mapfile -t COMPREPLY < <(compgen -d -- "$word"; compgen -f -X '!*.csv' -- "$word")
            return
            ;;
        --where) options='' words=$keys ;;
        -c | --keep | --max-length | -P | --awk | --value | --message | --subset) return ;;
    esac
    if [[ $word == -* ]]; then
        mapfile -t COMPREPLY < <(compgen -W "$options --help --version" -- "$word")
    else
        mapfile -t COMPREPLY < <(compgen -W "$words" -- "$word")
        if [ ${#COMPREPLY[@]} -eq 0 ]; then
            compopt -o filenames 2> /dev/null
            mapfile -t COMPREPLY < <(compgen -f -- "$word")
        elif [[ ${COMPREPLY[0]} == *= ]]; then
            compopt -o nospace 2> /dev/null
        fi
    fi
}
complete -F _bufr_scripts bufr-auto bufr-csv bufr-extract bufr-lacks bufr-parallel bufr-plot
