#!/usr/bin/env bash
# Tests the completions that bash and, if it is installed, zsh offer for `bufr` and the scripts.
set -eu
. "$(dirname "$0")/lib.sh"

# offers WANTED WORD..: bash must offer WANTED for a command line with these words. The last word is incomplete.
offers() {
    local wanted=$1
    shift
    COMP_WORDS=("$program" "$@") COMP_CWORD=$# COMPREPLY=()
    set +e
    "$function"
    set -e
    [ "${COMPREPLY[*]}" = "$wanted" ] || fail "bash offers '${COMPREPLY[*]}' behind '$program $*', not '$wanted'"
}

# The builtin `compopt` works only during a completion, so this function replaces it.
compopt() { true; }

. completions/bufr.bash
program=bufr function=_bufr
offers 'plain compressed' encode --form ''
offers 'compressed' encode --form c
offers 'plain compressed' encode --form =
offers 'plain' encode --form = p
offers '-B -D --form --help' encode -
offers '--form' encode --f
. completions/bufr-scripts.bash
function=_bufr_scripts program=bufr-auto
offers '--encode' --e
offers 'examples/synop.bufr' --encode examples/synop.b
program=bufr-csv
offers '-c' -c
offers '--levels' --l
offers '' -c ''
offers 'category=' --where cat
offers 'examples/synop.bufr' -c 001015 examples/synop.b
program=bufr-extract
offers 'tables= time=' t
offers '' --awk ''
offers '--max-length' --m
offers '' --max-length ''
offers '--awk --max-length --help --version' -
offers 'examples/synop.bufr' time=2024 examples/synop.b
program=bufr-parallel
offers 'dump' d
offers 'tables/wmo-39/B.csv' -P 2 dump -B tables/wmo-39/B
offers '-P -B -D --help --version' -
program=bufr-plot
offers 'map sounding' ''
offers '--value --message --subset --help --version' map -
offers '' map --value ''

command -v zsh > /dev/null || { echo "$0: zsh is not there, its completions are skipped" && exit; }
# Starts zsh in a pseudo-terminal, types the line followed by a tab, and prints the completed line.
cat > "$work/zsh" << 'END'
zmodload zsh/zpty
zpty shell zsh -f -i
put() { zpty -w shell "$1"; }
put "PS1=; stty -echo; fpath=($PWD/completions \$fpath); autoload -Uz compinit; compinit -D -u"
put 'show() { print -r -- "shown$((1 + 1)):$BUFFER:"; zle kill-whole-line }; zle -N show; bindkey "^X" show; print ready$((1 + 1))'
zpty -r -m shell line '*ready2*'
zpty -w -n shell "$1"$'\t\x18'
zpty -r -m shell line '*shown2:*:*'
print -r -- ${${line##*shown2:}%%:*}
zpty -d shell
END
# completes BEGUN REST: zsh must complete the line BEGUN by adding REST.
completes() {
    local shown
    shown=$(timeout 30 zsh -f "$work/zsh" "$1") || fail "zsh completes nothing"
    [ "$shown" = "$1$2" ] || fail "zsh makes '$shown' of '$1'"
}
completes 'bufr encode --form=p' 'lain '
completes 'bufr encode --form p' 'lain '
completes 'bufr-csv --l' 'evels '
completes 'bufr-csv --where categ' 'ory='
completes 'bufr-csv -c 001015,subce' 'ntre'
