# The launcher's words that need no program. It reads this file (`. tools/words.sh`) where it was given one of
# them, or has to say that no program is proved.

version=0.1
# How long `prove` takes from nothing, which README.md says in the same words: a sum over crates.
prove_time='52-96 processor minutes, 15-28 minutes on four processors'
none="there is no proved program of these sources: ./tilecatnip prove makes it ($prove_time)"

# The texts of help: behind `=` a command with its words, behind `:` what it does, behind `$` an example, behind
# `-` what a word stands for, behind `!` its statuses, and behind `#` what a status means.
texts=$top/tools/help.txt

# Adds a line to the text: what is to be so wide at least, and the rest.
add() {
    field=$2
    while [ "${#field}" -lt "$1" ]; do field="$field "; done
    case $3 in
        *PROVE_TIME*) set -- "$1" "$2" "${3%%PROVE_TIME*}$prove_time${3#*PROVE_TIME}" ;;
    esac
    text=$text$field$3$newline
}

# The text of all commands, each with what it does and its example.
help() {
    [ -r "$texts" ] || fail "$texts can't be read"
    text="usage: ./tilecatnip COMMAND WORDS$newline$newline"
    while read -r mark rest; do
        case $mark in
            =) column="  $rest" ;;
            :) add 22 "$column" "$rest" && column= ;;
            '$') add 22 '' "./tilecatnip $rest" ;;
        esac
    done <"$texts"
    text=$text$newline'Until `prove` has made the proved program, and after a change of the sources, an answer
comes from the same sources unproved, takes a minute or two, and says so on standard error.
For scripts: --proved before a command answers by the proved program or not at all
(status 70), --program prints its path, and --inputs lists what it is made of.'
}

# The text of what one command wants, its statuses and an example, where there is such a command.
help_of() {
    [ -r "$texts" ] || fail "$texts can't be read"
    text='' within='' statuses='' example=''
    while read -r mark rest; do
        case $mark:${rest%% *} in
            =:"$1") within=yes text="usage: ./tilecatnip $rest$newline$newline" ;;
            =:*) within= ;;
            \#:*)
                case " $statuses " in
                    *" ${rest%% *} "*) add 6 "  ${rest%% *}" "${rest#* }" ;;
                esac
                ;;
        esac
        case $within$mark in
            yes:) add 0 '' "$rest" ;;
            'yes$') example=$rest text=$text$newline ;;
            yes-) add 11 "  ${rest%% *}" "${rest#* }" ;;
            yes!)
                statuses=$rest text=${text%"$newline$newline"}
                text=${text%"$newline"}$newline$newline'statuses:'$newline
                ;;
        esac
    done <"$texts"
    [ -n "$text" ] && text=$text$newline'example:'$newline"  ./tilecatnip $example"
}

# The toolchain's line; without a toolchain in the path it is the recorded one.
toolchain() {
    if command -v rt >/dev/null 2>&1; then
        kit=$(rt version) || fail "rt version failed: the toolchain isn't known"
    elif [ -f "$record" ]; then
        IFS= read -r kit <"$record" || fail "the record of the program has no line"
    else
        fail "rt, the toolchain's command, isn't in the path, and none is recorded"
    fi
    [ -n "$kit" ] || fail "the toolchain's line is empty"
}

# Whether the program was proved by the toolchain in the path and by the proofs that stand.
is_proved_by_it() {
    [ -f "$program" ] && [ -x "$program" ] && [ -s "$record" ] || return
    toolchain
    sums
    recorded
    [ -n "$own" ] && [ "$kit$newline$listed$newline$own" = "$recorded" ]
}

needs() {
    command -v rt >/dev/null 2>&1 || fail "rt, the toolchain's command, isn't in the path, and $1"
    command -v python3 >/dev/null 2>&1 || fail "python3 isn't in the path, and $1"
}

# Prints a text that ends the call.
print() {
    printf '%s\n' "$1" 2>/dev/null || { echo 'cannot write' >&2; leave 4; }
    leave 0
}

case $#:${2-} in
    2:--help) ! help_of "$1" || print "$text" ;;
esac
case ${1-} in
    '') help && printf '%s\n' "$text" >&2; leave 2 ;;
    help | -h | --help)
        case $1:$# in
            help:2) ! help_of "$2" || print "$text" ;;
            *:1) help && print "$text" ;;
        esac
        echo 'usage: ./tilecatnip help [COMMAND]' >&2
        leave 2
        ;;
    --version) print "tilecatnip $version" ;;
    --inputs)
        toolchain
        sums
        print "$kit
$listed"
        ;;
    --program)
        is_proved || fail "$none"
        folder=$(CDPATH='' cd -- "$out" && pwd -P) && [ -n "$folder" ] || fail "the program's folder can't be entered"
        print "$folder/fx_prog"
        ;;
    prove)
        [ "$#" = 1 ] || { echo 'usage: ./tilecatnip prove' >&2; leave 2; }
        if is_proved_by_it; then
            say "the proved program stands"
            leave 0
        fi
        needs "the proof needs it"
        exec python3 "$top/tools/prove" "$prove_time"
        ;;
    install)
        [ "$#" -le 2 ] || { echo 'usage: ./tilecatnip install [PREFIX]' >&2; leave 2; }
        is_proved || fail "$none"
        command -v python3 >/dev/null 2>&1 || fail "python3 isn't in the path, and install needs it"
        exec python3 "$top/tools/install" "$version" "${2-/usr/local}"
        ;;
esac
