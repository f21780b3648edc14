# shellcheck shell=bash
# The commands that a step of a case may call in addition to those of the system. trial.py sets these three variables.
: "${top:?}" "${program:?}" "${library?}"

flashnor() { timeout 60 "$program" "$@"; }

# `nobody flashnor ..`: runs the program as a user who isn't root, so that permissions apply.
nobody() {
    shift
    if ((EUID == 0)); then
        setpriv --reuid=65534 --regid=65534 --clear-groups timeout 60 "$program" "$@"
    else
        flashnor "$@"
    fi
}

# `terminal flashnor ..`: runs the program with its standard error at a terminal (terminal.py). Before `flashnor` there
# may be another of these commands.
terminal() {
    export top program library
    # shellcheck disable=SC2016  # the inner shell expands them
    python3 "$top/tests/flashnor/terminal.py" bash -c '. "$top/tests/flashnor/steps.sh"; "$@"' bash "$@"
}

# `closed flashnor ..`: runs the program here, with its three standard streams open. Then it runs the program with each
# of them closed, alone and together with others, each time in a copy of this directory. Each copy must have the same
# files afterwards as this directory. A stream that is open must get the same text as here. If a text could not be
# printed to standard output, standard error must first get the line `File fault 2: standard output.`. The status must
# be 1 if a text could not be printed, and else it must be the same as here. Each difference is printed, after the
# redirections that closed the streams.
closed() {
    local copies number wanted line status=0
    local ways=('<&-' '>&-' '2>&-' '<&- >&-' '<&- 2>&-' '>&- 2>&-' '<&- >&- 2>&-')
    copies=$(mktemp -d)
    for number in "${!ways[@]}"; do cp -a . "$copies/$number"; done
    "$@" > "$copies/printed" 2> "$copies/faults" || status=$?
    for number in "${!ways[@]}"; do
        wanted=$status
        run_closed "$copies/$number" "${ways[number]}" "$@" |
            while IFS= read -r line; do echo "${ways[number]}: $line"; done
    done
    cat "$copies/printed"
    cat "$copies/faults" >&2
    rm -rf "$copies"
    return "$status"
}

# run_closed COPY REDIRECTIONS WORDS..: runs the program in the copy with the streams closed by REDIRECTIONS, and prints
# how this run differs from what `closed` expects.
run_closed() {
    local copy=$1 way=$2 ended=0 stream text
    shift 2
    (cd "$copy" && eval '"$@" > "$copy.printed" 2> "$copy.faults"' "$way") || ended=$?
    : > "$copy.lost"
    [[ " $way" != *' >&-'* || ! -s $copies/printed ]] || echo 'File fault 2: standard output.' > "$copy.lost"
    for stream in '>&-:printed' '2>&-:faults'; do
        text=$copies/${stream#*:}
        if [[ " $way" == *" ${stream%:*}"* ]]; then
            [[ ! -s $text ]] || wanted=1
            text=/dev/null
        elif [[ $stream == *faults ]]; then
            text=$copy.wanted
            cat "$copy.lost" "$copies/faults" > "$text"
        fi
        diff -a "$text" "$copy.${stream#*:}"
    done
    [[ $ended == "$wanted" ]] || echo "status $ended, not $wanted"
    diff -rq . "$copy"
}

# `meanwhile MOMENT COMMAND flashnor ..`: runs the program, and the command just before the call that MOMENT names, as
# meanwhile.c describes it. The command may run the program too.
meanwhile() { at_moment "$1" "COMMAND=$2" "${@:4}"; }

# `failing MOMENT ERROR flashnor ..`: runs the program, and makes the call that MOMENT names fail, and all later ones
# like it.
failing() { at_moment "$1" "ERROR=$2" "${@:4}"; }

# `alike NAMES flashnor ..` or `alike NAMES meanwhile ..`: runs the program where the files with these names, which have
# a blank between them, have the same inode number, as files of two file systems may have.
alike() {
    export ALIKE="$1 "
    shift
    if [[ $1 == flashnor ]]; then
        timeout 60 env LD_PRELOAD="$library" "$program" "${@:2}"
    else
        "$@"
    fi
}

at_moment() {
    local came status=0
    came=$(mktemp -u)
    (
        export program
        export -f flashnor
        timeout 60 env LD_PRELOAD="$library" MOMENT="$1" CAME="$came" "$2" "$program" "${@:3}"
    ) || status=$?
    [[ -e $came ]] || echo "there was no moment '$1'"
    rm -f "$came"
    return "$status"
}

# `writes flashnor ..`: prints how many calls of write the program makes, as the system counts those of a process and of
# its children that have ended.
writes() {
    local before
    count_writes
    before=$count
    "$@" > /dev/null 2>&1
    count_writes
    echo $((count - before))
}

count_writes() {
    local key number
    while read -r key number; do
        [[ $key != syscw: ]] || count=$number
    done < "/proc/$BASHPID/io"
}

# `starts`: makes an image and a journal for each of its patterns of bytes, and prints the patterns (starts.py).
starts() { python3 "$top/tests/flashnor/starts.py"; }

# `make ..`: runs a target of the repository's Makefile with the program that is tested, even if the sources are newer.
# flashnor-serprog may not be built: the script server.py takes its place.
make() {
    command make --no-print-directory -s -C "$top" PROGRAM="$program" HARDWARE="$top/tests/serprog/server.py" \
        SOURCES= "$@"
}

# `completion LINE`: prints what bash offers at the end of this line, one offer per line. The line begins with the name
# of a program.
completion() {
    local COMP_LINE=$1 COMP_POINT=${#1} COMP_WORDBREAKS=$' \t\n"\'><=;|&(:' COMP_WORDS=() COMP_CWORD COMPREPLY=()
    local rest=$1 word
    while [[ -n $rest ]]; do
        if [[ $rest =~ ^(\ +) ]]; then
            rest=${rest#"${BASH_REMATCH[1]}"}
            [[ -n $rest ]] || COMP_WORDS+=("")
            continue
        fi
        [[ $rest =~ ^([:=]+|[^:=\ ]+) ]]
        word=${BASH_REMATCH[1]}
        COMP_WORDS+=("$word")
        rest=${rest#"$word"}
    done
    COMP_CWORD=$((${#COMP_WORDS[@]} - 1))
    . "$top/completion/flashnor.bash"
    "_${COMP_WORDS[0]//-/_}"
    ((${#COMPREPLY[@]} == 0)) || printf '%s\n' "${COMPREPLY[@]}"
}
