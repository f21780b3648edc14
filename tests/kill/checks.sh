# shellcheck shell=bash disable=SC2034,SC2154
# run.sh sources this file. Its functions check the order of the calls of a run, the directories that a run syncs,
# locks, and the permissions, owners and times of files.

# Counts one check. The check failed if the arguments describe a problem.
counted() {
    if [[ -z $* ]]; then passed=$((passed + 1)); else tell "$run: $*"; fi
}

# Prints the number of the last call in `made` that is one of the arguments, or 0 if there is none.
last_of() {
    local i line number=0
    for ((i = 0; i < ${#made[@]}; i++)); do
        for line in "$@"; do [[ ${made[i]} != "$line" ]] || number=$((i + 1)); done
    done
    echo "$number"
}

# Prints the mistakes in the order of the calls in `made`. Among others, these rules apply. Before a session writes
# image or status, it must sync the journal and its directory. After their last write, image and status must be
# truncated and synced. Image, status and journal must be opened at most once.
problems_of_order() {
    local name opened first=0 written
    for name in image status journal; do
        opened=$(printf '%s\n' "${made[@]}" | grep -cE "^(open|over|hold|make) $name\$" || true)
        ((opened <= 1)) || echo "$name is opened $opened times. "
    done
    for name in image status; do
        written=$(last_of "write $name")
        ((written > 0)) || continue
        ((first > 0)) || first=$written
        (($(last_of "ftruncate $name") > written)) || echo "$name isn't truncated after its last write. "
        (($(last_of "fsync $name") > $(last_of "ftruncate $name" "write $name"))) || echo "$name is not synced last. "
        (($(last_of "statx $name") > $(last_of "fsync $name"))) || echo "$name is not looked at after its sync. "
        (($(last_of "make $name") == 0 || $(last_of 'fsync .') > $(last_of "make $name"))) ||
            echo "$name is created, and its directory not synced. "
    done
    [[ ${made[*]:0:3} == 'open / open / open /' ]] || echo 'the root directory is not opened three times at first. '
    printf '%s\n' "${made[@]}" | awk '/^close \/$/ { is_over = 1 } is_over && !/^close / { exit 1 }' ||
        echo 'the root directory is closed before all other calls. '
    ((first > 0)) || ! printf '%s\n' "${made[@]}" | grep -qE '^(make|over|hold|flock) (image|status)$' ||
        echo 'a reading run opens the chip for writing. '
    [[ -n $kept && -z $sealed ]] || return 0
    (($(last_of 'fsync journal') > $(last_of 'write journal'))) || echo 'journal is not synced last. '
    (($(last_of 'statx journal') > $(last_of 'fsync journal'))) || echo 'journal is not looked at after its sync. '
    (($(last_of 'fsync journal') < first)) || echo 'journal is synced after the chip is written. '
    (($(last_of 'statx journal') > $(last_of 'fsync image' 'fsync status'))) ||
        echo 'journal is not looked at after the chip is written. '
    [[ $(printf '%s,' "${made[@]:0:first}") == *'make journal,'*'fsync .,'* ]] ||
        echo 'the directory of journal is not synced before the chip is written. '
}

check_order() {
    local problems
    problems=$(problems_of_order)
    counted "${problems//$'\n'/}"
}

# check NAME: runs the check of this name, unless run.sh was given the name of another run.
check() {
    local run=$1 from=(byte_00 clear) sealed='' kept='' before=$passed
    [[ -z $only || $only == "$1" ]] || return 0
    "check_$1"
    echo "$1: $((passed - before)) checks"
}

# Checks that a run that creates its journal syncs the journal's directory, and that a run whose image is missing syncs
# the image's directory.
check_folders() {
    local name folder
    mkdir -p a/b
    for name in journal ./journal ../journal a/journal a/b/journal "$PWD/journal"; do
        folder=.
        [[ $name != */* ]] || folder=${name%/*}
        begin
        rm -f "$name"
        attempt 0 '' -p "$on_tiny" -w ../byte_01 --journal "$name"
        if [[ $ended == 0 && $(< calls) == *"make $name"$'\n'*"fsync $folder"$'\n'* ]]; then
            counted
        else
            counted "$name is created, and its directory is not synced"
        fi
    done
    # If the image is missing in the root directory, the run must sync the root directory. This run ends before it
    # creates a file, because the file `../none` doesn't exist.
    begin
    attempt 0 '' -p dummy:emulate=TINY64,image=/flashnor.$$ -w ../none --journal journal
    if [[ $(< faults) == 'File fault 1: ../none.' && $(< calls) == *$'open /\nfsync /\n'* ]]; then
        counted
    else
        counted "/flashnor.$$ is missing, and its directory is not synced. $(cat said faults)"
    fi
}

# Checks that a session and a restore refuse a locked image or status, a restore an exclusively locked journal, a
# verification a locked trace, and a readout a locked file of -r (all skipped without flock). Also checks that no other
# process can take an exclusive lock on these files while a session, restore or readout uses them (`holds_all`).
check_locks() {
    local file
    if command -v flock > /dev/null; then
        for file in image status; do
            begin
            "$program" -p "$on_tiny" -w ../byte_01 --journal journal > said
            is_refused "$file" 5 "$file" --restore journal
            # If the journal's file exists, the session ends with file fault 4 before it takes a lock.
            is_refused "$file" 4 journal -w ../byte_00 --journal journal
            rm journal
            is_refused "$file" 5 "$file" -w ../byte_00 --journal journal
        done
        begin
        "$program" -p "$on_tiny" -w ../byte_01 --journal journal > said
        is_refused journal 5 journal --restore journal
        : > trace
        on_tiny+=,trace=trace is_refused trace 5 trace -v ../byte_01
        : > out
        is_refused out 5 out -r out
        # A restore takes a shared lock on its journal, so it must succeed if another process has a shared lock, too.
        flock --shared --no-fork journal "$program" -p "$on_tiny" --restore journal > said 2>&1 || true
        [[ $(tail -n 1 said) != Done* ]] || file=''
        counted ${file:+"a restore doesn't share its journal with another one: $(cat said)"}
    else
        echo "skipped: files locked by another process, since there is no flock"
    fi
    begin
    holds_all session 10 -w ../byte_01 --journal journal
    holds_all restore 10 --restore journal
    rm -f image status journal
    holds_all 'session that creates the chip' 10 -w ../byte_01 --journal journal
    holds_all restore 10 --restore journal
    on_tiny+=,trace=trace holds_all read 2 -r out
}

# is_refused LOCKED NUMBER NAME ARGUMENTS..: runs the program while LOCKED has an exclusive lock of flock(1), which acts
# like that of another process. The run must end with file fault NUMBER of NAME, and leave all files as they are.
is_refused() {
    local status=0 files
    files=$(sum_of ./*)
    flock --no-fork --nonblock "$1" "$program" -p "$on_tiny" "${@:4}" > ../said 2> ../faults || status=$?
    [[ $(sum_of ./*) == "$files" ]] || status=$status,changed
    if [[ $status == 1 && ! -s ../said && $(< ../faults) == "File fault $2: $3." ]]; then
        counted
    else
        counted "$1 was locked by another process, and ${*:4} ended with $status. $(cat ../said ../faults)"
    fi
}

sum_of() { for each in "$@"; do [[ ! -f $each ]] || cksum "$each"; done; }

# holds_all WHAT LEAST ARGUMENTS..: runs the program, and checks that no other process can lock its files. From the
# first write or read of the journal on, image and status must be locked. The journal must be locked while it is written
# or restored from, and the trace and the file of -r while they are written. At least LEAST calls must be checked.
holds_all() {
    local problem
    LOCKS=yes attempt 0 '' -p "$on_tiny" "${@:3}"
    problem=$(awk -v least="$2" '
        /^(write|read) journal$/ { is_begun = 1 }
        /^read journal$/ { is_restore = 1 }
        $1 != "free" {
            call = $0
            is_journal = is_restore || call ~ /^(write|fsync) journal$/
            is_watched = is_begun && call ~ /^(read|write|ftruncate|fsync|lseek) (image|status|journal)$/
            is_output = call ~ /^write (trace|out)$/
            count += is_watched || is_output
        }
        $1 == "free" && is_watched && ($2 ~ /^(image|status)$/ || $2 == "journal" && is_journal) && !told {
            told = $2 " is not locked at the call " call
        }
        $1 == "free" && is_output && call ~ $2 && !told {
            told = $2 " is not locked at the call " call
        }
        END { print told ? told : count < least ? "only " count " calls are made with the files locked" : "" }' calls)
    [[ $ended == 0 ]] || problem="it ended with $ended. $(cat said faults)"
    counted ${problem:+"$1: $problem"}
}

# Checks that new files don't get more permissions than image and status have, that existing files keep their
# permissions and owner, and that a run that doesn't change the chip leaves its files as they were.
check_modes() {
    local mask image status journal file words left
    while read -r mask image status journal; do
        begin
        chmod "$image" image
        chmod "$status" status
        with_mask "$mask" -w ../byte_01 --journal journal
        has_modes "with umask $mask" image="$image" status="$status" journal="$journal"
    done << EOT
022 644 644 644
022 600 644 600
022 644 640 640
077 644 644 600
022 666 666 644
002 664 664 664
EOT
    while read -r mask file left journal; do
        begin
        rm "$file"
        chmod "$left" image status 2> /dev/null || true
        with_mask "$mask" -w ../byte_01 --journal journal
        has_modes "with umask $mask and no $file" image="$left" status="$left" journal="$journal"
    done << EOT
022 image 640 640
077 status 600 600
EOT
    # Even with a umask that forbids writing, a session must write the files of a new chip. Root can write every file,
    # so the program runs as another user, if possible.
    local program=$program as_other=()
    if [[ $(id -u) == 0 ]]; then
        cp "$program" ../program
        program=../program as_other=(setpriv --reuid=65534 --regid=65534 --clear-groups)
        chmod 777 . .. ../program
        "${as_other[@]}" test -x ../program 2> /dev/null || {
            echo 'left out: new files of another user than root, who has no way to the program, or there is no setpriv'
            as_other=()
        }
    fi
    for mask in 222 777; do
        begin
        rm image status
        with_mask $mask -w ../byte_01 --journal journal
        left=$(printf %o $((0666 & ~0$mask)))
        has_modes "with umask $mask and no chip" image="$left" status="$left" journal="$left"
        chmod 600 image status
        have byte_01 clear || tell "$run: umask $mask leaves another chip"
    done
    as_other=()
    # If the permissions of image or status can't be read, only the owner may get access to the journal.
    for file in image status; do
        begin
        attempt 0 '' -p "$on_tiny" -w ../byte_01 --journal journal
        mask=$(grep -n "^fstat $file\$" calls | while IFS=: read -r left words; do
            (($(grep -n '^make journal$' calls | cut -d: -f1) < left)) || echo "$left"
        done | tail -n 1)
        begin
        attempt "${mask:-0}" EIO -p "$on_tiny" -w ../byte_01 --journal journal
        has_modes "without the permissions of $file" journal=600
    done
    begin
    with_mask 027 -r out
    has_modes 'a new file of -r with umask 027' out=640
    keeps_owner
    keeps_all
}

# with_mask MASK ARGUMENTS..: runs the program with this umask. The run must end with status 0.
with_mask() {
    local problem=''
    (umask "$1" && ${as_other[@]+"${as_other[@]}"} "$program" -p "$on_tiny" "${@:2}") > said 2> faults || problem=$?
    counted ${problem:+"umask $1, ${*:2}: ended with $problem. $(cat said faults)"}
}

# has_modes WHAT NAME=MODE..: checks that each file NAME has the permissions MODE.
has_modes() {
    local pair found problem=''
    for pair in "${@:2}"; do
        found=$(stat -c %a "${pair%=*}" 2> /dev/null || echo none)
        ((8#${found/none/0} == 8#${pair#*=})) || problem+=" ${pair%=*} has $found and not ${pair#*=}."
    done
    counted ${problem:+"$1:$problem"}
}

# Checks that a session and its restore keep the owner, permissions and inode of image and status. The session must also
# keep those of an existing trace, and the restore those of its journal and the journal's time of modification.
keeps_owner() {
    local of='%n %i %u %g %a' before traced=$on_tiny,trace=trace
    begin
    echo old > trace
    chmod 640 image status trace
    # Only root can give files to another user.
    [[ $(id -u) != 0 ]] || chown 65534:65534 image status trace
    before=$(stat -c "$of" image status trace)
    "$program" -p "$traced" -w ../byte_01 --journal journal > said
    has_stat "a session" "$before" "$of" image status trace
    before=$(stat -c "$of %y" journal; stat -c "$of" image status)
    "$program" -p "$on_tiny" --restore journal > said
    has_stat "a restore" "$before" "$of %y" journal "$of" image status
}

# has_stat WHAT STAT FORMAT NAME.. [FORMAT NAME..]: checks that stat prints STAT for these files in these formats.
has_stat() {
    local found='' what=$1 wanted=$2 format=$3 each
    shift 3
    for each in "$@"; do
        if [[ $each == %* ]]; then format=$each; else found+=$(stat -c "$format" "$each")$'\n'; fi
    done
    [[ $found != "$wanted"$'\n' ]] || what=''
    counted ${what:+"$what leaves $found, and before there was $wanted"}
}

# Checks that runs that don't change the chip keep the permissions, owner, inode, length and times (of the last change
# of contents and inode) of image, status and an existing empty journal.
keeps_all() {
    local words before of='%n %i %u %g %a %s %y %z'
    begin
    touch -d @1000000000 image status
    : > journal
    before=$(stat -c "$of" image status journal)
    for words in '' '-r out' '-v ../byte_00' '-v ../byte_01' '-w ../byte_01 --rehearse 25' \
        '-w ../byte_01 --journal journal' '-w ../byte_01' '--restore none'; do
        # shellcheck disable=SC2086  # `words` is a list of arguments
        "$program" -p "$on_tiny" $words > said 2> faults || true
        has_stat "the run '$words'" "$before" "$of" image status journal
    done
}
