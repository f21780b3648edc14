# shellcheck shell=bash disable=SC2154
# run.sh sources this file. Its functions check a run in which one call was interrupted. If a comment doesn't say
# otherwise, $1 is the number of the call in `made`, $2 the call itself, and $3 the way in which it was interrupted
# (cut.c).

# Succeeds if $1 is image or status, and exists before the run.
was_there() { [[ $1 == image && ${from[0]} != - || $1 == status && ${from[1]} != - ]]; }

# Succeeds if the file $1 is image or status.
is_chips() { [[ $1 == image || $1 == status ]]; }

# Succeeds if the call comes after the last read, write or sync of the journal, and stats that follow it. From then on,
# the run writes image and status, and prints its result.
is_late() { (($1 > called)); }

# Succeeds if the call is a stat of an input file, and stats of the image and an open follow it. If this stat fails, the
# program treats the input file as missing.
is_ahead() {
    local i
    [[ ${made[$1 - 1]} == 'statx ../'* && ${made[$1]:-} == 'statx image' ]] || return 1
    for ((i = $1; i < ${#made[@]}; i++)); do
        case ${made[i]} in
            'statx image') ;;
            hold* | open*) return 0 ;;
            *) return 1 ;;
        esac
    done
    return 1
}

# Succeeds if the call is the last stat of image or status, which the run makes after it wrote both. This stat doesn't
# follow a sync, and an fstat of the file follows it.
is_last_look() {
    local name=${made[$1 - 1]#* }
    is_late "$1" && is_chips "$name" && [[ ${made[$1 - 2]:-} != fsync* ]] \
        && [[ "${made[$1 - 1]},${made[$1]:-}" == "statx $name,fstat $name" ]]
}

# Prints the ways in which the call $1 is interrupted.
# A call that reads changes nothing, so it only fails or reads fewer bytes; for a chip of 8 MiB only reads of the layout
# are interrupted. Most calls of stat, fstat and `open /` are interrupted only in some runs, for which `deep` is set. In
# the way `grown`, the run must truncate the file to its right length. The way `last` is tried only on files that
# existed before, because their bytes may become durable in any order.
ways() {
    local call=${made[$1 - 1]:-none} name
    name=${call#* }
    case $call in
        'open /') [[ -z $deep ]] || echo before after EACCES EIO EMFILE ENFILE ENOMEM EINTR ;;
        statx* | fstat*)
            [[ -z $deep ]] || echo EIO
            [[ $run != one_byte* || $call == fstat* ]] || echo ESTALE ENOENT ENOTDIR
            ;;
        read*) [[ $chip != $on_tiny* && $name != *layout ]] || echo EIO ESTALE EINTR part ;;
        write*)
            echo before one half most after ENOSPC EDQUOT EFBIG EIO EINTR short part
            ! was_there "$name" || echo last
            ;;
        'fsync .') echo before after ENOSPC EIO EDQUOT ESTALE ETIMEDOUT EINVAL EOPNOTSUPP ENOSYS EINTR ;;
        fsync*) echo before after ENOSPC EIO EDQUOT EINTR ;;
        'open .') echo before after EACCES EPERM EIO EMFILE ENFILE ENOMEM EINTR ;;
        open* | hold*)
            echo before after EACCES EIO EMFILE ENFILE ESTALE ENOMEM EINTR
            [[ $call != hold* ]] || echo EMFILE+ ESTALE+
            ;;
        dup*) echo before EIO EMFILE ;;
        lseek*) echo before EIO ;;
        flock*) echo before after EAGAIN EIO ENOLCK EOPNOTSUPP ENOSYS ;;
        make*)
            echo before after EACCES EROFS ENOSPC EIO EMFILE EINTR
            ! is_chips "$name" && [[ $name != journal ]] || echo there
            ;;
        over* | close*) echo before after EIO ;;
        *) echo before after ENOSPC EIO EINTR ;;
    esac
    ! is_late "$1" || ! is_chips "$name" || case $call in write* | ftruncate* | lseek*) echo grown ;; esac
    ! can_be_replaced "$1" "$call" || echo stranger
    [[ $call,${made[$1 - 2]:-} != 'statx journal,fsync journal' ]] || echo shrunk
}

# Succeeds if another process may replace the file before this call (the way `stranger`). The call must work on an image
# or status that is being written, or on the journal of a session.
can_be_replaced() {
    case $2 in
        write*image | write*status | ftruncate*image | ftruncate*status | fsync*image | fsync*status) is_late "$1" ;;
        write*journal | fsync*journal) [[ -z $sealed ]] ;;
        statx*) [[ ${made[$1 - 2]:-} == "fsync ${2#* }" ]] && { is_late "$1" || [[ $2 == *journal ]]; } ;;
        *) return 1 ;;
    esac
}

# Prints the file for which the call $1 opens, syncs or closes a directory: the image, status or journal that was last
# used before.
owner_of() {
    local i
    for ((i = $1 - 2; i >= 0; i--)); do
        case ${made[i]} in
            *' image' | *' status' | *' journal') echo "${made[i]#* }" && return ;;
        esac
    done
}

# Prints the lines that the program must print if this call failed in this way.
lines_of() {
    local name=${2#* } memory='Error 18: out of memory.'
    [[ $name != . ]] || name=$(owner_of "$1")
    case $3,$2 in
        there,*journal) echo "File fault 4: $name." ;;
        EAGAIN,flock*) echo "File fault $(is_late "$1" && echo 2 || echo 5): $name." ;;
        *,'open /') echo 'File fault 1: /.' ;;
        *,'read trace' | *,'read out') echo "File fault 2: $name." ;;
        *,flock* | *,'make journal' | *,'open .' | *,'fsync .') echo "File fault 2: $name." ;;
        *,statx* | *,fstat*) line_of_look "$1" "$name" "$3" ;;
        ENOMEM,open* | ENOMEM,read*) echo "$memory" ;;
        *,open* | *,read* | *,dup* | *,'lseek journal' | *+,hold*) echo "File fault 1: $name." ;;
        short,'write out') echo 'Error 19: output failed after 32768 bytes.' ;;
        *,'write out') echo 'Error 19: output failed after 0 bytes.' ;;
        *,'lseek image' | *,'lseek status') echo "File fault $(is_late "$1" && echo 2 || echo 1): $name." ;;
        *journal) echo 'Error 11: journal not written.' ;;
        short,*) ;;
        *) echo "File fault 2: $name." ;;
    esac
    [[ $3 != short ]] || lines_without_room "$1"
}

# line_of_look NUMBER NAME WAY: prints the line for a failed stat or fstat of NAME. After a sync of NAME, and after
# image and status were written, the program checks that NAME still refers to its file. Before it opens a file for
# writing, it checks that the file is regular, or that neither a file nor a link has this name. It compares other names
# before it starts its work.
line_of_look() {
    if is_late "$1" && [[ $2 == journal ]] || is_last_look "$1"; then
        echo "File fault 2: $2."
        return
    fi
    case ${made[$1 - 2]:-},${made[$1 - 1]},${made[$1]:-},$3 in
        'fsync journal',* | 'statx journal','fstat journal',*) echo 'Error 11: journal not written.' ;;
        fsync* | statx*,fstat* | hold* | *,hold*,ENOENT) echo "File fault 2: $2." ;;
        *) echo "File fault 1: $2." ;;
    esac
}

# Succeeds if the run must ignore that this stat or fstat failed, for one of these reasons:
# - The length of a file that is read is only a hint.
# - The program only asks whether a file that it will read, the trace, or the file of -r is a FIFO.
# - The program only asks whether the journal or another new file exists.
# - Standard output and standard error have a second name (/dev/fd).
# - The program only needs the permissions of a file to choose those of a new file.
is_hint() {
    [[ $2 != *' /proc/self/fd/'[12] ]] || return 0
    ! { is_late "$1" && [[ $2 == *' journal' ]] || is_last_look "$1" || is_ahead "$1"; } || return 1
    case ${made[$1 - 2]:-},$2,${made[$1]:-} in
        open*,fstat*,* | lseek*,fstat*,* | flock*,statx*,* | *,statx*,'make '* | *,statx*,'open '[!.]*) ;;
        'statx journal','statx journal',*) ;;
        *,fstat*,'make journal' | *,'fstat image','fstat status' | *,'fstat image','make status') ;;
        *,hold* | fsync*) return 1 ;;
        *,statx*,*) [[ $3 == ENOENT || $3 == ENOTDIR ]] ;;
        *) return 1 ;;
    esac
}

# Prints a line for each of image, status and trace that is written from call $1 on. In the way `short`, all later
# writes fail too.
lines_without_room() {
    local name later
    later=$(printf '%s\n' "${made[@]:$1 - 1}")
    for name in image status trace; do
        ! grep -qx "write $name" <<< "$later" || echo "File fault 2: $name."
    done
}

# Succeeds if the run printed the lines of `lines_of`, and left the right files. If the call is late (`is_late`), or
# wrote or truncated the trace, the run must also have printed its usual result.
is_told() {
    local printed='' faults
    faults=$(lines_of "$@")
    if is_late "$1" || [[ $2 == 'write trace' || $2 == 'ftruncate trace' ]]; then
        if [[ $answer == Error* ]]; then faults=$answer$'\n'$faults; else printed=$answer; fi
        is_left_but_for "$faults" || return 1
    else
        is_untouched || return 1
    fi
    [[ $ended == 1 && $(< said) == "$printed" && $(< faults) == "$faults" ]]
}

# Succeeds if the files in the arguments are as an uninterrupted run leaves them.
is_as_own() {
    local file
    for file in "$@"; do
        if [[ -e $own/$file ]]; then cmp -s "$file" "$own/$file"; else [[ ! -e $file ]]; fi || return 1
    done
}

# Succeeds if all files are as an uninterrupted run leaves them, except files for which the lines in $1 have a file
# fault 2.
is_left_but_for() {
    local file
    for file in "${files[@]}"; do
        [[ $1 == *"File fault 2: $file."* ]] || is_as_own "$file" || return 1
    done
}

# Succeeds if image and status are as before the run. A file that was missing may be that of an erased chip. It may have
# any contents if the run reported file fault 2 for it.
is_untouched() {
    local i file=(image status) erased=(erased clear)
    for i in 0 1; do
        if [[ ${from[i]} != - ]]; then
            cmp -s "${file[i]}" "../${from[i]}" || return 1
        elif [[ -e ${file[i]} && $(< faults) != *"File fault 2: ${file[i]}."* ]]; then
            cmp -s "${file[i]}" "../${erased[i]}" || return 1
        fi
    done
}

# Succeeds if each file in the arguments is missing, or is a prefix of the file that an uninterrupted run leaves.
is_prefix() {
    local file
    for file in "$@"; do
        [[ ! -e $file ]] || cmp -s -n "$(stat -c %s "$file")" "$file" "$own/$file" || return 1
    done
}

# Succeeds if the killed run printed nothing. If only calls of close were left, it may have printed its result.
is_silent() {
    local call
    [[ -s said || -s faults ]] || return 0
    for call in "${made[@]:$1 - 1}"; do [[ $call == close* ]] || return 1; done
}

# Succeeds if the file $1 has only the bytes `more`, which cut.c wrote as another process.
has_more() { cmp -s "$1" <(printf more); }

# Succeeds if the run reported that another file has taken the name of its file, and didn't change this other file. If
# the run's own file existed before, it must be as an uninterrupted run leaves it.
is_replaced() {
    local name=${2#* }
    has_more "$name" || return 1
    mv "$name.old" "$name"
    is_told "$1" "$2" EIO || return 1
    ! was_there "$name" || is_as_own "$name"
}

# Succeeds if the run ended as it must after this call was interrupted in this way. In these cases it must end as if the
# call had succeeded:
# - A close failed: the standard library ignores this error, and all files were synced before.
# - A read or write moved only a part of its bytes, or any call failed with EINTR: the program makes the call again.
# - Another process appended bytes to the file (`grown`): the program truncates the file.
# - The directory `.` can't be opened (EACCES, EPERM), or its file system can't sync it (EINVAL, EOPNOTSUPP, ENOSYS).
# - The file system has no locks (ENOLCK, EOPNOTSUPP, ENOSYS).
# - A stat or fstat failed whose result is only a hint (`is_hint`).
ended_rightly() {
    [[ $(< calls) == *$'\n'"cut $3"* ]] || return 1
    [[ $3 == last || $3 == stranger ]] || is_prefix trace out || return 1
    [[ $3 == there || $3 == stranger || -n $sealed ]] || is_prefix journal || return 1
    case $3,$2 in
        part,* | grown,* | EINTR,* | E*,close*) is_own ;;
        EINVAL,'fsync .' | EOPNOTSUPP,'fsync .' | ENOSYS,'fsync .' | EACCES,'open .' | EPERM,'open .') is_own ;;
        ENOLCK,flock* | EOPNOTSUPP,flock* | ENOSYS,flock*) is_own ;;
        E*,statx* | E*,fstat*) if is_hint "$1" "$2" "$3"; then is_own; else is_told "$@"; fi ;;
        E*,'open /') is_told "$@" && ! sed '1,/^cut/d' calls | grep -qv '^close /$' ;;
        there,*) is_told "$@" && has_more "${2#* }" ;;
        stranger,*) is_replaced "$@" ;;
        shrunk,*) is_told "$1" "$2" EIO ;;
        E*,* | short,*) is_told "$@" ;;
        *) [[ $ended == 137 ]] && is_silent "$1" ;;
    esac
}
