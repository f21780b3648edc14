# shellcheck shell=bash
# Completion of the command lines of flashnor and flashnor-serprog for bash, from 3.2 on. Source this file, or install
# it (make install).
#
# To test it without a keyboard, set COMP_LINE, COMP_POINT, COMP_WORDS and COMP_CWORD as bash does, with ':' and '=' as
# words of their own, call _flashnor or _flashnor_serprog, and read COMPREPLY.

# The chips of the table, as -L lists them.
_flashnor_chips=(W25Q64FV W25Q128FV)

# The further chips, which only flashnor-serprog knows by their ID.
_flashnor_further_chips=(W25Q32FV W25Q32FW W25Q64FW W25Q128FW W25Q32JV-M W25Q64JV-M W25Q128JV-M)

# Other names of chips with the ID of one of these, which flashnor-serprog also takes.
_flashnor_other_names=(W25Q32BV W25Q32CV W25Q32DV W25Q32JV W25Q32JV-Q W25Q32.V W25Q64BV W25Q64CV W25Q64JV W25Q64JV-Q
    W25Q64JV-.Q W25Q64BV/W25Q64CV/W25Q64FV W25Q128BV W25Q128JV W25Q128JV-Q W25Q128.V W25Q32DW W25Q32JW-Q W25Q32.W
    W25Q64DW W25Q64JW-Q W25Q64.W W25Q128JW-Q W25Q128.W W25Q64JV-.M W25Q128.V..M)

# Stores the words of the line up to the cursor in the array `words`, the one that is being typed last. Words are
# separated only by spaces, as the shell separates them. Bash also splits the words that it passes at ':' and '='.
_flashnor_words() {
    local typed=${COMP_LINE:0:COMP_POINT} piece
    words=()
    for piece in "${COMP_WORDS[@]:0:COMP_CWORD+1}"; do
        if [[ ${#words[@]} -eq 0 || $typed == [[:space:]]* ]]; then
            typed=${typed#"${typed%%[![:space:]]*}"}
            words+=("")
        fi
        [[ $typed == "$piece"* ]] || piece=$typed
        words[${#words[@]} - 1]+=$piece
        typed=${typed:${#piece}}
    done
}

# Offers the candidates that begin as the word does; `lead`, if it is set, is the part of the typed word before both.
# Bash splits the typed word at ':' and '=', and keeps the part before the last of these on the line, so that part is
# removed from the candidates.
_flashnor_answer() {
    local word=${lead-}$1 mark kept=''
    for mark in : =; do
        if [[ $COMP_WORDBREAKS == *"$mark"* && $word == *"$mark"* ]]; then
            local front=${word%"$mark"*}$mark
            ((${#front} > ${#kept})) && kept=$front
        fi
    done
    local candidate
    for candidate in "${@:2}"; do
        candidate=${lead-}$candidate
        [[ $candidate == "$word"* ]] && COMPREPLY+=("${candidate:${#kept}}")
    done
}

# Offers files whose names begin as the part of the word after `front` does, or with -d, for a new file, only
# directories. `front` is the part of the word before the name. A backslash before a space in the word is the shell's.
_flashnor_files() {
    local word=${1//\\/} front=$2 kind=$3 name names=()
    while IFS= read -r name; do
        names+=("$front$name")
    done < <(compgen "$kind" -- "${word#"$front"}")
    compopt -o filenames 2> /dev/null
    _flashnor_answer "$word" "${names[@]}"
}

# Offers values of flashnor's -p: the programmer, its keys (each once), the emulated chips, and files for the keys that
# name one. The file of a trace is truncated, so only directories are offered for it, as for -r.
_flashnor_programmer() {
    local word=$1 key keys=()
    compopt -o nospace 2> /dev/null
    if [[ $word != dummy:* ]]; then
        _flashnor_answer "$word" dummy:
        return
    fi
    local last=${word#dummy:}
    last=${last##*,}
    local front=${word%"$last"}
    case $last in
        emulate=*)
            for key in TINY64 "${_flashnor_chips[@]}"; do
                keys+=("${front}emulate=$key")
            done
            _flashnor_answer "$word" "${keys[@]}"
            ;;
        image=* | status=*) _flashnor_files "$word" "$front${last%%=*}=" -f ;;
        trace=*) _flashnor_files "$word" "$front${last%%=*}=" -d ;;
        *=*) ;;
        *)
            for key in emulate image status stop trace unique busy power; do
                [[ ,${front#dummy:} == *",$key="* ]] || keys+=("$front$key=")
            done
            _flashnor_answer "$word" "${keys[@]}"
            ;;
    esac
}

# Offers values of flashnor-serprog's -p: the programmer, its keys (each once), and files for dev=.
_flashnor_serprog_programmer() {
    local word=$1 key keys=()
    compopt -o nospace 2> /dev/null
    if [[ $word != serprog:* ]]; then
        _flashnor_answer "$word" serprog:
        return
    fi
    local last=${word#serprog:}
    last=${last##*,}
    local front=${word%"$last"}
    case $last in
        dev=*) _flashnor_files "$word" "${front}dev=" -f ;;
        *=*) ;;
        *)
            for key in dev spispeed cs; do
                [[ ,${front#serprog:} == *",$key="* ]] || keys+=("$front$key=")
            done
            _flashnor_answer "$word" "${keys[@]}"
            ;;
    esac
}

# Prints the name of each region of a layout file.
_flashnor_layout_names() {
    local region
    while read -r _ region || [[ -n $region ]]; do
        [[ -z $region ]] || printf '%s\n' "$region"
    done < "$1"
}

# Prints the name of each area of the first FMAP in an image. Its header takes 56 bytes, the last two of which are the
# number of areas. An area takes 42 bytes, and has its name in bytes 8 to 39.
_flashnor_fmap_names() {
    local start count
    start=$(LC_ALL=C grep -abom 1 __FMAP__ "$1" | head -n 1)
    [[ -n $start ]] || return
    start=${start%%:*}
    count=$(tail -c "+$((start + 55))" "$1" | head -c 2 | od -An -v -tu2 | tr -d ' ')
    tail -c "+$((start + 57))" "$1" | head -c "$((42 * ${count:-0}))" | od -An -v -tu1 -w42 |
        awk '{ name = ""; for (at = 9; at <= 40 && $at > 0; at++) name = name sprintf("%c", $at); print name }'
}

# Prints the names of the regions of the layout on this line, as far as they are known without a chip.
_flashnor_region_names() {
    local place kind file
    for ((place = 0; place + 1 < ${#words[@]}; place++)); do
        kind=${words[place]}
        file=${words[place + 1]}
        case $kind in
            -l?*) file=${kind#-l} ;;
            --ifd | --ifd-file) printf '%s\n' fd bios me gbe pd bios2 ec ie 10gbe ;;
        esac
        [[ -r $file && ! -d $file ]] || continue
        case $kind in
            -l*) _flashnor_layout_names "$file" ;;
            --fmap-file) _flashnor_fmap_names "$file" ;;
        esac
    done
}

# Offers the regions of the layout on this line, except those that an -i has already, and for flashnor-serprog a file
# after NAME: (with -r, whose files are truncated, only directories). Offers begin with the part of the word up to its
# last comma.
_flashnor_regions() {
    local word=$1 front=${1%"${1##*,}"} last=${1##*,} region regions=() kind=-f place
    local taken=,$front
    if [[ ${words[0]} == *serprog && $last == *:* ]]; then
        [[ " ${words[*]} " != *" -r "* ]] || kind=-d
        _flashnor_files "$word" "$front${last%%:*}:" "$kind"
        return
    fi
    for ((place = 0; place + 2 < ${#words[@]}; place++)); do
        [[ ${words[place]} != -i ]] || taken+=${words[place + 1]},
    done
    while IFS= read -r region; do
        [[ $taken == *",$region,"* || $taken == *",$region:"* ]] || regions+=("$front$region")
    done < <(_flashnor_region_names)
    compopt -o nospace 2> /dev/null
    _flashnor_answer "$word" "${regions[@]}"
}

# Stores the option that a long name of flashnor-serprog means in `letter`; any other word as it is.
_flashnor_letter() {
    case ${1%%=*} in
        --programmer) letter=-p ;;
        --chip) letter=-c ;;
        --read) letter=-r ;;
        --write) letter=-w ;;
        --verify) letter=-v ;;
        --erase) letter=-E ;;
        --list-supported) letter=-L ;;
        --layout) letter=-l ;;
        --include | --image) letter=-i ;;
        --noverify) letter=-n ;;
        --noverify-all) letter=-N ;;
        --verbose) letter=-V ;;
        --output) letter=-o ;;
        --version) letter=-R ;;
        --help) letter=-h ;;
        *) letter=$1 ;;
    esac
}

# Succeeds if this word is an operation. A line has only one operation.
_flashnor_is_operation() {
    case ${1%%=*} in
        -r | -w | -v | -E | -L | --flash-size | --flash-name | --wp-status | --wp-list | --wp-range) ;;
        --restore | --backup | --check-journal | --wp-enable | --wp-disable) ;;
        *) return 1 ;;
    esac
}

# Offers those of the given options that the line doesn't have yet, by either of their names, without a second
# operation.
_flashnor_options() {
    local word=$1 option given operation='' letter rest=()
    for given in "${words[@]:0:${#words[@]}-1}"; do
        _flashnor_is_operation "$given" && operation=$given
    done
    for option in "${@:2}"; do
        _flashnor_letter "$option"
        [[ -n $operation ]] && _flashnor_is_operation "$letter" && continue
        [[ " ${words[*]:0:${#words[@]}-1} " == *" $letter "* ]] || rest+=("$option")
    done
    _flashnor_answer "$word" "${rest[@]}"
}

# Stores the words of the line in `words`, the one that is being typed in `word`, and the one before it in `before`. A
# long option before that word and its value after `=` are two words.
_flashnor_begin() {
    local given parts=()
    COMPREPLY=()
    _flashnor_words
    word=${words[${#words[@]} - 1]}
    for given in "${words[@]:0:${#words[@]}-1}"; do
        case $given in
            --*=*) parts+=("${given%%=*}" "${given#*=}") ;;
            *) parts+=("$given") ;;
        esac
    done
    words=("${parts[@]}" "$word")
    before=''
    ((${#words[@]} < 2)) || before=${words[${#words[@]} - 2]}
}

_flashnor() {
    local words=() word before
    _flashnor_begin
    case $before in
        -p) _flashnor_programmer "$word" ;;
        -c) _flashnor_answer "$word" "${_flashnor_chips[@]}" SFDP ;;
        -w | -v | -l | --restore) _flashnor_files "$word" "" -f ;;
        -r | --journal) _flashnor_files "$word" "" -d ;;
        -i) _flashnor_regions "$word" ;;
        --wp-range | --rehearse) ;;
        *)
            case $word in
                --restore=*) _flashnor_files "$word" "${word%%=*}=" -f ;;
                --journal=*) _flashnor_files "$word" "${word%%=*}=" -d ;;
                *)
                    _flashnor_options "$word" -p -r -w -v -E --flash-size --wp-status --wp-list --wp-range --restore \
                        -L -c -l -i -n --unlock --journal --rehearse -h
                    ;;
            esac
            ;;
    esac
}

# The options on the line count as their letters.
_flashnor_serprog() {
    local words=() word before letter place
    _flashnor_begin
    for ((place = 0; place + 1 < ${#words[@]}; place++)); do
        _flashnor_letter "${words[place]}"
        words[place]=$letter
    done
    _flashnor_letter "$before"
    case $letter in
        -p) _flashnor_serprog_programmer "$word" ;;
        -c)
            _flashnor_answer "$word" "${_flashnor_chips[@]}" "${_flashnor_further_chips[@]}" \
                "${_flashnor_other_names[@]}" SFDP
            ;;
        -w | -v | -l | --restore | --check-journal | --fmap-file | --ifd-file) _flashnor_files "$word" "" -f ;;
        -o | -r | --journal | --backup | --extract-image) _flashnor_files "$word" "" -d ;;
        --progress) _flashnor_answer "$word" auto plain none ;;
        -i) _flashnor_regions "$word" ;;
        --wp-range) ;;
        *)
            case $word in
                --programmer=*) lead=--programmer= _flashnor_serprog_programmer "${word#*=}" ;;
                --include=* | --image=*) lead=${word%%=*}= _flashnor_regions "${word#*=}" ;;
                --write=* | --verify=* | --layout=* | --restore=* | --check-journal=* | --fmap-file=* | --ifd-file=*)
                    _flashnor_files "$word" "${word%%=*}=" -f
                    ;;
                --output=* | --read=* | --journal=* | --backup=* | --extract-image=*)
                    _flashnor_files "$word" "${word%%=*}=" -d
                    ;;
                --progress=*) _flashnor_answer "$word" --progress={auto,plain,none} ;;
                *)
                    _flashnor_options "$word" -p --programmer -r --read -w --write -v --verify -E --erase --backup \
                        --restore --check-journal --extract-image --flash-name --flash-size --wp-status --wp-list \
                        --wp-range --wp-enable --wp-disable -L --list-supported -c --chip -l --layout \
                        --fmap-file --ifd-file --fmap --ifd -i --include --journal --unlock -n --noverify \
                        -N --noverify-all --quick --replaced-chip --progress -V --verbose -o --output \
                        -R --version -h --help
                    ;;
            esac
            ;;
    esac
}

complete -F _flashnor flashnor
complete -F _flashnor_serprog flashnor-serprog
