#!/bin/sh
# flashnor-serprog OPTION..: sets up the serial port that dev= names, and then runs the program flashnor_serprog.
#
# `make install` installs this script as flashnor-serprog, since the program itself can't set up a port. The port must
# be raw: a terminal that changes bytes (such as 0Dh to 0Ah) would change the bytes that are sent to the chip and read
# from it.
#
# If dev= names a character device, and stty is missing or can't set it up, a message is printed, and the program
# doesn't run. If stty can't read the settings of the device, the device isn't a terminal or can't be opened. The
# program then runs, and reports a fault itself. FLASHNOR_SERPROG_STTY=no in the environment leaves the port as it is.

# The program is where `make install` puts it, or next to this script, as in the archive of `make dist`. The dot
# preserves a newline at the end of the path that readlink prints.
here=$(readlink -f "$0" && echo .) || {
    echo "flashnor-serprog: readlink -f doesn't find this script, so the program isn't found" >&2
    exit 1
}
here=${here%/*}
program=$here/../libexec/flashnor_serprog
[ -x "$program" ] || program=$here/flashnor_serprog

# find_device VALUE: sets `device` to the device that the value of -p names, if it names one. Commas separate the
# settings in the value.
find_device() {
    settings=${1#serprog:},
    while [ -n "$settings" ]; do
        setting=${settings%%,*}
        settings=${settings#*,}
        case $setting in
            dev=*) device=${setting#dev=} ;;
        esac
    done
}

device=
previous=
for word in "$@"; do
    case $previous in
        -p | --programmer) find_device "$word" ;;
    esac
    case $word in
        --programmer=*) find_device "${word#*=}" ;;
        --*) ;;
        -*)
            flags=${word#-}
            while :; do
                case $flags in
                    [VnNERhL]?*) flags=${flags#?} ;;
                    *) break ;;
                esac
            done
            case $flags in
                p) word=-p ;;
                p?*)
                    flags=${flags#p}
                    find_device "${flags#=}"
                    ;;
            esac
            ;;
    esac
    previous=$word
done

if [ -c "$device" ] && [ "${FLASHNOR_SERPROG_STTY-}" != no ] && ! command -v stty > /dev/null; then
    echo "flashnor-serprog: there is no stty, which sets up the port" >&2
    exit 1
fi
if [ -c "$device" ] && [ "${FLASHNOR_SERPROG_STTY-}" != no ] && before=$(stty -F "$device" -a 2> /dev/null); then
    stty -F "$device" raw -echo clocal -hupcl min 0 time 50 || exit 1
    # Many Arduino boards restart when a port without this setup is opened, and reply only after the restart.
    case $before in
        *-hupcl*) ;;
        *) sleep 2 ;;
    esac
fi
exec "$program" "$@"
