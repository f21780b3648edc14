#!/bin/sh
# install.sh [--remove]: installs the programs of this directory with their manual pages, their pages and the completion
# for bash, or removes them again.
#
# The files go below PREFIX (/usr/local if it isn't set), in DESTDIR if that is set.
set -eu

cd "$(dirname "$0")"
into=${DESTDIR-}${PREFIX:-/usr/local}
pages=$into/share/doc/flashnor
completions=$into/share/bash-completion/completions

if [ "${1-}" = --remove ]; then
    rm -f "$into/bin/flashnor" "$into/bin/flashnor-serprog" "$into/libexec/flashnor_serprog"
    rm -f "$into/share/man/man8/flashnor.8" "$into/share/man/man8/flashnor-serprog.8"
    rm -f "$into/share/man/man5/flashnor-journal.5" "$completions/flashnor" "$completions/flashnor-serprog"
    rm -rf "$pages"
    exit
fi
install -D -m 755 flashnor "$into/bin/flashnor"
install -D -m 755 flashnor-serprog "$into/bin/flashnor-serprog"
install -D -m 755 flashnor_serprog "$into/libexec/flashnor_serprog"
install -D -m 644 man/flashnor.8 "$into/share/man/man8/flashnor.8"
install -D -m 644 man/flashnor-serprog.8 "$into/share/man/man8/flashnor-serprog.8"
install -D -m 644 man/flashnor-journal.5 "$into/share/man/man5/flashnor-journal.5"
install -D -m 644 completion/flashnor.bash "$completions/flashnor"
ln -sf flashnor "$completions/flashnor-serprog"
for page in *.md docs/*.md LICEN*; do
    [ ! -f "$page" ] || install -D -m 644 "$page" "$pages/$page"
done
