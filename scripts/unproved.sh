#!/usr/bin/env bash
# scripts/unproved.sh CRATE FILE: compiles the program of a crate without proving it, and writes it to FILE.
#
# `rt try` compiles a program, and removes it afterwards. So the script runs the `rt` of a directory of links to the kit
# (and copies of its scripts), in which the linker is replaced by a script that calls the kit's linker, and then copies
# the linked program. This program has the runtime checks of `rt try`, which make it about ten times slower. If it
# doesn't compile, the script prints the error output of `rt`, and leaves FILE as it was.
set -euo pipefail

crate=$1
file=$(realpath -ms "$2")
kit=$(realpath "$(command -v rt)")
kit=${kit%/bin/*}
work=$(mktemp -d)
trap 'rm -rf "$work"' EXIT

# link_all NAME: makes a directory of links to the contents of the directory NAME of the kit.
link_all() {
    mkdir "$work/kit/$1"
    ln -s "$kit/$1"/* "$work/kit/$1"
}

mkdir "$work/kit"
ln -s "$kit"/* "$work/kit"
for name in bin toolchain; do
    rm -f "$work/kit/$name"
    link_all "$name"
done
rm -f "$work/kit/toolchain/bin"
link_all toolchain/bin
# `rt` looks for the kit where its own files are, so its scripts are copied, not linked.
find "$kit/bin" -type f -size -1024k -exec cp -f --remove-destination {} "$work/kit/bin" \;
linker=$work/kit/toolchain/bin/ld.lld
rm -f "$linker"
{
    printf '#!/usr/bin/env bash\n'
    printf '%q "$@" && cp program %q\n' "$kit/toolchain/bin/ld.lld" "$work/program"
} > "$linker"
chmod 755 "$linker"

cd "$(dirname "$0")/../crates/$crate"
"$work/kit/bin/rt" try -- -h > "$work/printed" 2> "$work/said" < /dev/null || true
if [[ ! -x $work/program ]]; then
    cat "$work/said" >&2
    echo "this kit keeps no unproved program of $crate" >&2
    exit 1
fi
mkdir -p "${file%/*}"
cp "$work/program" "$file.new"
mv -f "$file.new" "$file"
