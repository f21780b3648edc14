#!/usr/bin/env bash
# scripts/pack.sh DIRECTORY PROGRAM HARDWARE FILE..: fills a new directory with the contents of the archive of `make
# dist`, except PROVED-WITH and SHA256SUMS, which the Makefile adds. These are both programs, the script
# flashnor-serprog, the installer, and the given files under their own names.
#
# The directory gets a README for users without Rattle's kit. So the project's README moves to docs/, and the links on
# the pages are changed accordingly.
set -euo pipefail

into=$(realpath -m "$1")
mkdir -p "$into/docs"
install -m 755 "$2" "$into/flashnor"
install -m 755 "$3" "$into/flashnor_serprog"
cd "$(dirname "$0")/.."
install -m 755 scripts/flashnor-serprog.sh "$into/flashnor-serprog"
install -m 755 scripts/archive/install.sh "$into/install.sh"
cp --parents -- "${@:4}" "$into"
sed 's#](\([A-Z]*\.md\)#](../\1#g; s#](docs/#](#g' README.md > "$into/docs/README.md"
sed -i 's#](\.\./README\.md#](README.md#g' "$into"/docs/*.md
sed -i 's#](README\.md#](docs/README.md#g' "$into"/*.md
cp scripts/archive/README.md "$into/README.md"
