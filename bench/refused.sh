#!/usr/bin/env bash
# Makes a copy of the repository's crates in an empty folder, adds the module of bench/refused/ to the crate `fault_tests` there,
# and runs rt with the given words in that crate. The module's tests show something only while an allocation fails, which
# bench/memory.sh brings about, so that the gate does not prove them.
#
#     bench/refused.sh "$(mktemp -d)" try --test    runs the tests with ample memory, before any proof
#     bench/refused.sh "$(mktemp -d)" test          proves them too, and leaves their program in crates/fault_tests/out/ there
#
# The copy is out of the repository, since `rt ci` refuses sources outside a crate. Libraries that are proved already go along.
set -euo pipefail
copy=$(realpath -e -- "$1")
shift
cd "$(dirname "$0")/.."
sed 's/^fault_tests:/& office_lists/' crates.txt >"$copy/crates.txt"
cp HANDLES "$copy"

# The parts of each crate, by hard links if the folder is on the same disk.
for part in crates/*/{src,specs,proofs,out/rlib}; do
    [ -d "$part" ] || continue
    mkdir -p "$copy/$part"
    cp -al "$part/." "$copy/$part" 2>/dev/null || cp -a "$part/." "$copy/$part"
done

while IFS= read -r file; do
    mkdir -p "$copy/crates/fault_tests/${file%/*}"
    cp "bench/refused/$file" "$copy/crates/fault_tests/${file%.txt}"
done < <(cd bench/refused && find . -name '*.txt')
sed -i 's/^mod requests;/mod refused;\n#[cfg(test)]\n&/' "$copy/crates/fault_tests/src/lib.rt"
cd "$copy/crates/fault_tests"
rt "$@"
