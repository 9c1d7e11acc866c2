#!/usr/bin/env bash
# Builds the program of bench/timing, and leaves it as out/timing; no part of the gate.
#
# usage: bench/timing.sh
#
# The gate takes no source outside of the crates that crates.txt lists, so each file of the program has `.txt` behind its
# name. In a copy of the repository as it lies here the files get their names, the program stands as one more crate, and
# rt proves and builds it there, with what isn't proved yet of the crates below it. Then it is run on `stdin`, and is to
# write what `stdout` holds. Nothing is done where the program is there and no source is newer. Ends with 1 where it isn't
# proved or writes something else, and with 2 where it can't be tried.
set -u
cd "$(dirname "$0")/.." || exit 2
. bench/copy.sh

stop() {
    echo "timing: $1" >&2
    exit 2
}

home=bench/timing
program=out/timing

sources=(crates.txt HANDLES "$home")
for folder in crates/*/src crates/*/specs crates/*/proofs; do sources+=("$folder"); done
if [ -x "$program" ] && [ -z "$(find "${sources[@]}" -newer "$program" -print -quit)" ]; then exit 0; fi
command -v rt >/dev/null || stop "the command rt of the kit isn't found"

copy=$(mktemp -d) || exit 2
trap 'rm -rf "$copy"' EXIT
trap 'exit 130' INT TERM
copy_crates "$copy" || stop "the crates can't be copied"
cat "$home/crate.txt" >>"$copy/crates.txt" || exit 2
crate=$copy/crates/timing
cp -r "$home" "$crate" || exit 2
find "$crate" -name '*.*.txt' | while read -r file; do mv "$file" "${file%.txt}" || exit 2; done || exit 2

(cd "$crate" && rt run) <"$home/stdin" >"$copy/said" || { tail -n 20 "$copy/said" >&2; exit 1; }
if ! "$crate/out/timing" <"$home/stdin" | cmp - "$home/stdout"; then echo "timing: it writes something else" >&2; exit 1; fi
mkdir -p out && cp "$crate/out/timing" "$program"
