#!/usr/bin/env bash
# Shows that a pin of a shared board can't wait for its lock and can't ask for memory: adds one or the other to a copy, and
# wants the compiler to refuse that line and nothing else; no part of the gate. The type that pins knows nothing of what its
# board shares, and has no allocator.
set -eu
cd "$(dirname "$0")/.."
copy=$(mktemp -d)
trap 'rm -rf "$copy"' EXIT
cp crates.txt HANDLES "$copy"
for crate in crates/*; do
    mkdir -p "$copy/$crate"
    cp -r "$crate/src" "$copy/$crate"
    for part in specs proofs; do
        if [ -d "$crate/$part" ]; then cp -r "$crate/$part" "$copy/$crate"; fi
    done
done
seat=$copy/crates/shared_board/src/seat.rt
cp "$seat" "$copy/seat.rt"

# The tests of boards are compiled for it, since the crate itself has none.
compiles() { (cd "$copy/crates/aux_board_tests" && rt try --test) >"$copy/said" 2>&1; }

# Adds the line behind the head of `pin`. It has to be refused at just that line.
refused() {
    cp "$copy/seat.rt" "$seat"
    sed -i "s/^    fn pin(&mut self) {\$/&\n        $1/" "$seat"
    line=$(grep -nF "$1" "$seat" | cut -d: -f1)
    if [ -z "$line" ]; then
        echo "the text of pin has changed, so nothing was tried"
        exit 1
    fi
    if compiles; then
        echo "a pin with this line was accepted: $1"
        exit 1
    fi
    if ! grep -q "seat.rt:$line:.*error" "$copy/said"; then
        echo "this line wasn't refused, but something else was: $1"
        grep error "$copy/said"
        exit 1
    fi
    if grep ': error' "$copy/said" | grep -v "seat.rt:$line:"; then
        echo "something else than this line was refused: $1"
        exit 1
    fi
    grep "seat.rt:$line:.*error" "$copy/said"
}

refused 'let _locked = self.shared.desk.lock();'
refused 'let _room = Vec::<u8>::with_capacity(self.alloc, 1);'
echo "so a pin that takes the lock or asks for memory doesn't compile"
