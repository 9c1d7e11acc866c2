#!/usr/bin/env bash
# Tries the wrong bodies that stand outside the gate, and ends with 1 unless the prover refuses each.
#
# usage: bench/wrong_bodies.sh [--all] [CRATE ..]     (each crate that has any)
#
# Of each crate the edits of wrong-bodies/CRATE are tried, with --all those of its must-fail/ too, which the gate tries as
# well. It prints a line for each edit: refused, let through, or why it couldn't be tried; then how many of the crate's
# were refused, and of all. They are tried in a copy of the repository as it lies here, so nothing of it changes. The copy
# takes over the libraries that `make build` and `rt check` left proved; rt proves those anew whose sources, or the sources
# below them, have changed since.
set -u
cd "$(dirname "$0")/.." || exit 2
. bench/copy.sh

stop() {
    echo "wrong_bodies: $1" >&2
    exit 2
}

all=no
crates=()
for word in "$@"; do
    case $word in
    --all) all=yes ;;
    -*) stop "no option is named $word; usage: bench/wrong_bodies.sh [--all] [CRATE ..]" ;;
    *) crates+=("$word") ;;
    esac
done

# The folders with the edits of a crate.
folders_of() {
    [ -d "wrong-bodies/$1" ] && echo "wrong-bodies/$1"
    [ "$all" = yes ] && [ -d "crates/$1/must-fail" ] && echo "crates/$1/must-fail"
    return 0
}

if [ "${#crates[@]}" -eq 0 ]; then
    for folder in crates/*; do
        [ -n "$(folders_of "${folder#crates/}")" ] && crates+=("${folder#crates/}")
    done
    for folder in wrong-bodies/*; do
        [ -d "crates/${folder#wrong-bodies/}" ] || stop "$folder has the name of no crate"
    done
fi
for crate in "${crates[@]}"; do
    [ -d "crates/$crate/src" ] || stop "there is no crate $crate"
    [ -n "$(folders_of "$crate")" ] || stop "$crate has no wrong bodies to try"
done
command -v rt >/dev/null || stop "the command rt of the kit isn't found"

copy=$(mktemp -d) || exit 2
trap 'rm -rf "$copy"' EXIT
trap 'exit 130' INT TERM
copy_crates "$copy" || exit 2

# Puts the crate's edits into the copy, and says of each file that it can't be tried, where it can't.
lay_out() {
    local to=$copy/crates/$1/must-fail folder edit name
    mkdir -p "$to"
    for folder in $(folders_of "$1"); do
        for edit in "$folder"/*; do
            name=$(basename "$edit")
            case $name in
            *.edit)
                if [ -e "$to/$name" ]; then
                    echo "$1/$name: NOT TRIED: a wrong body of this name stands in must-fail/ too"
                else
                    cp "$edit" "$to/$name"
                fi
                ;;
            *.md) ;;
            *) echo "$1/$name: NOT TRIED: the name of a wrong body ends with .edit" ;;
            esac
        done
    done
}

# Says of each of the crate's edits what came of it, in a line each; what else rt says of one goes to standard error.
try_out() {
    local edit name told
    (cd "$copy" && rt must-fail "$1") >"$copy/said" 2>&1 </dev/null
    for edit in "$copy/crates/$1/must-fail"/*.edit; do
        name=$(basename "$edit")
        told=$(awk -v label="rt: must-fail $1/$name: " '/^rt: must-fail / { on = index($0, label) == 1 } on' "$copy/said")
        told=${told#"rt: must-fail $1/$name: "}
        echo "$1/$name: $(head -n 1 <<<"${told:-NOT TRIED: rt says nothing of it}")"
        tail -n +2 <<<"$told" >&2
    done
    if ! grep -a -q '^rt: must-fail ' "$copy/said"; then tail -n 20 "$copy/said" >&2; fi
}

refused=0
tried=0
for crate in "${crates[@]}"; do
    { lay_out "$crate" && try_out "$crate"; } | tee "$copy/told"
    of_crate=$(grep -a -c ': refused, as it must be' "$copy/told")
    in_crate=$(grep -a -c '' "$copy/told")
    echo "$crate: $of_crate of $in_crate refused"
    refused=$((refused + of_crate))
    tried=$((tried + in_crate))
done
echo "all: $refused of $tried refused"
[ "$refused" -eq "$tried" ]
