# To be read by scripts: how a copy of the repository is made in which crates are proved.

# Copies the crates as they lie here, with no tests' files and no wrong bodies, into a folder that is there. The copy takes
# over the libraries that `make build` and `rt check` left proved; rt proves those anew whose sources, or the sources below
# them, have changed since. Its status is 1 where a file can't be copied.
copy_crates() {
    local copy=$1 folder part
    cp crates.txt HANDLES "$copy" || return 1
    for folder in crates/*; do
        mkdir -p "$copy/$folder"
        for part in src specs proofs; do
            if [ -d "$folder/$part" ]; then cp -r "$folder/$part" "$copy/$folder" || return 1; fi
        done
        # A proved library is large, so its files are linked where they can be: rt makes a library anew, and never over an old one.
        if [ -d "$folder/out/rlib" ]; then
            mkdir "$copy/$folder/out" || return 1
            cp -rl "$folder/out/rlib" "$copy/$folder/out" 2>/dev/null || cp -r "$folder/out/rlib" "$copy/$folder/out" || return 1
        fi
    done
}
