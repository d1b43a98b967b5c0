# Proves and builds a program of this folder, which isn't a crate of the product, in a folder of its
# own: its files end in .in here, since rt takes each .rt and .antt file of the repository for one
# of a crate in crates.txt. To be read by a script that has set here (this folder) and work:
#
#     build_program NAME CRATE..    over these crates of the product, and what they stand on
#
# The program's path is then in $program. CRATES names another folder of crates, left_out what isn't
# copied of each (what was proved of a crate is kept in its folder out/), run_words what stands
# behind `rt run`.
build_program() {
    name=$1
    shift
    mkdir -p "$work/crates"
    cp "$here/../HANDLES" "$work/HANDLES"
    for crate in $(below "$@"); do
        mkdir "$work/crates/$crate"
        (cd "${CRATES:-$here/../crates}/$crate" && tar -c --exclude="${left_out:-./none}" .) |
            tar -x -C "$work/crates/$crate"
        grep "^$crate[ :]" "$here/../crates.txt" >>"$work/crates.txt"
    done
    echo "$name: $*" >>"$work/crates.txt"
    put_program "$name"
    # shellcheck disable=SC2086
    (cd "$work/crates/$name" && rt run ${run_words:-} </dev/null) >"$work/log" 2>&1 || true
    program=$work/crates/$name/out/$name
    [ -x "$program" ] || { cat "$work/log" >&2; exit 70; }
}

# these crates and those that they stand on, by crates.txt, each behind what it stands on
below() {
    awk -F: -v wanted="$*" '
        function add(name, list, count, at) {
            if (name in done || !(name in uses)) return
            done[name] = 1
            count = split(uses[name], list, " ")
            for (at = 1; at <= count; at++) add(list[at])
            print name
        }
        { sub(/#.*/, "") }
        NF == 2 { split($1, words, " "); uses[words[1]] = $2 }
        END { many = split(wanted, asked, " "); for (n = 1; n <= many; n++) add(asked[n]) }
    ' "$here/../crates.txt"
}

# puts the files of a program into its folder, under their own names
put_program() {
    (cd "$here/$1" && find . -name '*.in') | while read -r file; do
        mkdir -p "$work/crates/$1/$(dirname "$file")"
        cp "$here/$1/$file" "$work/crates/$1/${file%.in}"
    done
}
