# Sourced by the scripts beside it. Makes a program over some of the crates in a folder of its own,
# proves, builds and runs it; nothing of it stays. The program's text comes from standard input.
# Usage: run_scratch NAME "LIBRARIES OF THE PROGRAM" CRATE ..   (every crate that it stands on, lowest first)
run_scratch() {
    make_scratch "$@" && "out/$1"
}

# The same without the run: the program is out/NAME of the folder that is then the current one.
make_scratch() {
    local name=$1 libraries=$2 top crate part
    shift 2
    top=$(cd "$(dirname "${BASH_SOURCE[0]}")/.." && pwd)
    room=$(mktemp -d)
    trap 'rm -rf "$room"' EXIT
    for crate in "$@"; do
        mkdir -p "$room/crates/$crate"
        for part in src specs proofs; do
            if [ -d "$top/crates/$crate/$part" ]; then
                cp -R "$top/crates/$crate/$part" "$room/crates/$crate/"
            fi
        done
        grep "^$crate:" "$top/crates.txt" >> "$room/crates.txt"
        # The tests are not needed, and take long to prove.
        rm -rf "$room/crates/$crate/src/"*tests.rt "$room/crates/$crate/src/"*tests
        sed -i '/^#\[cfg(test)\]$/d; /^mod [a-z_]*tests;$/d' "$room/crates/$crate/src/lib.rt"
    done
    echo "$name: $libraries" >> "$room/crates.txt"
    mkdir -p "$room/crates/$name/src"
    cat > "$room/crates/$name/src/main.rt"
    cd "$room/crates/$name"
    rt fmt > /dev/null
    # The gate compares what a program prints; times differ, so the built program is run here.
    rt run > "$room/log" 2>&1 < /dev/null || true
    [ -x "out/$name" ] || { tail -n 40 "$room/log"; return 1; }
}
