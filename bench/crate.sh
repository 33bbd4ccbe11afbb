# For a benchmark's script: begin_crate FOLDER PROGRAM USES CRATE... makes a repository in a folder (where it is empty a new one) with
# copies of these crates of this tree and a program, which stands on USES. It sets `here`, `room`, the folder, and `crate`, the program's.
here=$(cd "$(dirname "$0")" && pwd)

begin_crate() {
    local program=$2 uses=$3 name
    room=${1:-$(mktemp -d)}
    crate=$room/crates/$program
    mkdir -p "$crate/src"
    shift 3
    for name in "$@"; do
        [ -e "$room/crates/$name" ] || cp -r "$here/../crates/$name" "$room/crates/"
        grep "^$name:" "$here/../crates.txt"
    done > "$room/crates.txt"
    echo "$program: $uses" >> "$room/crates.txt"
}
