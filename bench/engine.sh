#!/bin/sh
# Measures ft4sh against its own SQL engine over the same rows, and prints tables: bench/engine.sh PROGRAM.
# DOCUMENTS are how many documents there are, for one table each (1000 and 10000), WORDS about how many words one has (200).
set -eu
here=$(cd "$(dirname "$0")" && pwd)
[ $# = 1 ] || { echo "usage: bench/engine.sh PROGRAM" >&2; exit 2; }
program=$(command -v "$1")
program=$(cd "$(dirname "$program")" && pwd)/$(basename "$program")
room=$(mktemp -d)
trap 'rm -rf "$room"' EXIT
for count in ${DOCUMENTS:-1000 10000}; do
    mkdir "$room/$count"
    python3 -B "$here/engine.py" "$room/$count" "$program" "$count" "${WORDS:-200}"
    echo
done
