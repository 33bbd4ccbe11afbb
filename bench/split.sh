#!/bin/bash
# Times `Splitter` of shell_text over scripts of 1, 4, 16 and 64 MiB, line by line. It makes a small program in a folder of its
# own (the first argument, or a new one), proves and builds it, and prints the processor seconds of the best of three runs.
set -eu
top=$(cd "$(dirname "$0")/.." && pwd)
room=${1:-$(mktemp -d)}
crate=$room/crates/split_lines
mkdir -p "$crate/src"
cp -r "$top/crates/shell_text" "$room/crates/"
cat > "$room/crates.txt" <<'TXT'
shell_text: csv unicode_width itoa thiserror
split_lines: shell_text anyhow
TXT
cat > "$crate/src/main.rt" <<'RT'
//! Reads standard input line by line through a splitter, and tells how many units and bytes it gave.
#![tactic(auto)]

use shell_text::Splitter;
use std::io::{BufRead, BufReader};

#[derive(Clone, Copy)]
struct Told {
    units: u64,
    bytes: u64,
}

fn take_waiting(splitter: &mut Splitter, told: Told) -> Told {
    let mut told = told;
    for _ in 0..u64::MAX {
        let Some(unit) = splitter.next() else {
            return told;
        };
        told.units = told.units.saturating_add(1);
        told.bytes = told.bytes.saturating_add(unit.text.len() as u64);
    }
    told
}

fn without_feed(line: &[u8]) -> &[u8] {
    match line {
        [front @ .., b'\n'] => front,
        _ => line,
    }
}

fn main(rt: HostRuntime) -> anyhow::Result<()> {
    let mut input = BufReader::new(rt.alloc(), rt.stdin())?;
    let mut splitter = Splitter::new(rt.alloc())?;
    let mut told = Told { units: 0, bytes: 0 };
    let mut line: Vec<u8> = Vec::new(rt.alloc());
    for _ in 0..u64::MAX {
        line.clear();
        if input.read_until(b'\n', &mut line)? == 0 {
            break;
        }
        splitter.line(without_feed(line.as_slice()))?;
        told = take_waiting(&mut splitter, told);
    }
    println!(rt; "{} units of {} bytes", told.units, told.bytes)?;
    Ok(())
}
RT
(cd "$crate" && rt run < /dev/null)

# The least of three runs' seconds on an input.
best() {
    local TIMEFORMAT='%U %S' i
    for i in 1 2 3; do
        { time "$crate/out/split_lines" < "$1" > "$room/told"; } 2>&1
    done | awk '{ s = $1 + $2 } NR == 1 || s < m { m = s } END { printf "%.2f", m }'
}

# Short statements, one a line; and statements of 20,000 lines each.
yes "INSERT INTO mail VALUES('hello world', 'x');" 2> /dev/null | head -n 20000 > "$room/short"
{ echo "INSERT INTO mail VALUES"; yes "('hello world', 'x')," 2> /dev/null | head -n 19998; echo "('y', 'z');"; } > "$room/long"
for kind in short long; do
    for size in 1 4 16 64; do
        while cat "$room/$kind" 2> /dev/null; do :; done | head -c $((size << 20)) > "$room/script"
        printf '%s, %s MiB: %s s, ' "$kind" "$size" "$(best "$room/script")"
        cat "$room/told"
    done
done
