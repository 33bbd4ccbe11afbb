#!/bin/bash
# Times single commands of ft_index against sqlite3's FTS4, over 300 documents in memory and 3,000 in a file. It makes a small program
# in a folder of its own (the first argument, or a new one), proves and builds it, and prints a table: see commands.py.
set -eu
. "$(dirname "$0")/crate.sh"
begin_crate "${1:-}" time_commands "ft_index ft_statements ft_content ft_opening ft_store shell_text sqlite anyhow" \
    ft_values ft_commands ft_match ft_query shell_text ram_disk ft_rows ft_store ft_opening ft_content ft_documents ft_calls ft_index ft_statements
cat > "$crate/src/main.rt" <<'RT'
//! Executes full-text statements. Standard input has the path of a store, or an empty line for one in memory, and then a statement a
//! line. The first line of the output tells how many nanoseconds it took to take the store, and each further one those of a command,
//! with its number of rows.
#![tactic(auto)]

use anyhow::bail;
use ft_content::{Command, Reply};
use ft_index::FullText;
use ft_opening::{OpenFile, OpenMemory};
use ft_statements::{Class, read_statement};
use ft_store::Store;
use shell_text::sql_words;
use sqlite::Alter;
use std::alloc::Global;
use std::io::{BufRead, BufReader, Stdin};
use std::time::Instant;

fn nanos(rt: &HostRuntime, begun: Instant) -> anyhow::Result<u64> {
    Ok(u64::try_from(begun.elapsed(rt)?.as_nanos()).unwrap_or(u64::MAX))
}

fn command<S: Alter>(alloc: Global, tables: &FullText<S>, text: &str) -> anyhow::Result<Command> {
    let words = sql_words(alloc, text)?;
    match read_statement(alloc, text, words.as_slice(), tables.tables()) {
        Ok(Class::FullText(command)) => Ok(command),
        _ => bail!("no full-text statement"),
    }
}

fn rows_of(reply: &Reply) -> usize {
    match reply {
        Reply::Rows(grid) => grid.rows.len(),
        Reply::Done => 0,
    }
}

fn run<S: Alter>(rt: &HostRuntime, tables: &mut FullText<S>, text: &str) -> anyhow::Result<(u64, usize)> {
    let command = command(rt.alloc(), tables, text)?;
    let begun = Instant::now(rt)?;
    let reply = tables.execute(&command)?;
    Ok((nanos(rt, begun)?, rows_of(&reply)))
}

fn run_all<S: Alter>(rt: &HostRuntime, tables: &mut FullText<S>, input: &mut BufReader<Stdin>) -> anyhow::Result<()> {
    let mut line = String::new(rt.alloc());
    for _ in 0..u64::MAX {
        line.clear();
        if input.read_line(&mut line)? == 0 {
            break;
        }
        let (took, rows) = run(rt, tables, line.as_str())?;
        println!(rt; "{took} {rows}")?;
    }
    Ok(())
}

fn over<S: Alter + Drop>(rt: &HostRuntime, store: Store<S>, input: &mut BufReader<Stdin>) -> anyhow::Result<()> {
    let begun = Instant::now(rt)?;
    let Ok(mut tables) = FullText::new(rt.alloc(), store) else {
        bail!("no full-text store");
    };
    println!(rt; "{} 0", nanos(rt, begun)?)?;
    run_all(rt, &mut tables, input)
}

fn in_memory(rt: &HostRuntime, input: &mut BufReader<Stdin>) -> anyhow::Result<()> {
    over(rt, Store::open_memory(rt.alloc())?, input)
}

fn in_file(rt: &HostRuntime, path: &str, input: &mut BufReader<Stdin>) -> anyhow::Result<()> {
    over(rt, Store::open_file(rt, path)?, input)
}

fn main(rt: HostRuntime) -> anyhow::Result<()> {
    let mut input = BufReader::new(rt.alloc(), rt.stdin())?;
    let mut path = String::new(rt.alloc());
    input.read_line(&mut path)?;
    match path.trim_end() {
        "" => in_memory(&rt, &mut input),
        path => in_file(&rt, path, &mut input),
    }
}
RT
(cd "$crate" && echo | rt run > "$room/told")
python3 -B "$here/commands.py" "$room" "$crate/out/time_commands"
