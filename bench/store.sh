#!/bin/bash
# Times changes and reads of ft_store over 10^5 posting rows in a file, against sqlite3 doing the same row work. It makes a small
# program in a folder of its own (the first argument, or a new one), proves and builds it, and prints a table: see rows.py.
set -eu
. "$(dirname "$0")/crate.sh"
begin_crate "${1:-}" store_rows "ft_opening ft_store sqlite anyhow" ft_values ram_disk ft_rows ft_store ft_opening
cat > "$crate/src/main.rt" <<'RT'
//! Fills a store with 10^5 posting rows, or reads them. Standard input has its path, and how many changes the rows are spread over,
//! or 0 to read. A line for each step tells the nanoseconds that it took.
#![tactic(auto)]

use ft_opening::OpenFile;
use ft_store::{RowChange, Spot, Store, StoreFault};
use sqlite::Alter;
use std::alloc::{AllocError, Global};
use std::io::{BufRead, BufReader};
use std::time::Instant;

const ROWS: usize = 100_000;

// A row by its number in key order: 10,000 documents have the term `a`, and ten have each of the 9,000 terms after it.
fn row(alloc: Global, number: usize) -> Result<RowChange, AllocError> {
    let mut spots: Vec<Spot> = Vec::new(alloc);
    spots.push(Spot { column: 0, pos: 5, place: 30, size: 5 })?;
    if number < 10_000 {
        return Ok(RowChange::PutEntries(1, "a".to_string(alloc)?, number as i64, spots));
    }
    let term = format!(in alloc; "b{}", number / 10)?;
    Ok(RowChange::PutEntries(1, term, (number % 10) as i64, spots))
}

// Every so-manieth row from one on.
fn part(alloc: Global, first: usize, step: usize) -> Result<Vec<RowChange>, AllocError> {
    let mut rows: Vec<RowChange> = Vec::new(alloc);
    let mut next = first;
    for _ in 0..ROWS {
        if next >= ROWS {
            break;
        }
        rows.push(row(alloc, next)?)?;
        next = next.saturating_add(step);
    }
    Ok(rows)
}

fn nanos(rt: &HostRuntime, begun: Instant) -> anyhow::Result<u64> {
    Ok(u64::try_from(begun.elapsed(rt)?.as_nanos()).unwrap_or(u64::MAX))
}

// The table that the rows are of.
fn add_table<S: Alter>(alloc: Global, store: &mut Store<S>) -> Result<(), StoreFault> {
    let mut columns: Vec<String> = Vec::new(alloc);
    columns.push("x".to_string(alloc)?)?;
    let name = "d".to_string(alloc)?;
    store.change(&[RowChange::AddTable(1, name, columns, Vec::new(alloc))])
}

fn fill<S: Alter>(rt: &HostRuntime, store: &mut Store<S>, changes: usize) -> anyhow::Result<u64> {
    add_table(rt.alloc(), store)?;
    let mut took: u64 = 0;
    for first in 0..changes {
        let rows = part(rt.alloc(), first, changes)?;
        let begun = Instant::now(rt)?;
        store.change(rows.as_slice())?;
        took = took.saturating_add(nanos(rt, begun)?);
    }
    Ok(took)
}

fn term<S: Alter>(rt: &HostRuntime, store: &mut Store<S>) -> anyhow::Result<(u64, usize)> {
    let begun = Instant::now(rt)?;
    let found = store.term(1, "a")?;
    Ok((nanos(rt, begun)?, found.len()))
}

fn prefix<S: Alter>(rt: &HostRuntime, store: &mut Store<S>) -> anyhow::Result<(u64, usize)> {
    let begun = Instant::now(rt)?;
    let found = store.prefix(1, "b1")?;
    Ok((nanos(rt, begun)?, found.len()))
}

fn tell<S: Alter>(rt: &HostRuntime, store: &mut Store<S>, changes: usize) -> anyhow::Result<()> {
    if changes > 0 {
        println!(rt; "{} {ROWS}", fill(rt, store, changes)?)?;
        return Ok(());
    }
    let (took, rows) = term(rt, store)?;
    println!(rt; "{took} {rows}")?;
    let (took, rows) = prefix(rt, store)?;
    println!(rt; "{took} {rows}")?;
    Ok(())
}

fn line(input: &mut impl BufRead, alloc: Global) -> anyhow::Result<String> {
    let mut line = String::new(alloc);
    input.read_line(&mut line)?;
    let text = line.trim_end();
    Ok(text.to_string(alloc)?)
}

fn main(rt: HostRuntime) -> anyhow::Result<()> {
    let mut input = BufReader::new(rt.alloc(), rt.stdin())?;
    let path = line(&mut input, rt.alloc())?;
    let changes: usize = line(&mut input, rt.alloc())?.parse()?;
    let begun = Instant::now(&rt)?;
    let mut store = Store::open_file(&rt, path.as_str())?;
    println!(&rt; "{} 0", nanos(&rt, begun)?)?;
    tell(&rt, &mut store, changes)
}
RT
(cd "$crate" && printf '%s\n0\n' "$room/none" | rt run > "$room/told")
python3 -B "$here/rows.py" "$room" "$crate/out/store_rows"
