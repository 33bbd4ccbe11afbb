#!/bin/bash
# Times walks of ft_query over made lists of 10^4, 10^5 and 10^6 places a term: one term, a phrase of two frequent terms, and NEAR.
# It makes a small program in a folder of its own (the first argument, or a new one), proves and builds it, and prints for each walk
# its hits, its steps and the processor nanoseconds for each place, the best of three runs, less those of a run that only makes the
# lists. Where there is valgrind, it also counts the instructions of texts that join many phrases without terms.
set -eu
top=$(cd "$(dirname "$0")/.." && pwd)
room=${1:-$(mktemp -d)}
crate=$room/crates/walk_lists
mkdir -p "$crate/src" "$crate/proofs/count"
cp -r "$top/crates/ft_match" "$top/crates/ft_query" "$room/crates/"
cat > "$room/crates.txt" <<'TXT'
ft_match: thiserror
ft_query: ft_match itoa smallvec thiserror
walk_lists: ft_match ft_query anyhow
TXT
cat > "$crate/proofs/Lib.antt" <<'ANTT'
ANTT
cat > "$crate/proofs/count/Invariants.antt" <<'ANTT'
use Rattle.std.proofs.Common.{◌≡◌, ◌-◌, ◌^◌, map, min}
use Rattle.std.specs.Prelude.{take}
use Rattle.ft_match.specs.Documents.{place_count}
use Rattle.ft_query.specs.Lists.{plain_list}
use Rattle.walk_lists.proofs.count.Given as goal

abbrev pub invariant-loop-list : goal.invariant-loop-list
invariant-loop-list l = l.places ≡ min (place_count (map plain_list (take l.list-index l.lists))) (2 ^ 64 - 1)
ANTT
cat > "$crate/src/main.rt" <<'RT'
//! Walks over made lists: reads a MATCH text, the number of places of each term, and `walk` or `lists`, a line each.
#![tactic(auto)]
ghost use Rattle.std.specs.Prelude.{◌≡◌, ◌+◌, ◌-◌, ◌^◌, [], false, map, min, IfOk, OnErr};
ghost use Rattle.ft_match.specs.Documents.{place_count};
ghost use Rattle.ft_query.specs.Lists.{plain_list, is_failed};

use anyhow::bail;
use ft_query::{DocList, ListFault, Lists, Matches, Place, parse};
use std::alloc::{AllocError, Global};
use std::io::{BufRead, BufReader};

// Documents of 100 words, `a` and `b` by turns.
#[derive(Drop)]
struct Turns {
    places: usize,
    given: u64,
}

fn count(lists: &[DocList]) -> u64
    ensures { result ≡ min (place_count (map plain_list lists.now)) (2 ^ 64 - 1) }
{
    let mut places: u64 = 0;
    for list in lists {
        places = places.saturating_add(list.place_count() as u64);
    }
    places
}

// Fifty places in each document, of the first word or of the second.
fn made(alloc: Global, places: usize, second: bool) -> Result<Vec<DocList>, AllocError> {
    let mut lists: Vec<DocList> = Vec::new(alloc);
    for docid in 0..i64::MAX {
        if lists.len() >= places / 50 {
            break;
        }
        let mut list: Vec<Place> = Vec::new(alloc);
        for i in 0..50_u32 {
            let pos = if second { 2 * i + 1 } else { 2 * i };
            list.push(Place::new(0, pos, 2 * pos, 1))?;
        }
        lists.push(DocList::new(docid, list))?;
    }
    Ok(lists)
}

impl Turns {
    fn ask(&mut self, alloc: Global, term: &str) -> Result<Vec<DocList>, ListFault>
        ensures failed { is_failed result ≡ false }
        ensures given { IfOk result (λ lists. self.new.given ≡ min (self.old.given + place_count (map plain_list lists.items)) (2 ^ 64 - 1)) }
        ensures none_given { OnErr result (self.new.given ≡ self.old.given) }
    {
        let lists = made(alloc, self.places, term != "a")?;
        self.given = self.given.saturating_add(count(&lists));
        Ok(lists)
    }
}

impl Lists for Turns {
    ghost documents = { λ _. [] };

    ghost is_clean = { λ _. ⊥ };

    ghost has_failed = { λ _. false };

    ghost given_so_far = { λ l. l.given };

    fn word(&mut self, alloc: Global, term: &str) -> Result<Vec<DocList>, ListFault> {
        self.ask(alloc, term)
    }

    fn prefix(&mut self, alloc: Global, begin: &str) -> Result<Vec<DocList>, ListFault> {
        self.ask(alloc, begin)
    }

    fn failed(&self) -> bool {
        false
    }

    fn given(&self) -> u64 {
        self.given
    }

    ghost in_order = { λ _ never. absurd never };
}

fn line(input: &mut impl BufRead, alloc: Global) -> anyhow::Result<String> {
    let mut line = String::new(alloc);
    input.read_line(&mut line)?;
    let text = line.trim_end();
    Ok(text.to_string(alloc)?)
}

// Asks for the lists of both terms, or of one.
fn only_lists(alloc: Global, turns: &mut Turns, text: &str) -> anyhow::Result<usize> {
    let first = turns.word(alloc, "a")?;
    if !text.contains("b") {
        return Ok(first.len());
    }
    let second = turns.word(alloc, "b")?;
    Ok(first.len().min(second.len()))
}

fn main(rt: HostRuntime) -> anyhow::Result<()> {
    let mut input = BufReader::new(rt.alloc(), rt.stdin())?;
    let text = line(&mut input, rt.alloc())?;
    let places: usize = line(&mut input, rt.alloc())?.parse()?;
    let way = line(&mut input, rt.alloc())?;
    let mut turns = Turns { places, given: 0 };
    if way.as_str() == "lists" {
        let lists = only_lists(rt.alloc(), &mut turns, &text)?;
        println!(rt; "{lists} lists")?;
        return Ok(());
    }
    let Some(query) = parse(rt.alloc(), &text, &[], None)? else {
        bail!("no query");
    };
    let mut matches = Matches::open(rt.alloc(), &query, &mut turns)?;
    let mut hits: u64 = 0;
    for _ in 0..u64::MAX {
        if matches.next()?.is_none() {
            break;
        }
        hits = hits.saturating_add(1);
    }
    println!(rt; "{hits} hits, {} steps", matches.steps())?;
    Ok(())
}
RT
(cd "$crate" && printf 'a\n100\nwalk\n' | rt run)

# The least of three runs' processor seconds: of a query, a number of places and what to do.
best() {
    local TIMEFORMAT='%U %S' i
    for i in 1 2 3; do
        { time printf '%s\n%s\n%s\n' "$1" "$2" "$3" | "$crate/out/walk_lists" > "$room/told"; } 2>&1
    done | awk '{ s = $1 + $2 } NR == 1 || s < m { m = s } END { printf "%.3f", m }'
}

for query in 'a' '"a b"' 'a NEAR/3 b'; do
    for places in 10000 100000 1000000; do
        lists=$(best "$query" "$places" lists)
        walk=$(best "$query" "$places" walk)
        printf '%s, %s places a term: %s s, lists alone %s s, %s ns a place; ' "$query" "$places" "$walk" "$lists" \
            "$(awk -v w="$walk" -v l="$lists" -v p="$places" 'BEGIN { printf "%.0f", (w - l) * 1e9 / p }')"
        cat "$room/told"
    done
done

# Thousands of instructions for each of 100 documents, less those of a run that only makes the lists, of `a` and so many pairs of
# quotes.
command -v valgrind > /dev/null || exit 0
counted() {
    printf '%s\n5000\n%s\n' "$1" "$2" | valgrind --tool=callgrind --callgrind-out-file=/dev/null "$crate/out/walk_lists" 2>&1 |
        sed -n 's/.*Collected : //p'
}
for between in '' ' OR ' ' NOT '; do
    for pairs in 600 1200 2400; do
        query="a$(for i in $(seq "$pairs"); do printf '%s""' "$between"; done)"
        [ ${#query} -le 10000 ] || continue
        printf '%s times %s"": %s thousand instructions a document\n' "$pairs" "$between" \
            "$((($(counted "$query" walk) - $(counted "$query" lists)) / 100000))"
    done
done
