//! The same calls in plain Rust: reads an input of the form that `volt run` reads, executes its calls one after
//! another on an ordered map, and writes the same report. It has no cluster: stamps and events are known beforehand.

use std::collections::BTreeMap;
use std::collections::btree_map::Entry;
use std::error::Error;
use std::io::{self, BufWriter, Read, Write};

const HEAD: &str = include_str!("../examples/empty.volt");
const MOST_CALLS: usize = 100_000;

/// The events of one call, in their order.
const EVENTS: &[&str] = &[
    "submit c1",
    "deliver d c1",
    "deliver h0 c1",
    "deliver s0 h0",
    "sync s0",
    "deliver h0 s0",
    "deliver c1 h0",
];
/// The place among them of the event that puts the call into the log.
const POINT: usize = 4;

enum Call {
    Put { id: i64, balance: i64 },
    Get { id: i64 },
}

enum Reply {
    Added,
    Duplicate,
    Balance(i64),
    NoRow,
}

fn parse_number(word: &str) -> Option<i64> {
    let digits = word.strip_prefix('-').unwrap_or(word);
    if !digits.bytes().all(|byte| byte.is_ascii_digit()) {
        return None;
    }
    word.parse().ok().filter(|number| *number != i64::MIN)
}

fn parse_call(line: &str) -> Option<Call> {
    if let Some(numbers) = line.strip_prefix("client 1 call Put ") {
        let (id, balance) = numbers.split_once(' ')?;
        let (id, balance) = (parse_number(id)?, parse_number(balance)?);
        Some(Call::Put { id, balance })
    } else {
        let id = parse_number(line.strip_prefix("client 1 call Get ")?)?;
        Some(Call::Get { id })
    }
}

/// The calls of a text, if it is of the form.
fn parse_input(text: &str) -> Option<Vec<Call>> {
    let script = text.strip_prefix(HEAD)?;
    let calls: Vec<Call> = script
        .split_inclusive('\n')
        .map(|line| parse_call(line.strip_suffix('\n')?))
        .collect::<Option<_>>()?;
    (calls.len() <= MOST_CALLS).then_some(calls)
}

fn execute(rows: &mut BTreeMap<i64, i64>, call: &Call) -> Reply {
    match *call {
        Call::Put { id, balance } => match rows.entry(id) {
            Entry::Vacant(place) => {
                place.insert(balance);
                Reply::Added
            }
            Entry::Occupied(_) => Reply::Duplicate,
        },
        Call::Get { id } => match rows.get(&id) {
            Some(balance) => Reply::Balance(*balance),
            None => Reply::NoRow,
        },
    }
}

fn write_report(out: &mut impl Write, replies: &[Reply], rows: &BTreeMap<i64, i64>) -> io::Result<()> {
    let count = replies.len();
    writeln!(out, "volt 1\nopening 0\ncalls {count}")?;
    for (place, reply) in replies.iter().enumerate() {
        let submitted = place * EVENTS.len() + 1;
        let ended = submitted + EVENTS.len() - 1;
        write!(out, "{} 1 {submitted} {ended} ", place + 1)?;
        match reply {
            Reply::Added => writeln!(out, "ok 1\n 1")?,
            Reply::Duplicate => writeln!(out, "abort fault Duplicate")?,
            Reply::Balance(balance) => writeln!(out, "ok 1\n {balance}")?,
            Reply::NoRow => writeln!(out, "ok 0")?,
        }
    }
    writeln!(out, "serial {count}")?;
    for place in 0..count {
        writeln!(out, "{} {}", place * EVENTS.len() + POINT, place + 1)?;
    }
    writeln!(out, "copies 1\ncopy 0 {count} {}", rows.len())?;
    for (id, balance) in rows {
        writeln!(out, " acct {id} {balance}")?;
    }
    writeln!(out, "looks 0\ntrace {}", count * EVENTS.len())?;
    for _ in 0..count {
        for event in EVENTS {
            writeln!(out, "{event}")?;
        }
    }
    writeln!(out, "end")
}

fn main() -> Result<(), Box<dyn Error>> {
    let mut text = String::new();
    io::stdin().lock().read_to_string(&mut text)?;
    let calls = parse_input(&text).ok_or("the input isn't of the form")?;
    let mut rows = BTreeMap::new();
    let replies: Vec<Reply> = calls.iter().map(|call| execute(&mut rows, call)).collect();
    let mut out = BufWriter::new(io::stdout().lock());
    write_report(&mut out, &replies, &rows)?;
    out.flush()?;
    Ok(())
}
