//! Tables as ordered maps of rows, for comparison. Reads a table's name and a number of rows from standard input, works
//! on that table, and prints of each kind of work what it counted and its microseconds.
use std::collections::BTreeMap;
use std::hint::black_box;
use std::io::Read;
use std::time::Instant;

#[derive(Clone, PartialEq, Eq, PartialOrd, Ord)]
enum Value {
    Int(i64),
    Text(String),
}

use Value::{Int, Text};

const OPS: u64 = 100_000;

type Map = BTreeMap<Vec<Value>, Vec<Value>>;

struct Table {
    rows: Map,
    /// Columns of an index, and from these and the key to the key.
    indexes: Vec<(Vec<usize>, Map)>,
    /// The column that updates change.
    amount: usize,
    /// The keys of changed rows with what they were, while changes may be rolled back.
    undo: Vec<(Vec<Value>, Vec<Value>)>,
}

fn id(i: u64) -> i64 {
    i64::from((i as u32).wrapping_mul(2_654_435_761))
}

fn key(i: u64) -> Vec<Value> {
    vec![Int(id(i))]
}

fn row(table: &str, i: u64) -> Vec<Value> {
    let x = id(i);
    if table == "acct" {
        return vec![Int(x), Int(1000)];
    }
    vec![
        Int(x),
        Int(x % 5000),
        Int(x % 7),
        Text(format!("name{:08}", x % 100_000_000)),
        Text(format!("city{}", x % 997)),
        Int(1000),
        Int(x % 3650),
        Text(format!("a note on row {x}")),
    ]
}

fn bytes(row: &[Value]) -> usize {
    row.iter().map(|v| if let Text(t) = v { t.len() } else { 8 }).sum()
}

impl Table {
    fn new(table: &str) -> Table {
        let indexes = if table == "acct" { vec![] } else { vec![vec![1], vec![4, 6]] };
        Table {
            rows: Map::new(),
            indexes: indexes.into_iter().map(|columns| (columns, Map::new())).collect(),
            amount: if table == "acct" { 1 } else { 5 },
            undo: vec![],
        }
    }

    fn insert(&mut self, row: Vec<Value>) {
        let key = vec![row[0].clone()];
        for (columns, map) in &mut self.indexes {
            map.insert(entry(columns, &row), key.clone());
        }
        self.rows.insert(key, row);
    }

    fn update(&mut self, key: &[Value], logged: bool) -> bool {
        let Some(row) = self.rows.get_mut(key) else { return false };
        if logged {
            self.undo.push((key.to_vec(), row.clone()));
        }
        if let Int(n) = &mut row[self.amount] {
            *n += 1;
        }
        true
    }

    fn roll_back(&mut self) {
        while let Some((key, row)) = self.undo.pop() {
            self.rows.insert(key, row);
        }
    }

    fn delete(&mut self, key: &[Value]) -> bool {
        let Some(row) = self.rows.remove(key) else { return false };
        for (columns, map) in &mut self.indexes {
            map.remove(&entry(columns, &row));
        }
        true
    }
}

fn entry(columns: &[usize], row: &[Value]) -> Vec<Value> {
    columns.iter().chain(&[0]).map(|&c| row[c].clone()).collect()
}

fn seen(value: &Value) -> i64 {
    black_box(if let Int(n) = value { *n } else { 0 })
}

fn hundred(table: &Table, from: &[Value]) -> u64 {
    table.rows.range(from.to_vec()..).take(100).map(|(_, row)| seen(&row[table.amount])).count() as u64
}

fn timed(name: &str, work: impl FnOnce() -> u64) {
    let began = Instant::now();
    let count = work();
    println!("{name} {count} {}", began.elapsed().as_micros());
}

fn main() {
    let mut text = String::new();
    std::io::stdin().read_to_string(&mut text).unwrap();
    let mut words = text.split_whitespace();
    let name = words.next().unwrap();
    let n: u64 = words.next().unwrap().parse().unwrap();
    let mut table = Table::new(name);
    let picked = |i: u64| key((i as u32).wrapping_mul(7919) as u64 % n.max(1));
    timed("insert", || {
        (0..n).for_each(|i| table.insert(row(name, i)));
        n
    });
    timed("read", || {
        (0..OPS).filter_map(|i| table.rows.get(&picked(i))).map(|row| seen(&row[table.amount])).count() as u64
    });
    timed("update", || (0..OPS).filter(|&i| table.update(&picked(i), false)).count() as u64);
    timed("range", || {
        (0..OPS / 100).map(|i| hundred(&table, &picked(i))).sum()
    });
    timed("undo", || {
        for turn in 0..OPS / 100 {
            (0..100).for_each(|i| _ = table.update(&picked(turn * 100 + i), true));
            table.roll_back();
        }
        OPS
    });
    timed("delete", || (0..OPS.min(n / 2)).filter(|&i| table.delete(&key(i))).count() as u64);
    println!("bytes {} 0", (0..n).map(|i| bytes(&row(name, i))).sum::<usize>());
}
