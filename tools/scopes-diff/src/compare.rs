//! The port's answers and trees against the original's.

use bundle_format::limits;

use crate::cover::Cover;
use crate::lists::{self, List};
use crate::port::{self, Row};

/// More lines of a tree than this are not compared.
const LINES: usize = 100_000;

/// The entries of a scope at a time, written out in the oracle's order, unless there are too many.
fn written(rows: &[Row], scope: u64, time: usize, indent: usize, out: &mut Vec<String>) -> bool {
    let mut order: Vec<(u64, Vec<u8>, usize)> = Vec::new();
    for (i, row) in rows.iter().enumerate().take(time).skip(scope as usize) {
        if row[2] == scope {
            let name: Vec<u8> = row[7..]
                .iter()
                .flat_map(|word| word.to_be_bytes())
                .filter(|b| *b != 0)
                .collect();
            order.push((row[0], name, i));
        }
    }
    order.sort();
    for (kind, name, i) in order {
        let row = &rows[i];
        out.push(format!(
            "{}{kind} {} {} {}",
            "  ".repeat(indent),
            String::from_utf8_lossy(&name),
            row[1],
            row[3]
        ));
        if out.len() > LINES {
            return false;
        }
        let inside = match (kind, row[4]) {
            (3, 0) => (i as u64 + 1, time),
            _ => (row[5], (row[6] as usize).min(time)),
        };
        if kind == 3 && !written(rows, inside.0, inside.1, indent + 1, out) {
            return false;
        }
    }
    true
}

pub fn bytes(list: &List) -> Vec<u8> {
    let mut bytes = Vec::new();
    for call in &list.calls {
        call.bytes(&mut bytes);
    }
    bytes
}

/// None where the two agree; whether the tree was compared.
fn difference(list: &List, rows: &mut [Row]) -> Result<bool, String> {
    let bytes = bytes(list);
    let mut numbers = vec![0u32; list.calls.len()];
    let count = port::replay(&bytes, &mut numbers);
    if count != list.calls.len() {
        return Err(format!("{count} calls of {} read", list.calls.len()));
    }
    for (at, number) in numbers.iter().enumerate() {
        let (ours, theirs) = (port::answer(*number), &list.answers[at]);
        if theirs == "large" {
            return Ok(false);
        }
        if ours != *theirs {
            let line = list.calls[at].line();
            return Err(format!("call {at}: {line}: {ours}, the original {theirs}"));
        }
    }
    let mut walked = vec![0u32; list.calls.len()];
    let count = port::walk(&bytes, &mut walked);
    if count != list.calls.len() || walked != numbers {
        return Err("the walk over lent arrays answers otherwise".to_string());
    }
    let count = port::rows(&bytes, rows);
    let mut ours = Vec::new();
    if !written(&rows[..count], 0, count, 0, &mut ours) {
        return Ok(false);
    }
    if !ours.iter().map(String::as_str).eq(list.written.lines()) {
        return Err("the trees differ".to_string());
    }
    Ok(true)
}

pub fn run(seed: u64, count: u64) -> u64 {
    let mut cover = Cover::default();
    let (mut trees, mut differences) = (0u64, 0u64);
    let mut families = vec![0u64; lists::family_names().count()];
    let mut rows = vec![[0u64; 11]; limits::ENTRIES];
    for index in 0..count {
        let (mut list, family) = lists::list(seed, index);
        families[family] += 1;
        match difference(&list, &mut rows) {
            Ok(compared) => trees += u64::from(compared),
            Err(what) => {
                differences += 1;
                if differences <= 10 {
                    println!("list {index} of seed {seed}: {what}");
                }
            }
        }
        list.cover.written(&list.written);
        cover.add(&list.cover);
    }
    println!(
        "{} lists, {} calls, {trees} trees compared, {differences} differences; by value and over \
         lent arrays",
        cover.lists, cover.calls
    );
    for (name, count) in lists::family_names().zip(families) {
        println!("  {name}: {count} lists");
    }
    print!("{cover}");
    differences
}

/// The calls of a list, each with both answers.
pub fn show(seed: u64, index: u64) {
    let (list, _) = lists::list(seed, index);
    let mut numbers = vec![0u32; list.calls.len()];
    port::replay(&bytes(&list), &mut numbers);
    for ((call, number), theirs) in list.calls.iter().zip(numbers).zip(&list.answers) {
        println!("{}: {}, {theirs}", call.line(), port::answer(number));
    }
    print!("{}", list.written);
}
