//! The stored calls and answers of crates/scopes_vectors.

use std::collections::HashMap;
use std::mem::{discriminant, Discriminant};

use crate::calls::Call;
use crate::compare;
use crate::lists;

/// Longer lists are left out.
const LONGEST: usize = 60;
/// What the program reads.
const BYTES: usize = 65_536;
/// Lists whose calls have more bytes than this on average are few.
const WIDE: usize = 18;

/// Writes the files `stdin` and `stdout` of crates/scopes_vectors: lists of a seed, up to so many
/// calls, each with an answer or a number to a call that few before it had. A list starts with
/// the byte that stands for an empty tree, whose answer is `ok`.
pub fn write(seed: u64, calls: usize) -> std::io::Result<()> {
    let (mut input, mut output, mut count) = (Vec::new(), String::new(), 0);
    let mut seen: HashMap<(Discriminant<Call>, String), usize> = HashMap::new();
    let (mut lists_written, mut wide) = (0, 0);
    for index in 0.. {
        let (list, _) = lists::list(seed, index);
        if list.calls.len() > LONGEST || list.answers.iter().any(|answer| answer == "large") {
            continue;
        }
        if count + 1 + list.calls.len() > calls {
            break;
        }
        let kinds = list.calls.iter().zip(&list.answers).map(|(call, answer)| {
            let word = match answer.strip_prefix("ok") {
                Some(_) => "ok".to_string(),
                None => answer.clone(),
            };
            (discriminant(call), word)
        });
        let kinds: Vec<_> = kinds.collect();
        if !kinds
            .iter()
            .any(|kind| seen.get(kind).copied().unwrap_or(0) < 12)
        {
            continue;
        }
        let bytes = compare::bytes(&list);
        if bytes.len() > WIDE * list.calls.len() {
            if wide == 4 {
                continue;
            }
            wide += 1;
        }
        for kind in kinds {
            *seen.entry(kind).or_default() += 1;
        }
        input.push(0);
        input.extend(bytes);
        output += "ok\n";
        for answer in &list.answers {
            output += answer;
            output.push('\n');
        }
        count += 1 + list.calls.len();
        lists_written += 1;
    }
    assert!(input.len() <= BYTES, "the program reads {BYTES} bytes");
    println!("{lists_written} lists, {count} answers");
    std::fs::write("stdin", input)?;
    std::fs::write("stdout", output)
}
