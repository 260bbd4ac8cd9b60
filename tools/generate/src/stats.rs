//! How often each number comes in a stream of answers.

use std::io::BufRead;

/// The numbers a bundle can reach, with their words.
const REACHABLE: [(u8, &str); 33] = [
    (1, "cut"),
    (2, "version"),
    (3, "too many"),
    (4, "bad path"),
    (5, "bad name"),
    (6, "bad kind"),
    (7, "twice"),
    (8, "orphan"),
    (9, "nowhere"),
    (10, "no folder"),
    (11, "reserved"),
    (12, "odd name"),
    (13, "same remapping"),
    (15, "long image"),
    (20, "empty use"),
    (21, "unknown library"),
    (22, "no library file"),
    (23, "no file"),
    (24, "own file"),
    (25, "no root"),
    (26, "ring"),
    (27, "no main"),
    (28, "foreign enum"),
    (41, "no module"),
    (42, "private module"),
    (43, "no item"),
    (44, "private item"),
    (45, "clash"),
    (46, "alias main"),
    (47, "module twice"),
    (48, "type twice"),
    (49, "function twice"),
    (51, "tree full"),
];

/// The table of the answers on `input`: those that link, and for each number the answers it is in
/// and the lines it is on.
pub fn stats(input: impl BufRead) -> std::io::Result<String> {
    let mut answers = 0u64;
    let mut linked = 0u64;
    // The oracle's answers where the original would not finish or panics.
    let mut large = 0u64;
    let mut panics = 0u64;
    let mut other = 0u64;
    // For each number: answers, lines, and the last answer it was in.
    let mut counts = vec![(0u64, 0u64, 0u64); 256];
    let mut started = false;
    for line in input.lines() {
        let line = line?;
        if !started {
            answers += 1;
        }
        started = line != "--";
        let mut words = line.split(' ');
        match words.next() {
            Some("ok") => linked += 1,
            Some("no") => match words.next().and_then(|word| word.parse::<u8>().ok()) {
                Some(number) => {
                    let (inside, lines, last) = &mut counts[usize::from(number)];
                    *inside += u64::from(*last != answers);
                    *last = answers;
                    *lines += 1;
                }
                None => other += 1,
            },
            Some("large") => large += 1,
            Some("panic") => panics += 1,
            Some("unit" | "has" | "ring" | "image" | "--") => {}
            _ => other += 1,
        }
    }

    let share = |count: u64| match answers.checked_div(count) {
        None => "never".to_string(),
        Some(0..=9) => format!("{:.1}", answers as f64 / count as f64),
        Some(share) => share.to_string(),
    };
    let mut out =
        String::from("| No. | Word | Answers | One in | Lines |\n|---|---|---|---|---|\n");
    out += &format!("| ok | linked | {linked} | {} | |\n", share(linked));
    let mut row = |number: u8, word: &str, (inside, lines, _): (u64, u64, u64)| {
        out += &format!(
            "| {number} | {word} | {inside} | {} | {lines} |\n",
            share(inside)
        );
    };
    for (number, word) in REACHABLE {
        row(number, word, counts[usize::from(number)]);
    }
    for number in 0..=255 {
        let known = REACHABLE.iter().any(|(reachable, _)| *reachable == number);
        if !known && counts[usize::from(number)].1 > 0 {
            row(number, "not expected", counts[usize::from(number)]);
        }
    }
    out += &format!(
        "\n{answers} answers, {large} large, {panics} panics, {other} lines of another form\n"
    );
    Ok(out)
}
