//! What lists of calls cover.

use std::collections::BTreeMap;

use bundle_format::limits;

use crate::calls::Call;
use crate::register::{Imported, Register};

/// Sums over lists. `lists_with` counts lists in which something happens at least once.
#[derive(Default)]
pub struct Cover {
    pub lists: u64,
    pub calls: u64,
    /// Answers by call and number, 0 for an accepted one.
    answers: BTreeMap<(&'static str, u8), u64>,
    happened: BTreeMap<&'static str, Happened>,
    deepest: usize,
    segments: usize,
    entries: usize,
    generation: usize,
    pub lines: usize,
    pub indent: usize,
}

#[derive(Clone, Copy, Default)]
struct Happened {
    times: u64,
    lists: u64,
}

fn word(call: &Call) -> &'static str {
    match call {
        Call::Enter(..) => "enter",
        Call::Exit => "exit",
        Call::Alias(..) => "insert_alias",
        Call::Enum(..) => "insert_enum",
        Call::Function(..) => "insert_function",
        Call::Use(..) | Call::Form(..) => "resolve_use",
        Call::GetAlias(_) => "get_alias",
        Call::GetFunction(_) => "get_function",
    }
}

impl Cover {
    fn happens(&mut self, what: &'static str, times: usize) {
        if times > 0 {
            let happened = self.happened.entry(what).or_default();
            happened.times += times as u64;
            happened.lists = 1;
        }
    }

    pub fn call(&mut self, call: &Call, answer: &str) {
        self.calls += 1;
        let number = match answer.split_once(' ') {
            Some(("no", number)) => number.parse().expect("a number"),
            _ => 0,
        };
        if answer == "large" {
            self.happens("the original cannot finish", 1);
        }
        *self.answers.entry((word(call), number)).or_default() += 1;
        if let (0, Call::Use(_, path, _)) = (number, call) {
            self.segments = self.segments.max(path.len());
        }
    }

    pub fn imported(&mut self, imported: &Imported) {
        self.happens("imports", imported.entries);
        self.happens("re-exports", imported.re_exports);
        self.happens("copies of copies", imported.copies_of_copies);
        self.happens("copies of open modules", imported.open_ancestors);
        self.happens("uses through a copy", imported.through_copies);
        self.generation = self.generation.max(imported.generation);
    }

    pub fn tree(&mut self, register: &Register) {
        self.lists = 1;
        self.deepest = self.deepest.max(register.open.len());
        self.entries = self.entries.max(register.entries.len());
        if register.entries.len() == limits::ENTRIES && !self.happened.contains_key("1,024 entries")
        {
            self.happens("1,024 entries", 1);
        }
        if register.open.len() == 9 && !self.happened.contains_key("9 open modules") {
            self.happens("9 open modules", 1);
        }
    }

    /// The tree at the end, written out.
    pub fn written(&mut self, lines: &str) {
        let indent = |line: &str| (line.len() - line.trim_start().len()) / 2 + 1;
        self.lines = lines.lines().count();
        self.indent = lines.lines().map(indent).max().unwrap_or(0);
    }

    pub fn add(&mut self, other: &Cover) {
        self.lists += other.lists;
        self.calls += other.calls;
        for (key, count) in &other.answers {
            *self.answers.entry(*key).or_default() += count;
        }
        for (what, happened) in &other.happened {
            let sum = self.happened.entry(what).or_default();
            sum.times += happened.times;
            sum.lists += happened.lists;
        }
        self.deepest = self.deepest.max(other.deepest);
        self.segments = self.segments.max(other.segments);
        self.entries = self.entries.max(other.entries);
        self.generation = self.generation.max(other.generation);
        self.lines = self.lines.max(other.lines);
        self.indent = self.indent.max(other.indent);
    }
}

impl std::fmt::Display for Cover {
    fn fmt(&self, f: &mut std::fmt::Formatter<'_>) -> std::fmt::Result {
        let mut numbers: BTreeMap<u8, u64> = BTreeMap::new();
        let mut by_call: BTreeMap<&str, Vec<String>> = BTreeMap::new();
        for ((call, number), count) in &self.answers {
            *numbers.entry(*number).or_default() += count;
            by_call
                .entry(call)
                .or_default()
                .push(format!("{number}: {count}"));
        }
        writeln!(f, "answers (0 is ok):")?;
        for (number, count) in numbers {
            writeln!(f, "  {number}: {count}")?;
        }
        writeln!(f, "by call:")?;
        for (call, counts) in by_call {
            writeln!(f, "  {call}: {}", counts.join(", "))?;
        }
        writeln!(f, "times, and lists with at least one:")?;
        for (what, happened) in &self.happened {
            writeln!(f, "  {what}: {}, {} lists", happened.times, happened.lists)?;
        }
        writeln!(
            f,
            "at most: {} open modules, {} entries, {} segments of an accepted use, {} imports in a \
             row from a declaration, {} lines of a tree written out, {} levels in it",
            self.deepest, self.entries, self.segments, self.generation, self.lines, self.indent
        )
    }
}
