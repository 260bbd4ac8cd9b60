//! How far a stream of bundles reaches: by the model's answers, how often each range of sizes comes.

use bundle_format::{limits, Body, Bundle, Item};

use crate::link;

/// A size, the ends of its ranges, and how often each came.
struct Row {
    what: &'static str,
    ends: [usize; 4],
    counts: [u64; 4],
}

impl Row {
    const fn new(what: &'static str, ends: [usize; 4]) -> Self {
        Row {
            what,
            ends,
            counts: [0; 4],
        }
    }

    /// Nothing where the size is under the first range.
    fn note(&mut self, first: usize, size: usize) {
        let range = self.ends.iter().position(|&end| size <= end);
        if let (true, Some(range)) = (size >= first, range) {
            self.counts[range] += 1;
        }
    }
}

/// The counts of a stream.
pub struct Reach {
    bundles: u64,
    rows: [Row; 5],
}

/// The most elements of a use among items.
fn elements(items: &[Item]) -> usize {
    let of = |item: &Item| match &item.body {
        Body::Module { items, .. } => elements(items),
        Body::Use { elements, .. } => elements.len(),
        _ => 0,
    };
    items.iter().map(of).max().unwrap_or_default()
}

impl Default for Reach {
    fn default() -> Self {
        Reach {
            bundles: 0,
            rows: [
                Row::new("files of a ring", [4, 16, 32, limits::FILES]),
                Row::new("entries of a linked tree", [32, 256, 899, limits::ENTRIES]),
                Row::new("elements of its longest use", [3, 15, 31, limits::ELEMENTS]),
                Row::new("folders named `x.simf`", [1, 3, 7, limits::FOLDERS]),
                Row::new(
                    "times as large as its entries a tree is, written out",
                    [1, 4, 16, usize::MAX],
                ),
            ],
        }
    }
}

impl Reach {
    /// One bundle more.
    pub fn note(&mut self, bytes: &[u8]) {
        self.bundles += 1;
        let Ok(bundle) = Bundle::decode(bytes) else {
            return;
        };
        let run = link::run(bytes, crate::LARGEST);
        let lines = |word: &str| {
            let of_word = run.text.lines().filter(|line| line.starts_with(word));
            of_word.count()
        };
        let ring = run.text.lines().find(|line| line.starts_with("ring "));
        let length = ring.map_or(0, |line| line.split(' ').count() - 1);
        let simf = bundle
            .folders
            .iter()
            .filter(|folder| folder.ends_with(b".simf"));
        let [rings, entries, longest, folders, written] = &mut self.rows;
        rings.note(2, length);
        folders.note(1, simf.count());
        if run.image.is_some() {
            let count = lines("unit ") + lines("has ");
            entries.note(1, count);
            let most = bundle.files.iter().map(|file| elements(&file.items)).max();
            longest.note(1, most.unwrap_or_default());
            written.note(1, run.written.div_ceil(count.max(1)));
        }
    }

    /// The table.
    pub fn table(&self) -> String {
        let mut out = format!(
            "{} bundles\n\n| How many | Bundles, by range | | | |\n|---|---|---|---|---|\n",
            self.bundles
        );
        for row in &self.rows {
            out += &format!("| {} ", row.what);
            for (range, count) in row.counts.iter().enumerate() {
                let end = match row.ends[range] {
                    usize::MAX => "more".to_string(),
                    end => format!("to {end}"),
                };
                out += &format!("| {end}: {count} ");
            }
            out += "|\n";
        }
        out
    }
}
