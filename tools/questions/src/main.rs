//! `questions SEED COUNT`: questions on paths and names for `oracle --names` and for the program
//! names_vectors, the same each time for the same seed. After a fixed list at the edges of the forms
//! come COUNT drawn ones. `questions graphs SEED COUNT`: graphs for `oracle --graph` and for the
//! program graph_vectors, likewise; the fixed list has all graphs of one to three units.
//! `questions graphs-sample SEED BYTES`: fewer of them, the stored ones of graph_vectors.

mod graphs;

use std::io::Write;

use bundle_format::forms::is_path;
use bundle_generate::rng::Rng;

const KEYWORDS: [&str; 14] = [
    "pub", "use", "as", "fn", "let", "type", "mod", "const", "match", "enum", "crate", "simc",
    "true", "false",
];

fn hex(bytes: &[u8]) -> String {
    bytes.iter().map(|byte| format!("{byte:02x}")).collect()
}

/// A name from few letters, so that names are equal, and prefixes of each other, often.
fn name(rng: &mut Rng) -> Vec<u8> {
    let mut name = Vec::new();
    for _ in 0..rng.between(1, 4) {
        name.push(*rng.pick(b"aabB_9"));
    }
    if name[0] == b'9' {
        name[0] = b'a';
    }
    name
}

fn path(rng: &mut Rng) -> Vec<u8> {
    let mut path = Vec::new();
    for _ in 0..rng.below(4) {
        path.push(b'/');
        path.extend(name(rng));
    }
    if path.is_empty() {
        path.push(b'/');
    }
    path
}

fn damaged(rng: &mut Rng, mut bytes: Vec<u8>) -> Vec<u8> {
    let at = rng.below(bytes.len() + 1);
    let byte = *rng.pick(b"/.\x20\x21\x7e\x7f\x00\xff09AZaz_-");
    match rng.below(3) {
        0 => bytes.insert(at, byte),
        1 if at < bytes.len() => bytes[at] = byte,
        _ => bytes.truncate(at),
    }
    bytes
}

fn child(folder: &[u8], segment: &[u8]) -> Vec<u8> {
    let stem = if folder == b"/" { &[][..] } else { folder };
    [stem, b"/", segment].concat()
}

/// The edges: every keyword with a byte more, less and other; lengths around each limit; every byte
/// first, inside and alone.
fn edges() -> Vec<String> {
    let mut lines = Vec::new();
    for word in KEYWORDS {
        let word = word.as_bytes();
        lines.push(format!("keyword {}", hex(word)));
        lines.push(format!("keyword {}", hex(&[word, b"s"].concat())));
        lines.push(format!("keyword {}", hex(&word[1..])));
        lines.push(format!("keyword {}", hex(&word.to_ascii_uppercase())));
        lines.push(format!("identifier {}", hex(word)));
    }
    for length in [0, 1, 2, 31, 32, 33, 34, 200] {
        lines.push(format!("identifier {}", hex(&vec![b'x'; length])));
        lines.push(format!("path {}", hex(&child(b"/", &vec![b'x'; length]))));
        lines.push(format!("path {}", hex(&child(b"/a", &vec![b'.'; length]))));
    }
    for byte in 0..=255u8 {
        lines.push(format!("identifier {}", hex(&[byte])));
        lines.push(format!("identifier {}", hex(&[b'a', byte])));
        lines.push(format!("path {}", hex(&[b'/', byte])));
        lines.push(format!("path {}", hex(&[byte, b'a'])));
    }
    for count in [15, 16, 17] {
        lines.push(format!("path {}", hex(&b"/a".repeat(count))));
    }
    for last in [30, 31, 32] {
        let long = [b"/".as_slice(), &[b'y'; 31]].concat().repeat(7);
        lines.push(format!(
            "path {}",
            hex(&[&long[..], b"/", &vec![b'z'; last]].concat())
        ));
    }
    for id in [
        0,
        1,
        9,
        10,
        63,
        64,
        99,
        100,
        511,
        512,
        65_535,
        4_294_967_296u64,
        18_446_744_073_709_551_609,
    ] {
        lines.push(format!("unit {id}"));
    }
    lines
}

fn drawn(rng: &mut Rng) -> String {
    match rng.below(9) {
        0 => format!(
            "path {}",
            hex(&{
                let p = path(rng);
                damaged(rng, p)
            })
        ),
        1 => format!(
            "identifier {}",
            hex(&{
                let n = name(rng);
                damaged(rng, n)
            })
        ),
        2 | 3 => {
            let below = path(rng);
            let cut = rng.between(1, below.len());
            let prefix =
                Some(below[..cut].to_vec()).filter(|prefix| is_path(prefix) && rng.chance(60));
            let prefix = prefix.unwrap_or_else(|| path(rng));
            format!("prefix {} {}", hex(&below), hex(&prefix))
        }
        4 => {
            let folder = path(rng);
            let inside = if rng.chance(60) {
                child(&folder, &name(rng))
            } else {
                path(rng)
            };
            format!("in {} {}", hex(&inside), hex(&folder))
        }
        5 => format!("parent {}", hex(&path(rng))),
        6 | 7 => {
            let (folder, segment) = (path(rng), name(rng));
            let (word, end) = if rng.chance(50) {
                ("child", "")
            } else {
                ("simf", ".simf")
            };
            let mut found = [&child(&folder, &segment)[..], end.as_bytes()].concat();
            if rng.chance(40) {
                found = damaged(rng, found);
            }
            format!("{word} {} {} {}", hex(&found), hex(&folder), hex(&segment))
        }
        _ => format!("unit {}", rng.next_u64() >> rng.between(1, 63)),
    }
}

fn main() {
    let arguments: Vec<String> = std::env::args().skip(1).collect();
    let (word, arguments) = match arguments.split_first() {
        Some((word, rest)) if word.starts_with("graphs") => (word.as_str(), rest),
        _ => ("names", &arguments[..]),
    };
    let numbers: Option<Vec<u64>> = arguments.iter().map(|word| word.parse().ok()).collect();
    let Some(&[seed, count]) = numbers.as_deref() else {
        eprintln!("usage: questions [graphs | graphs-sample] SEED COUNT");
        std::process::exit(2);
    };
    let mut out = std::io::BufWriter::new(std::io::stdout().lock());
    let mut write = |line: String| {
        if writeln!(out, "{line}").is_err() {
            std::process::exit(1);
        }
    };
    let (fixed, draw): (Vec<String>, fn(&mut Rng) -> String) = match word {
        "graphs" => (
            [graphs::edges(), graphs::small(false)].concat(),
            graphs::drawn,
        ),
        "graphs-sample" => {
            let sample = graphs::sample(seed, count as usize);
            sample.into_iter().for_each(write);
            return;
        }
        _ => (edges(), drawn),
    };
    fixed.into_iter().for_each(&mut write);
    for index in 0..count {
        write(draw(&mut Rng::new(seed, index)));
    }
    if out.flush().is_err() {
        std::process::exit(1);
    }
}
