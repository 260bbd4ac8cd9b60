//! Steps 1 to 5 and the image: the port against the model of tools/generate and the original.

use std::collections::BTreeMap;

use bundle_generate::link;
use gontsamy::layout::{IMAGE, REPORT};

/// What the port's operation tells: a refusal; or the report's bytes; or each unit's place among
/// the bundle's files, the linked order and the image.
#[derive(Clone, Debug, PartialEq, Eq)]
pub enum Told {
    Refused(u8, usize),
    Report(Vec<u8>),
    Linked(Vec<usize>, Vec<usize>, Vec<u8>),
    /// Numbers where none is to be told.
    Stray(Vec<usize>),
}

const RING: u8 = 26;

/// The printed lines of a refusal or of a report as the port tells them.
fn told(lines: &str) -> Told {
    let numbers = |line: &str| -> Vec<usize> {
        let words = line.split(' ').skip(1);
        words.map(|word| word.parse().expect("a number")).collect()
    };
    let mut report = Vec::new();
    for line in lines.lines() {
        let words = numbers(line);
        if line.starts_with("ring") {
            report.push(words.len() as u8);
            report.extend(words.iter().map(|&id| id as u8));
            continue;
        }
        if words[0] < 20 {
            return Told::Refused(words[0] as u8, words[1]);
        }
        let place = u16::try_from(words[1]).expect("a mark").to_be_bytes();
        report.extend([words[0] as u8, place[0], place[1]]);
    }
    Told::Report(report)
}

/// The model's answer as the port tells it.
fn model(bytes: &[u8]) -> Told {
    match link::assemble(bytes) {
        Ok((files, order, image)) => Told::Linked(files, order, image),
        Err(lines) => told(&lines),
    }
}

/// The port's answers with buffers of several lengths: where the report or the image does not fit
/// it is 14, and a buffer's bytes change under the report or the image alone.
fn port_difference(bytes: &[u8], expected: &Told) -> Option<String> {
    let (report, image) = match expected {
        Told::Report(report) => (report.len(), 0),
        Told::Linked(_, _, image) => (0, image.len()),
        _ => (0, 0),
    };
    let lengths = [
        (report, image),
        (report.saturating_sub(1), image.saturating_sub(1)),
        (report + 9, image + 9),
        (REPORT, IMAGE),
    ];
    for (lent_report, lent_image) in lengths {
        let fill = |length: usize| (0..length).map(|at| at as u8 ^ 0xa5).collect::<Vec<u8>>();
        let (mut report, mut image) = (fill(lent_report), fill(lent_image));
        let (mut wanted_report, mut wanted_image) = (report.clone(), image.clone());
        let answer = match expected {
            Told::Report(bytes) if bytes.len() > lent_report => Told::Refused(14, 0),
            Told::Linked(_, _, bytes) if bytes.len() > lent_image => Told::Refused(14, 0),
            Told::Report(bytes) => {
                wanted_report[..bytes.len()].copy_from_slice(bytes);
                expected.clone()
            }
            Told::Linked(_, _, bytes) => {
                wanted_image[..bytes.len()].copy_from_slice(bytes);
                expected.clone()
            }
            _ => expected.clone(),
        };
        let found = crate::steps::assemble(bytes, &mut report, &mut image);
        if found != answer {
            return Some(format!(
                "{answer:?} expected with {lent_report} and {lent_image} bytes, {found:?} found"
            ));
        }
        if report != wanted_report || image != wanted_image {
            return Some(format!(
                "the {lent_report} and {lent_image} bytes lent are not as expected"
            ));
        }
    }
    None
}

/// Whether the original says otherwise. It gives an image only after step 6, so that of a bundle
/// that fails there only the model is compared.
#[cfg(original)]
struct Original(oracle::judge::Judge);

#[cfg(original)]
impl Original {
    fn new() -> Self {
        Original(oracle::judge::Judge::new().expect("a private root"))
    }

    fn differs(&mut self, bytes: &[u8], model: &Told) -> bool {
        match self.0.judge(bytes) {
            oracle::judge::Answer::Linked(linked) => match model {
                Told::Linked(_, order, image) => {
                    let ids: Vec<usize> = linked.units.iter().map(|(id, _)| *id).collect();
                    ids != *order || linked.image != *image
                }
                _ => true,
            },
            oracle::judge::Answer::Large => !matches!(model, Told::Linked(..)),
            other => {
                let lines = other.print(false);
                let number = lines.split(' ').nth(1).and_then(|word| word.parse().ok());
                match number {
                    Some(40..=51) => !matches!(model, Told::Linked(..) | Told::Refused(15, 0)),
                    _ => told(&lines) != *model,
                }
            }
        }
    }
}

#[cfg(not(original))]
struct Original;

#[cfg(not(original))]
impl Original {
    fn new() -> Self {
        Original
    }

    fn differs(&mut self, _: &[u8], _: &Told) -> bool {
        false
    }
}

fn against() -> &'static str {
    if cfg!(original) {
        "against the model and the original"
    } else {
        "against the model alone"
    }
}

/// What kind of answer it is, for the counts.
fn kind(told: &Told) -> String {
    match told {
        Told::Refused(number, _) => format!("no {number}"),
        Told::Report(report) if report[0] == RING => "ring".into(),
        Told::Report(report) => {
            let mut numbers: Vec<u8> = report.chunks(3).map(|record| record[0]).collect();
            numbers.sort();
            numbers.dedup();
            let words: Vec<String> = numbers.iter().map(u8::to_string).collect();
            format!("report of {}", words.join(", "))
        }
        Told::Linked(..) => "linked".into(),
        Told::Stray(_) => "stray".into(),
    }
}

/// Generated bundles.
pub fn generated(seed: u64, count: u64) -> u64 {
    let mut original = Original::new();
    let (mut differences, mut kinds) = (0, BTreeMap::<String, u64>::new());
    for index in 0..count {
        let bytes = bundle_generate::bundle(seed, index, None);
        let expected = model(&bytes);
        *kinds.entry(kind(&expected)).or_default() += 1;
        let mut difference = port_difference(&bytes, &expected);
        if difference.is_none() && original.differs(&bytes, &expected) {
            difference = Some("model and original differ".into());
        }
        if let Some(text) = difference {
            differences += 1;
            println!("bundle {index} of seed {seed}: {text}");
        }
    }
    println!("{count} bundles {}: {differences} differences", against());
    for (kind, times) in kinds {
        println!("{times:>8} {kind}");
    }
    differences
}

/// Writes the files `stdin` and `stdout` of a program that replays stored answers: up to so many
/// bytes of small bundles, each led by its length in 4 bytes, with at most three of a kind of answer,
/// and one for each number of units. The original, if it is there, says the same.
pub fn sample(length: usize) -> std::io::Result<()> {
    let mut original = Original::new();
    let (mut input, mut output, mut count) = (Vec::new(), String::new(), 0);
    let mut seen: BTreeMap<String, usize> = BTreeMap::new();
    for index in 0..400_000 {
        let bytes = bundle_generate::bundle(13, index, None);
        if bytes.len() > 900 {
            continue;
        }
        let model = model(&bytes);
        let (kind, limit) = match &model {
            Told::Linked(files, ..) => (format!("{} units", files.len()), 5),
            other => (kind(other), 3),
        };
        let times = seen.entry(kind).or_default();
        if *times == limit || input.len() + 4 + bytes.len() > length {
            continue;
        }
        assert!(!original.differs(&bytes, &model), "bundle {index}");
        *times += 1;
        count += 1;
        input.extend((bytes.len() as u32).to_be_bytes());
        input.extend(&bytes);
        output += &match link::assemble(&bytes) {
            Ok((files, _, image)) => {
                let hex: String = image.iter().map(|byte| format!("{byte:02x}")).collect();
                format!("ok {}\nimage {hex}\n", files.len())
            }
            Err(lines) => lines,
        };
    }
    println!("{count} bundles, {} bytes; {}", input.len(), against());
    std::fs::write("stdin", input)?;
    std::fs::write("stdout", output)
}
