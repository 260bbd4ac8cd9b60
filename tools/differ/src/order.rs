//! Discovery and order: the port against the original and the model of tools/generate.

use std::collections::BTreeMap;

use bundle_format::limits;
use bundle_generate::link::{self, Discovered};
use bundle_generate::shape;
use gontsamy::layout::REPORT;

/// What the port's operation tells: a refusal; or the report's bytes; or each unit's place among
/// the bundle's files, and the linked order.
#[derive(Clone, Debug, PartialEq, Eq)]
pub enum Told {
    Refused(u8, usize),
    Report(Vec<u8>),
    Linked(Vec<usize>, Vec<usize>),
    /// Numbers where none is to be told.
    Stray(Vec<usize>),
}

/// Each unit's place among the bundle's files, and the ids that it lists.
pub type Graph = (Vec<usize>, Vec<Vec<usize>>);

const RING: u8 = 26;

fn record(number: u8, place: usize) -> [u8; 3] {
    let place = u16::try_from(place).expect("a mark").to_be_bytes();
    [number, place[0], place[1]]
}

/// The model's answer as the port tells it.
fn told(discovered: &Discovered) -> Told {
    match discovered {
        Discovered::Refused(refusal) => Told::Refused(refusal.number, refusal.place),
        Discovered::Graph { faults, .. } if !faults.is_empty() => {
            let mut report = Vec::new();
            for line in faults.lines() {
                let mut words = line.split(' ').skip(1).map(|word| word.parse::<usize>());
                let mut next = || words.next().expect("two numbers").expect("a number");
                let number = u8::try_from(next()).expect("a number of the table");
                report.extend(record(number, next()));
            }
            Told::Report(report)
        }
        Discovered::Graph {
            order: Err(ring), ..
        } => {
            let mut report = record(RING, 0).to_vec();
            report.push(ring.len() as u8);
            report.extend(ring.iter().map(|&id| id as u8));
            Told::Report(report)
        }
        Discovered::Graph {
            files,
            order: Ok(order),
            ..
        } => Told::Linked(files.clone(), order.clone()),
    }
}

/// The port's answers with buffers of several lengths: where the report does not fit it is 14, and
/// a buffer's bytes change under the report alone.
fn port_difference(bytes: &[u8], model: &Discovered) -> Option<String> {
    let expected = &told(model);
    let graph = match model {
        Discovered::Refused(refusal) => Err((refusal.number, refusal.place)),
        Discovered::Graph { files, lists, .. } => Ok((files.clone(), lists.clone())),
    };
    let found = crate::steps::discover(bytes);
    if found != graph {
        return Some(format!("{graph:?} expected, {found:?} found"));
    }
    let length = match expected {
        Told::Report(report) => report.len(),
        _ => 0,
    };
    for lent in [length.saturating_sub(1), length, length + 9, REPORT] {
        let mut buffer: Vec<u8> = (0..lent).map(|at| at as u8 ^ 0xa5).collect();
        let mut wanted = buffer.clone();
        let answer = match expected {
            Told::Report(report) if report.len() > lent => Told::Refused(14, 0),
            Told::Report(report) => {
                wanted[..report.len()].copy_from_slice(report);
                expected.clone()
            }
            _ => expected.clone(),
        };
        let found = crate::host::order(bytes, &mut buffer);
        if found != answer {
            return Some(format!(
                "{answer:?} expected with {lent} bytes, {found:?} found"
            ));
        }
        if buffer != wanted {
            return Some(format!("the {lent} bytes lent are not as expected"));
        }
    }
    None
}

/// What the original says, as the model's text has it.
#[cfg(original)]
struct Original(oracle::judge::Judge);

#[cfg(original)]
impl Original {
    fn new() -> Self {
        Original(oracle::judge::Judge::new().expect("a private root"))
    }

    /// Of a bundle with faults the original keeps the units, not their lists.
    fn differs(&mut self, bytes: &[u8], model: &Discovered) -> bool {
        let original = self.0.discover(bytes);
        let units = match (&original, model) {
            (
                oracle::discover::Discovered::Faults { units, .. },
                Discovered::Graph { paths, .. },
            ) => units
                .iter()
                .map(String::as_bytes)
                .eq(paths.iter().map(Vec::as_slice)),
            _ => true,
        };
        !units || original.print() != model.print()
    }
}

#[cfg(not(original))]
struct Original;

#[cfg(not(original))]
impl Original {
    fn new() -> Self {
        Original
    }

    fn differs(&mut self, _: &[u8], _: &Discovered) -> bool {
        false
    }
}

fn against() -> &'static str {
    match cfg!(original) {
        true => "port, original and model",
        false => "port and model (the original is missing)",
    }
}

pub fn generated(seed: u64, count: u64) -> u64 {
    let mut original = Original::new();
    let mut differences = 0;
    let mut kinds: BTreeMap<&str, u64> = BTreeMap::new();
    let (mut most_units, mut most_faults) = (0, 0);
    for index in 0..count {
        let bytes = bundle_generate::bundle(seed, index, None);
        let model = link::discover(&bytes);
        let kind = match &model {
            Discovered::Refused(_) => "refused",
            Discovered::Graph {
                faults,
                files,
                order,
                ..
            } => {
                most_units = most_units.max(files.len());
                most_faults = most_faults.max(faults.lines().count());
                match order {
                    _ if !faults.is_empty() => "faults",
                    Ok(_) => "order",
                    Err(_) => "ring",
                }
            }
        };
        *kinds.entry(kind).or_default() += 1;
        let mut differs = |what: String| {
            differences += 1;
            if differences <= 10 {
                let hex: String = bytes.iter().map(|byte| format!("{byte:02x}")).collect();
                println!("bundle {index}: {what}: {hex}");
            }
        };
        if original.differs(&bytes, &model) {
            differs("the original and the model differ".to_string());
        }
        if let Some(what) = port_difference(&bytes, &model) {
            differs(what);
        }
    }
    println!("{count} bundles, {differences} differences; {}", against());
    println!("at most {most_units} units, {most_faults} faults");
    for (kind, count) in kinds {
        println!("{kind}: {count}");
    }
    differences
}

/// The answer in the printing program's lines: units in linked order.
fn in_order(model: &Discovered) -> String {
    match model {
        Discovered::Graph { faults, .. } if !faults.is_empty() => faults.clone(),
        Discovered::Graph {
            paths,
            order: Ok(order),
            ..
        } => {
            let mut out = format!("ok {}\n", order.len());
            for &id in order {
                out += &format!("unit {id} {}\n", String::from_utf8_lossy(&paths[id]));
            }
            out
        }
        Discovered::Graph {
            order: Err(ring), ..
        } => {
            let ids: String = ring.iter().map(|id| format!(" {id}")).collect();
            format!("no {RING} 0\nring{ids}\n")
        }
        Discovered::Refused(_) => model.print(),
    }
}

/// Writes the files `stdin` and `stdout` of a program that replays stored answers: up to so many
/// bytes of small bundles, each led by its length in 4 bytes, in turn with a linked order, a ring,
/// several faults, each number, and a refusal. The answers are those of the original, if it is
/// there: as `oracle --discover` prints them (`lists`), or as the printing program (`order`).
pub fn sample(form: &str, length: usize) -> std::io::Result<()> {
    let mut original = Original::new();
    let (mut input, mut output, mut count) = (Vec::new(), String::new(), 0);
    let mut seen: BTreeMap<String, usize> = BTreeMap::new();
    for index in 0..400_000 {
        let bytes = bundle_generate::bundle(9, index, None);
        if bytes.len() > 600 {
            continue;
        }
        let model = link::discover(&bytes);
        let (kind, limit) = match &model {
            Discovered::Refused(refusal) => (format!("no {}", refusal.number), 1),
            Discovered::Graph { faults, .. } if !faults.is_empty() => {
                let numbers = faults.lines().filter_map(|line| line.split(' ').nth(1));
                (numbers.collect::<Vec<_>>().join(" "), 2)
            }
            Discovered::Graph {
                order: Err(ring), ..
            } => (format!("ring of {}", ring.len()), 6),
            Discovered::Graph { files, lists, .. } => {
                let ids: usize = lists.iter().map(Vec::len).sum();
                (format!("{} units, {ids} ids", files.len()), 3)
            }
        };
        let times = seen.entry(kind).or_default();
        if *times == limit || input.len() + 4 + bytes.len() > length {
            continue;
        }
        assert!(!original.differs(&bytes, &model), "bundle {index}");
        *times += 1;
        count += 1;
        input.extend((bytes.len() as u32).to_be_bytes());
        input.extend(bytes);
        output += &match form {
            "order" => in_order(&model),
            _ => model.print(),
        };
    }
    println!("{count} bundles, {} bytes; {}", input.len(), against());
    std::fs::write("stdin", input)?;
    std::fs::write("stdout", output)
}

/// Discovery and order of a bundle of 64 units, so many times.
pub fn measure(name: &str, who: &str, times: u64) -> u64 {
    let Some(bytes) = shape(name, limits::FILES) else {
        return 1;
    };
    let bytes = std::hint::black_box(bytes);
    match who {
        "model" => (0..times).for_each(|_| {
            std::hint::black_box(link::discover(&bytes));
        }),
        "port" => (0..times).for_each(|_| {
            std::hint::black_box(crate::host::order(&bytes, &mut [0; REPORT]));
        }),
        #[cfg(original)]
        "original" => {
            let linked = Original::new().0.measure(&bytes, times as usize);
            println!("linked: {linked:?}");
        }
        _ => return 1,
    }
    0
}

/// `stack SHAPE PAGES`: one run of the port in a thread whose stack has so many pages of 4 KB. Where
/// they are too few the process ends by a signal.
pub fn stack(name: &str, pages: usize) -> u64 {
    let Some(bytes) = shape(name, limits::FILES) else {
        return 1;
    };
    let thread = std::thread::Builder::new().stack_size(4096 * pages);
    let thread = thread.spawn(move || crate::host::order(&bytes, &mut [0; REPORT]));
    thread.expect("a thread").join().expect("no panic");
    0
}

/// The smallest stacks in which discovery and order run.
pub fn stacks() -> u64 {
    let program = std::env::current_exe().expect("this program");
    for name in bundle_generate::SHAPES {
        let ends_well = |pages: &usize| {
            std::process::Command::new(&program)
                .args(["stack", name, &pages.to_string()])
                .stderr(std::process::Stdio::null())
                .status()
                .expect("this program runs")
                .success()
        };
        // 16 KB is the least that a thread has.
        let pages = (4..4096).find(ends_well).expect("16 MB are enough");
        println!("{name}: {} KB", 4 * pages);
    }
    0
}
