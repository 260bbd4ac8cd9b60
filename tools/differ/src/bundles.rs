//! `reader::check` against the reader of tools/format.

use std::collections::BTreeMap;

use bundle_format::{limits, Body, Bundle, File, Item, Refusal, Remapping};
use bundle_generate::rng::Rng;

use crate::host;

/// What tools/format says: 0, or a number and its place.
fn expected(bundle: &[u8]) -> (u8, usize) {
    let refusal = match Bundle::decode(bundle) {
        Err(refusal) => Some(refusal),
        Ok(bundle) => bundle.check(),
    };
    match refusal {
        None => (0, usize::MAX),
        Some(Refusal { number, place }) => (number, place),
    }
}

/// Counts inputs, differences and the numbers seen.
struct Tally {
    inputs: u64,
    differences: u64,
    numbers: [u64; 14],
}

impl Tally {
    fn new() -> Self {
        Tally {
            inputs: 0,
            differences: 0,
            numbers: [0; 14],
        }
    }

    fn compare(&mut self, bundle: &[u8]) {
        let (expected, found) = (expected(bundle), host::check(bundle));
        self.inputs += 1;
        self.numbers[usize::from(expected.0)] += 1;
        if expected != found {
            self.differences += 1;
            if self.differences <= 10 {
                let hex: String = bundle.iter().map(|byte| format!("{byte:02x}")).collect();
                println!("{expected:?} expected, {found:?} found: {hex}");
            }
        }
    }

    fn tell(self) -> u64 {
        println!("{} inputs, {} differences", self.inputs, self.differences);
        for (number, count) in self.numbers.iter().enumerate() {
            println!("{number}: {count}");
        }
        self.differences
    }
}

pub fn generated(seed: u64, count: u64) -> u64 {
    let mut tally = Tally::new();
    for index in 0..count {
        tally.compare(&bundle_generate::bundle(seed, index, None));
    }
    tally.tell()
}

/// Of the generated bundles those that are accepted: every truncation, and of the small ones every
/// change of one byte.
pub fn damaged(seed: u64, count: u64) -> u64 {
    let mut tally = Tally::new();
    let accepted = (0..).map(|index| bundle_generate::bundle(seed, index, None));
    for mut bundle in accepted
        .filter(|bundle| expected(bundle).0 == 0)
        .take(count as usize)
    {
        for end in 0..bundle.len() {
            tally.compare(&bundle[..end]);
        }
        if bundle.len() > 128 {
            continue;
        }
        for at in 0..bundle.len() {
            let kept = bundle[at];
            for byte in 0..=255 {
                bundle[at] = byte;
                tally.compare(&bundle);
            }
            bundle[at] = kept;
        }
    }
    tally.tell()
}

pub fn short() -> u64 {
    let mut tally = Tally::new();
    for length in 0..=4 {
        for value in 0..1u64 << (8 * length) {
            tally.compare(&value.to_be_bytes()[8 - length..]);
        }
    }
    tally.tell()
}

fn damage(bytes: &mut [u8], rng: &mut Rng) {
    for _ in 0..1 + rng.below(3) {
        let at = rng.below(bytes.len());
        bytes[at] = match rng.below(4) {
            0 => rng.below(256) as u8,
            1 => bytes[at].wrapping_add(1),
            2 => bytes[at].wrapping_sub(1),
            _ => bytes[rng.below(bytes.len())],
        };
    }
}

/// A bundle with one file that has an item's bytes so many times.
fn filled(item: &[u8], count: usize) -> Vec<u8> {
    let items = item.repeat(count);
    let length = |bytes: &[u8]| (bytes.len() as u16).to_be_bytes();
    let fields = [
        &[1, b'/', 0, 0, 1, 2, b'/', b'm'][..],
        &length(&items),
        &items,
    ]
    .concat();
    [&[1][..], &length(&fields), &fields].concat()
}

/// Writes the files `stdin` and `stdout` of crates/bundle_vectors: `count` small bundles, good or
/// damaged, of each number, at different places, and bundles at and over the limits of items and
/// uses, with what tools/format says of them.
pub fn sample(count: usize) -> std::io::Result<()> {
    let mut found: BTreeMap<u8, Vec<(usize, Vec<u8>)>> = BTreeMap::new();
    let mut rng = Rng::new(7, 7);
    for index in 0..400_000 {
        let mut bytes = bundle_generate::bundle(7, index, None);
        if bytes.len() > 400 {
            continue;
        }
        if rng.below(2) == 0 && !bytes.is_empty() {
            damage(&mut bytes, &mut rng);
        }
        let (number, place) = expected(&bytes);
        let list = found.entry(number).or_default();
        if list.len() < count && list.iter().all(|(other, _)| *other != place || number == 0) {
            list.push((place, bytes));
        }
    }
    let (ignored, empty_use) = ([0, 2, 6, 0], [0, 4, 3, 0, 0, 0]);
    for bytes in [
        filled(&ignored, limits::ITEMS),
        filled(&ignored, limits::ITEMS + 1),
        filled(&empty_use, limits::USES),
        filled(&empty_use, limits::USES + 1),
    ] {
        let (number, place) = expected(&bytes);
        found.entry(number).or_default().push((place, bytes));
    }
    let (mut input, mut output) = (Vec::new(), String::new());
    for (number, list) in found {
        for (place, bytes) in list {
            input.extend_from_slice(&(bytes.len() as u32).to_be_bytes());
            input.extend_from_slice(&bytes);
            output += &match number {
                0 => "ok\n".to_string(),
                _ => format!("no {number} {place}\n"),
            };
        }
    }
    std::fs::write("stdin", input)?;
    std::fs::write("stdout", output)
}

/// The largest bundle: 65,538 bytes, 64 folders, 32 remappings, 64 files, 1,024 items, 256 uses.
fn largest() -> Vec<u8> {
    let name = |mark: usize, length: usize| {
        let mut name = format!("n{mark}_").into_bytes();
        name.resize(length, b'x');
        name
    };
    let folders: Vec<Vec<u8>> = (0..64)
        .map(|at| [b"/".as_slice(), &name(at, 20)].concat())
        .collect();
    let item = |at: usize, length: usize| Item {
        mark: 0,
        public: true,
        body: Body::Function(name(at, length)),
    };
    let mut bundle = Bundle {
        root: b"/".to_vec(),
        folders,
        ..Bundle::default()
    };
    for at in 0..32 {
        bundle.remappings.push(Remapping {
            context: bundle.folders[at].clone(),
            name: name(at, 20),
            target: bundle.folders[63 - at].clone(),
            ..Remapping::default()
        });
    }
    for file in 0..64 {
        let path = [&bundle.folders[file][..], b"/", &name(file, 20), b".simf"].concat();
        let mut items: Vec<Item> = (0..12).map(|at| item(16 * file + at, 20)).collect();
        // The last four items of each file are uses; the last one fills up the rest.
        for _ in 0..4 {
            let segments = (0..4).map(|at| name(at, 10)).collect();
            let body = Body::Use {
                segments,
                elements: Vec::new(),
            };
            items.push(Item {
                mark: 0,
                public: false,
                body,
            });
        }
        bundle.files.push(File {
            path,
            path_at: 0,
            items,
        });
    }
    let mut at = 0;
    loop {
        let bytes = bundle.encode().expect("the bundle fits");
        let missing = 65_538 - bytes.len();
        if missing == 0 {
            return bytes;
        }
        let Body::Use { elements, .. } = &mut bundle.files[at % 64].items[15].body else {
            unreachable!("the last item is a use");
        };
        // An element takes its name's length and two bytes.
        let length = if missing >= 68 {
            32
        } else if missing > 34 {
            missing / 2 - 2
        } else {
            missing - 2
        };
        elements.push(bundle_format::Element {
            name: name(at, length),
            alias: None,
        });
        at += 1;
    }
}

/// The same counts, with paths that are alike but for some bytes at their end or in their middle.
fn alike(in_middle: bool) -> Vec<u8> {
    fn string(out: &mut Vec<u8>, text: &[u8]) {
        out.push(text.len() as u8);
        out.extend_from_slice(text);
    }
    fn sized(out: &mut Vec<u8>, body: &[u8]) {
        out.extend_from_slice(&(body.len() as u16).to_be_bytes());
        out.extend_from_slice(body);
    }
    let mut fields = Vec::new();
    string(&mut fields, b"/");
    fields.push(64);
    let folder = |i: usize| match in_middle {
        true => format!("/folder_with_a_{i:07}_long_name"),
        false => format!("/folder_with_a_long_name_{i:07}"),
    };
    let file = |i: usize| match in_middle {
        true => format!("{}/m{:010}{i:05}{:010}.simf", folder(63), 0, 0),
        false => format!("{}/m{i:025}.simf", folder(63)),
    };
    for i in 0..64 {
        string(&mut fields, folder(i).as_bytes());
    }
    fields.push(32);
    for i in 0..32 {
        string(&mut fields, folder(63).as_bytes());
        let filler = if i == 31 { "_to_fill_the_bytes" } else { "" };
        string(&mut fields, format!("library_{i}{filler}").as_bytes());
        string(&mut fields, folder(62).as_bytes());
    }
    fields.push(64);
    for i in 0..64 {
        string(&mut fields, file(i).as_bytes());
        let mut items = Vec::new();
        for j in 0..4 {
            let mut body = vec![3, 0, 3];
            for segment in ["crate", "folder_with_a_long_name_0000000", "a_module_name"] {
                string(&mut body, segment.as_bytes());
            }
            let elements = 3 + usize::from(i * 4 + j < 146);
            body.push(elements as u8);
            for k in 0..elements {
                string(
                    &mut body,
                    format!("item_{k}_of_a_name_of_some_length").as_bytes(),
                );
                string(&mut body, b"");
            }
            sized(&mut items, &body);
        }
        for j in 0..12 {
            let mut body = vec![2, 1];
            string(&mut body, format!("function_{j}").as_bytes());
            sized(&mut items, &body);
        }
        sized(&mut fields, &items);
    }
    let mut bytes = vec![1];
    sized(&mut bytes, &fields);
    bytes
}

pub fn measure(which: &str, who: &str, times: u64) -> u64 {
    let bundle = match which {
        "largest" => largest(),
        "alike" => alike(false),
        "middle" => alike(true),
        _ => return 1,
    };
    assert_eq!(expected(&bundle).0, 0);
    let check = match who {
        "port" => host::check,
        "tools" => expected,
        _ => return 1,
    };
    let mut accepted = 0;
    for _ in 0..times {
        accepted += u64::from(check(std::hint::black_box(&bundle)).0 == 0);
    }
    println!("{} bytes, accepted {accepted} times", bundle.len());
    0
}
