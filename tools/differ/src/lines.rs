//! `gontsamy_remappings` against the reader of remapping lists of tools/format, and its sections in bundles.

use std::collections::BTreeMap;

use bundle_format::remapping_lines::{answer, line_of, read, section};
use bundle_format::{limits, Bundle, Remapping};
use bundle_generate::{lines, Rng, FAMILIES};

use crate::host;

/// One of so many accepted lists that have remappings is put into a bundle.
const ONE_OF: u64 = 10;
/// Bytes on both sides of a buffer that is lent.
const AROUND: usize = 16;

/// Generated lists, then every short one.
pub fn compare(seed: u64, count: u64) -> u64 {
    let mut tally = Tally::new(seed);
    for index in 0..count {
        tally.compare(&lines::list(seed, index));
    }
    for list in lines::short() {
        tally.compare(&list);
    }
    tally.tell()
}

/// The bytes of a buffer of a length, different from place to place.
fn lent(length: usize) -> Vec<u8> {
    (0..length).map(|i| (i * 7 + 13) as u8).collect()
}

/// Writes the files `stdin` and `stdout` of crates/remapping_lines_vectors: the lists of the specification's examples, lists at
/// the limits, and `count` generated ones of each number at different places, each with buffers of the length that it
/// needs, of one byte less and of some more, and what tools/format says of them.
pub fn sample(count: usize) -> std::io::Result<()> {
    let good = |n: usize| b"a=/b\n".repeat(n);
    let mut lists: Vec<Vec<u8>> = EXAMPLES.iter().map(|list| list.to_vec()).collect();
    lists.extend([
        good(limits::REMAPPINGS),
        good(limits::REMAPPINGS + 1),
        [good(limits::REMAPPINGS), b"x".to_vec()].concat(),
        [good(limits::REMAPPINGS - 1), b"x\n".to_vec(), good(2)].concat(),
        [b"\n".repeat(40), good(1)].concat(),
    ]);
    for (name, slash) in [(255, ""), (255, "/"), (256, ""), (256, "/")] {
        lists.push([&b"n".repeat(name), slash.as_bytes(), b"=/b"].concat());
    }
    let mut found: BTreeMap<u8, Vec<usize>> = BTreeMap::new();
    for index in 0..100_000 {
        let list = lines::list(7, index);
        let (number, place) = match read(&list) {
            Ok(remappings) => (0, remappings.len()),
            Err(told) => told,
        };
        let places = found.entry(number).or_default();
        if list.len() <= 300 && places.len() < count && !places.contains(&place) {
            places.push(place);
            lists.push(list);
        }
    }
    let (mut input, mut output) = (Vec::new(), String::new());
    for list in lists {
        let rooms = match answer(&list, usize::MAX) {
            Ok(length) => vec![length, length - 1, length + 3],
            Err(_) => vec![8],
        };
        for room in rooms {
            let mut buffer = lent(room);
            for part in [&list, &buffer] {
                input.extend_from_slice(&(part.len() as u32).to_be_bytes());
                input.extend_from_slice(part);
            }
            output += &match answer(&list, room) {
                Ok(length) => {
                    let remappings = read(&list).unwrap_or_default();
                    buffer[..length].copy_from_slice(&section(&remappings));
                    format!("ok {length}\n")
                }
                Err((number, place)) => format!("no {number} {place}\n"),
            };
            buffer
                .iter()
                .for_each(|byte| output += &format!("{byte:02x}"));
            output += "\n";
        }
    }
    std::fs::write("stdin", input)?;
    std::fs::write("stdout", output)
}

/// Lists to count instructions on: `long` has 32 lines of 700 bytes with their line feed, `short` 32 lines of the form `lib_07=/lib/seven`.
fn measured(which: &str) -> Option<Vec<u8>> {
    let path = |bytes: usize| -> Vec<u8> {
        let component = b"/the_component_of_thirty_2_bytes".iter();
        component.cycle().take(bytes).copied().collect()
    };
    let line = |i: usize| match which {
        "long" => {
            let name = format!("{i:02}").into_bytes().repeat(93);
            Some([&path(255), &b":"[..], &name, b"/=", &path(255), b"\n"].concat())
        }
        "short" => Some(format!("lib_{i:02}=/lib/number_{i:02}\n").into_bytes()),
        _ => None,
    };
    (0..limits::REMAPPINGS)
        .map(line)
        .collect::<Option<Vec<_>>>()
        .map(|lines| lines.concat())
}

/// Reads a list so often; WHO is `port`, or `tools` for the reader of tools/format, which writes the section too.
pub fn measure(which: &str, who: &str, times: u64) -> u64 {
    let Some(list) = measured(which) else {
        return 1;
    };
    let mut out = vec![0; limits::SECTION];
    let mut told = 0;
    for _ in 0..times {
        let list = std::hint::black_box(&list);
        told += match who {
            "port" => host::remappings(list, &mut out).1,
            "tools" => read(list).map_or(0, |remappings| section(&remappings).len()),
            _ => return 1,
        };
    }
    println!("{} bytes, {told} told", list.len());
    0
}

/// The examples of docs/SPECIFICATION.md and their kin.
const EXAMPLES: &[&[u8]] = &[
    b"",
    b"\n\n",
    b"lib=/l",
    b"/r:lib=/l\n",
    b"lib/=/l/",
    b"lib=/l//",
    b"lib=//",
    b"lib=/",
    b"/=/b",
    b"//=/b",
    b"a=/b:c",
    b"a=/b=c",
    b"/x:b:c=/d",
    b"/a=b:c=/d",
    b"/r/:a=/b",
    b":a=/b",
    b"=",
    b"a=/b\n=",
    b"a=/b\n\nc=/d",
    b"\r\n",
    b"a=/b\r\n",
    b" ",
    b"crate=/l\ncrate=/l\n",
    b"@openzeppelin/=/lib/openzeppelin-contracts/\n",
];

/// Bundles with a section put in, how many of them pass 1 to 13, and how many link.
#[derive(Default)]
struct Spliced {
    bundles: u64,
    pass: u64,
    link: u64,
}

impl Spliced {
    fn note(&mut self, pass: bool, link: bool) {
        self.bundles += 1;
        self.pass += u64::from(pass);
        self.link += u64::from(link);
    }

    fn tell(&self, what: &str) {
        let Spliced {
            bundles,
            pass,
            link,
        } = self;
        println!("{bundles} bundles with {what}: {pass} pass, {link} link");
    }
}

/// Counts lists, calls and bundles, differences and the numbers seen.
struct Tally {
    seed: u64,
    rng: Rng,
    /// The next of the generated bundles.
    bundle: u64,
    /// Accepted lists that have remappings.
    filled: u64,
    spliced: Spliced,
    own: Spliced,
    differences: u64,
    /// By number the lists, and the calls.
    numbers: BTreeMap<u8, (u64, u64)>,
}

impl Tally {
    fn new(seed: u64) -> Self {
        Tally {
            seed,
            rng: Rng::new(seed, 0),
            bundle: 0,
            filled: 0,
            spliced: Spliced::default(),
            own: Spliced::default(),
            differences: 0,
            numbers: BTreeMap::new(),
        }
    }

    fn difference(&mut self, list: &[u8], what: &str) {
        self.differences += 1;
        println!("{what}: {}", list.escape_ascii());
    }

    fn compare(&mut self, list: &[u8]) {
        let remappings = match read(list) {
            Ok(remappings) => remappings,
            Err((number, _)) => {
                self.numbers.entry(number).or_default().0 += 1;
                // No byte, a few, and more than the lines would take.
                let spare = 8 * limits::REMAPPINGS;
                for room in [0, self.rng.below(64), list.len() + spare] {
                    self.call(list, room, &[]);
                }
                return;
            }
        };
        self.numbers.entry(0).or_default().0 += 1;
        let section = section(&remappings);
        for room in [section.len(), section.len() - 1, section.len() + 17, 0] {
            self.call(list, room, &section);
        }

        let printed: Option<Vec<Vec<u8>>> = remappings.iter().map(line_of).collect();
        match printed {
            Some(lines) => {
                let told = (0, section.len());
                self.expect(&lines.join(&b'\n'), section.len() + 1, told, &section);
            }
            None => self.difference(list, "what was read is no line"),
        }

        if !remappings.is_empty() {
            self.filled += 1;
            if self.filled.is_multiple_of(ONE_OF) {
                self.in_bundle(list, remappings);
            }
        }
    }

    /// The export with a buffer of so many bytes, against tools/format.
    fn call(&mut self, list: &[u8], room: usize, section: &[u8]) {
        let expected = match answer(list, room) {
            Ok(length) => (0, length),
            Err(refusal) => refusal,
        };
        self.expect(list, room, expected, section);
    }

    /// The number, what is told, and every byte of the buffer and around it.
    fn expect(&mut self, list: &[u8], room: usize, expected: (u8, usize), section: &[u8]) {
        self.numbers.entry(expected.0).or_default().1 += 1;
        let fill = |at: usize| (at ^ at >> 8) as u8 ^ 0xa5;
        let mut lent: Vec<u8> = (0..room + 2 * AROUND).map(fill).collect();
        let mut wanted = lent.clone();
        if expected.0 == 0 {
            wanted[AROUND..][..section.len()].copy_from_slice(section);
        }
        let found = host::remappings(list, &mut lent[AROUND..][..room]);
        if found != expected {
            let what = format!("{expected:?} expected with {room} bytes, {found:?} found");
            self.difference(list, &what);
        } else if lent != wanted {
            let what = format!("the {room} bytes lent are not as expected");
            self.difference(list, &what);
        }
    }

    /// A bundle with the list's section in place of its own, and one with the list of its own remappings.
    fn in_bundle(&mut self, list: &[u8], remappings: Vec<Remapping>) {
        let (bytes, mut bundle) = self.next_bundle();
        let own: Option<Vec<Vec<u8>>> = bundle.remappings.iter().map(line_of).collect();
        if let Some(lines) = own {
            let list = lines.join(&b'\n');
            let found = spliced(&bytes, &list);
            if let Some((pass, link)) = self.same(&list, &bytes, Some(bytes.clone()), found) {
                self.own.note(pass, link);
            }
        }
        bundle.remappings = remappings;
        let found = spliced(&bytes, list);
        if let Some((pass, link)) = self.same(list, &bytes, bundle.encode().ok(), found) {
            self.spliced.note(pass, link);
        }
    }

    /// The next generated bundle that is well formed, every other one of the family whose folders many lists name.
    fn next_bundle(&mut self) -> (Vec<u8>, Bundle) {
        let packages = FAMILIES.iter().find(|family| family.name == "packages");
        loop {
            let family = packages.filter(|_| self.bundle.is_multiple_of(2));
            let bytes = bundle_generate::bundle(self.seed, self.bundle, family);
            self.bundle += 1;
            if let Ok(bundle) = Bundle::decode_form(&bytes) {
                return (bytes, bundle);
            }
        }
    }

    /// The bytes of a bundle with the list's remappings, and what the library's check and link say of them: whether it passes, and
    /// whether it links. None where it would be too long.
    fn same(
        &mut self,
        list: &[u8],
        bundle: &[u8],
        expected: Option<Vec<u8>>,
        found: Option<Vec<u8>>,
    ) -> Option<(bool, bool)> {
        let mut differ = |what: &str| {
            let hex: String = bundle.iter().map(|byte| format!("{byte:02x}")).collect();
            self.difference(list, &format!("{what} in the bundle {hex}"));
        };
        if expected != found {
            differ("other bytes");
        }
        let (expected, found) = (expected?, found?);
        let checked = host::check(&expected);
        if checked != host::check(&found) {
            differ("another check");
        }
        let linked = host::link(&expected);
        if linked != host::link(&found) {
            differ("another link");
        }
        Some((checked.0 == 0, linked.is_program()))
    }

    fn tell(self) -> u64 {
        let lists: u64 = self.numbers.values().map(|(lists, _)| lists).sum();
        let accepted = self.numbers.get(&0).map_or(0, |(lists, _)| *lists);
        println!(
            "{lists} lists, {accepted} accepted, {} put into bundles, {} differences",
            self.spliced.bundles + self.own.bundles,
            self.differences
        );
        self.spliced.tell("the remappings of a list");
        self.own.tell("the list of their own remappings");
        for (number, (lists, calls)) in self.numbers {
            println!("{number}: {lists} lists, {calls} calls");
        }
        self.differences
    }
}

/// A well-formed bundle with the section that the export makes of a list in place of its own. None where the list is refused or the
/// bundle would be too long.
fn spliced(bundle: &[u8], list: &[u8]) -> Option<Vec<u8>> {
    let mut section = vec![0; limits::SECTION];
    let (number, length) = host::remappings(list, &mut section);
    let section = section.get(..length).filter(|_| number == 0)?;

    // Strings are led by their lengths, and lists by their counts.
    let strings =
        |at: usize, count: usize| (0..count).fold(at, |at, _| at + 1 + usize::from(bundle[at]));
    let folders = strings(limits::HEADER, 1);
    let start = strings(folders + 1, usize::from(bundle[folders]));
    let end = strings(start + 1, 3 * usize::from(bundle[start]));

    let fields = [&bundle[limits::HEADER..start], section, &bundle[end..]].concat();
    let length = u16::try_from(fields.len()).ok()?;
    Some([&[limits::VERSION][..], &length.to_be_bytes(), &fields].concat())
}
