//! Remapping lists: good ones, ones at the limits, faulty and damaged ones, and every short one.

use bundle_format::limits;

use crate::families::OFFICE;
use crate::project::LIBRARIES;
use crate::rng::Rng;

type Make = fn(&mut Rng) -> Vec<u8>;

/// The kinds of lists, each with its weight.
const KINDS: &[(usize, Make)] = &[
    (300, good),
    (100, office),
    (120, counts),
    (160, lengths),
    (120, faults),
    (160, damaged),
    (120, noise),
    (5, longest),
];

const FOLDERS: &[&[u8]] = &[
    b"/",
    b"/r",
    b"/r/pay",
    b"/src",
    b"/a/b",
    b"/lib",
    b"/lib/limits",
    b"/lib/forge-std/src",
    b"/lib/solmate/lib/ds-test/src",
    b"/node_modules/@openzeppelin",
    b"/...",
    b"/!/~",
];

/// Folders that only a target can name.
const TARGETS: &[&[u8]] = &[b"/b:c", b"/b=c", b"/=", b"/:", b"/src/a:b=c"];

const PREFIXES: &[&[u8]] = &[
    b"@openzeppelin/",
    b"@openzeppelin/contracts/",
    b"openzeppelin-contracts/",
    b"forge-std/",
    b"ds-test/",
    b"solmate/src/",
    b"crate",
    b"fn",
    b"",
    b"/",
    b"//",
    b"a//",
    b" ",
    b"# a",
    b"a\r",
    b"\0",
    b"\x7f\x80\xff",
    b"a_name_longer_than_any_identifier",
];

/// Prefixes that want a context before them.
const COLONS: &[&[u8]] = &[b":", b"b:c", b"/r:lib", b"lib:/"];

/// What is no path, wherever it stands.
const NO_PATHS: &[&[u8]] = &[
    b"", b"r", b"/r//", b"//r", b"///", b"/.", b"/r/..", b"/r/./a", b"/a b", b"/a\x80", b"/\x7f",
    b"/\0", b"/r\r", b" /r", b"/r\t",
];

/// Bytes that lines are made of, and some that no path has.
const BYTES: &[u8] = b"/:=ab.\n\r \0\x7f\x80\xff";

const SHORT_BYTES: &[u8] = b"/:=a\n";
const SHORT: u32 = 6;

/// The list `index` of the stream of `seed`.
pub fn list(seed: u64, index: u64) -> Vec<u8> {
    let rng = &mut Rng::new(seed, index);
    any(rng, KINDS)
}

/// Every list of up to six bytes that are `/`, `:`, `=`, `a` or a line feed.
pub fn short() -> impl Iterator<Item = Vec<u8>> {
    let base = SHORT_BYTES.len();
    (0..=SHORT).flat_map(move |length| {
        (0..base.pow(length)).map(move |number| {
            let byte = |at| SHORT_BYTES[number / base.pow(at) % base];
            (0..length).map(byte).collect()
        })
    })
}

fn any(rng: &mut Rng, kinds: &[(usize, Make)]) -> Vec<u8> {
    let kind = rng.weighted(kinds.iter().map(|(weight, _)| *weight));
    (kinds[kind].1)(rng)
}

/// The parts of a line as they are written.
struct Line {
    context: Option<Vec<u8>>,
    prefix: Vec<u8>,
    target: Vec<u8>,
}

impl Line {
    fn print(&self) -> Vec<u8> {
        let mut line = Vec::new();
        if let Some(context) = &self.context {
            line.extend(context);
            line.push(b':');
        }
        line.extend(&self.prefix);
        line.push(b'=');
        line.extend(&self.target);
        line
    }
}

/// The lines, in some lists with empty ones between them, with or without a last line feed.
fn joined(rng: &mut Rng, lines: &[Vec<u8>]) -> Vec<u8> {
    let empty = if rng.chance(25) { 30 } else { 0 };
    let most = if rng.chance(5) { 200 } else { 3 };
    let mut list = Vec::new();
    for line in lines {
        if rng.chance(empty) {
            list.resize(list.len() + rng.between(1, most), b'\n');
        }
        list.extend(line);
        list.push(b'\n');
    }
    if rng.chance(empty) {
        list.resize(list.len() + rng.between(1, most), b'\n');
    } else if rng.chance(40) {
        list.pop();
    }
    list
}

/// So many bytes that a component can have, no `:` or `=` among them.
fn component(rng: &mut Rng, length: usize) -> Vec<u8> {
    let mut component: Vec<u8> = (0..length)
        .map(|_| match rng.between(0x21, 0x7e) as u8 {
            b'/' | b':' | b'=' => b'-',
            byte => byte,
        })
        .collect();
    if component.iter().all(|&byte| byte == b'.') {
        component.fill(b'c');
    }
    component
}

/// A path of components of these lengths.
fn path_of(rng: &mut Rng, lengths: &[usize]) -> Vec<u8> {
    let mut path = Vec::new();
    for &length in lengths {
        path.push(b'/');
        path.extend(component(rng, length));
    }
    path
}

/// A path of so many bytes, at least 2, with long components.
fn sized_path(rng: &mut Rng, mut bytes: usize) -> Vec<u8> {
    let mut lengths = Vec::new();
    while bytes > 0 {
        let mut taken = bytes.min(1 + limits::NAME);
        // A `/` alone is no component.
        taken -= usize::from(bytes - taken == 1);
        lengths.push(taken - 1);
        bytes -= taken;
    }
    path_of(rng, &lengths)
}

/// A path without `:` and `=`.
fn path(rng: &mut Rng) -> Vec<u8> {
    if rng.chance(85) {
        return rng.word(FOLDERS).to_vec();
    }
    let count = rng.between(1, 5);
    let lengths: Vec<usize> = (0..count).map(|_| rng.between(1, 8)).collect();
    path_of(rng, &lengths)
}

fn letters(count: usize) -> Vec<u8> {
    (b'a'..=b'z').cycle().take(count).collect()
}

fn good_line(rng: &mut Rng) -> Line {
    let context = rng.chance(50).then(|| path(rng));
    let mut prefix = match rng.below(10) {
        0..5 => rng.word(LIBRARIES),
        5 if context.is_some() => rng.word(COLONS),
        _ => rng.word(PREFIXES),
    }
    .to_vec();
    if rng.chance(20) {
        prefix.push(b'/');
    }
    let mut target = if rng.chance(90) {
        path(rng)
    } else {
        rng.word(TARGETS).to_vec()
    };
    if rng.chance(25) {
        target.push(b'/');
    }
    Line {
        context,
        prefix,
        target,
    }
}

fn good_lines(rng: &mut Rng, count: usize) -> Vec<Vec<u8>> {
    (0..count).map(|_| good_line(rng).print()).collect()
}

/// Lines that are all read.
fn good(rng: &mut Rng) -> Vec<u8> {
    let most = if rng.chance(85) {
        5
    } else {
        limits::REMAPPINGS
    };
    let count = rng.between(0, most);
    let lines = good_lines(rng, count);
    joined(rng, &lines)
}

/// `/`, or a folder of the family `packages`.
fn office_folder(rng: &mut Rng) -> Vec<u8> {
    match rng.below(OFFICE.len() + 1) {
        0 => b"/".to_vec(),
        folder => OFFICE[folder - 1].to_vec(),
    }
}

/// A few lines with folders and names of the family `packages`.
fn office(rng: &mut Rng) -> Vec<u8> {
    let mut lines = Vec::new();
    for _ in 0..rng.between(1, 5) {
        let mut line = Line {
            context: rng.chance(80).then(|| office_folder(rng)),
            prefix: rng.word(LIBRARIES).to_vec(),
            target: office_folder(rng),
        };
        if rng.chance(30) {
            line.prefix.push(b'/');
            line.target.push(b'/');
        }
        lines.push(line.print());
    }
    joined(rng, &lines)
}

/// A line somewhere between a few good ones.
fn among(rng: &mut Rng, line: Vec<u8>) -> Vec<u8> {
    let (before, after) = (rng.below(4), rng.below(3));
    let mut lines = good_lines(rng, before);
    lines.push(line);
    lines.extend(good_lines(rng, after));
    joined(rng, &lines)
}

/// 31 to 34 lines with content, sometimes with a faulty one among the last.
fn counts(rng: &mut Rng) -> Vec<u8> {
    let count = rng.between(limits::REMAPPINGS - 1, limits::REMAPPINGS + 2);
    let mut lines = good_lines(rng, count);
    if rng.chance(50) {
        let at = rng.between(count - 4, count - 1);
        lines[at] = faulty_line(rng);
    }
    joined(rng, &lines)
}

/// Up to two `/`.
fn slashes(rng: &mut Rng, bytes: &mut Vec<u8>) {
    bytes.resize(bytes.len() + rng.below(3), b'/');
}

/// A path about a limit: of 254 to 257 bytes, or of 15 to 17 components, or with one of 31 to 33 bytes.
fn edge_path(rng: &mut Rng) -> Vec<u8> {
    match rng.below(3) {
        0 => {
            let bytes = rng.between(limits::PATH - 1, limits::PATH + 2);
            sized_path(rng, bytes)
        }
        1 => {
            let count = rng.between(limits::COMPONENTS - 1, limits::COMPONENTS + 1);
            // 17 components of 14 bytes are 255 bytes long.
            let lengths: Vec<usize> = (0..count).map(|_| rng.between(1, 14)).collect();
            path_of(rng, &lengths)
        }
        _ => {
            let count = rng.between(1, 4);
            let mut lengths: Vec<usize> = (0..count).map(|_| rng.between(1, 9)).collect();
            lengths[rng.below(count)] = rng.between(limits::NAME - 1, limits::NAME + 1);
            path_of(rng, &lengths)
        }
    }
}

/// One part of a line about the limit of its length.
fn lengths(rng: &mut Rng) -> Vec<u8> {
    let mut line = good_line(rng);
    match rng.below(3) {
        0 => {
            line.prefix = letters(rng.between(limits::STRING - 1, limits::STRING + 2));
            slashes(rng, &mut line.prefix);
        }
        1 => line.context = Some(edge_path(rng)),
        _ => {
            line.target = edge_path(rng);
            slashes(rng, &mut line.target);
        }
    }
    among(rng, line.print())
}

/// A line with faults, each part with one or not, or a line without `=`.
fn faulty_line(rng: &mut Rng) -> Vec<u8> {
    if rng.chance(20) {
        let context = rng.word(&[b"", b"/r:", b":", b"/r/:"]);
        return [context, rng.word(&[b"x", b"lib/", b"\r", b" ", b"/l"])].concat();
    }
    let mut line = good_line(rng);
    if rng.chance(40) {
        line.context = Some(rng.word(NO_PATHS).to_vec());
        if rng.chance(30) {
            // A path, but for the `/` that stays.
            line.context = Some([rng.word(&FOLDERS[1..]), b"/"].concat());
        }
    }
    if rng.chance(40) {
        line.target = rng.word(NO_PATHS).to_vec();
    }
    if rng.chance(40) {
        line.prefix = letters(rng.between(limits::STRING + 1, limits::STRING + 3));
    }
    line.print()
}

fn faults(rng: &mut Rng) -> Vec<u8> {
    let line = faulty_line(rng);
    let mut list = among(rng, line);
    if rng.chance(30) {
        list.push(b'\n');
        list.extend(faulty_line(rng));
    }
    list
}

/// Lists of the other kinds with a few changes.
fn damaged(rng: &mut Rng) -> Vec<u8> {
    let mut list = any(rng, &[(80, good), (5, counts), (15, lengths)]);
    for _ in 0..rng.between(1, 2) {
        damage(rng, &mut list);
    }
    list
}

fn damage(rng: &mut Rng, list: &mut Vec<u8>) {
    if list.is_empty() {
        list.push(*rng.pick(BYTES));
        return;
    }
    let at = rng.below(list.len());
    match rng.below(8) {
        0 => list[at] = *rng.pick(BYTES),
        1 => list[at] = rng.next_u64() as u8,
        2 => {
            list.remove(at);
        }
        3 => list.insert(at, *rng.pick(BYTES)),
        4 => {
            let lines: Vec<&[u8]> = list.split(|&byte| byte == b'\n').collect();
            *list = lines.join(&b"\r\n"[..]);
        }
        5 => list.truncate(at),
        // A mark doubled or removed.
        kind => {
            let mark = *rng.pick(b"==::/\n");
            let places = (0..list.len()).filter(|&at| list[at] == mark);
            let places: Vec<usize> = places.collect();
            if places.is_empty() {
                return;
            }
            let at = *rng.pick(&places);
            if kind == 6 {
                list.insert(at, mark);
            } else {
                list.remove(at);
            }
        }
    }
}

/// Bytes or pieces of lines in any order.
fn noise(rng: &mut Rng) -> Vec<u8> {
    const PIECES: &[&[u8]] = &[
        b"/a", b"/b", b"/", b":", b"=", b"=", b"\n", b"a", b"a=/b", b"/r:",
    ];
    let count = rng.below(30);
    match rng.below(3) {
        0 => (0..count).map(|_| *rng.pick(BYTES)).collect(),
        1 => (0..count).map(|_| *rng.pick(SHORT_BYTES)).collect(),
        _ => (0..count / 2)
            .flat_map(|_| rng.word(PIECES))
            .copied()
            .collect(),
    }
}

/// Lines whose parts are as long as they can be, or a little shorter.
fn longest(rng: &mut Rng) -> Vec<u8> {
    let count = rng.between(limits::REMAPPINGS - 1, limits::REMAPPINGS + 1);
    let shorter = *rng.pick(&[0, 5]);
    let mut lines = Vec::new();
    for _ in 0..count {
        let most = [limits::PATH, limits::STRING, limits::PATH];
        let lengths = most.map(|most| rng.between(most - shorter, most));
        let mut line = Line {
            context: Some(sized_path(rng, lengths[0])),
            prefix: letters(lengths[1]),
            target: sized_path(rng, lengths[2]),
        };
        if rng.chance(50) {
            line.prefix.push(b'/');
            line.target.push(b'/');
        }
        lines.push(line.print());
    }
    joined(rng, &lines)
}
