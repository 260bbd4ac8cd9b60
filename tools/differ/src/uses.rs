//! `resolution::resolve` against the model of tools/generate, on every use of every file, and
//! against the original.

use bundle_format::{Body, Bundle, Item};
use bundle_generate::lookup::Lookup;
use gontsamy::exports::Found;
use gontsamy::layout::FOLDER;

use crate::host::{self, UNTOLD};

fn uses<'a>(items: &'a [Item], found: &mut Vec<&'a [Vec<u8>]>) {
    for item in items {
        match &item.body {
            Body::Use { segments, .. } => found.push(segments),
            Body::Module { items, .. } => uses(items, found),
            _ => {}
        }
    }
}

/// A use as a bundle has it: a count, then names.
fn encoded(segments: &[Vec<u8>]) -> Vec<u8> {
    let mut bytes = vec![segments.len() as u8];
    for segment in segments {
        bytes.push(segment.len() as u8);
        bytes.extend(segment);
    }
    bytes
}

/// A refusal's number and place, as `host::resolve` tells it.
fn refused(number: u8, place: usize) -> (u8, Found) {
    let (index, left) = (UNTOLD, UNTOLD);
    (number, Found { index, left, place })
}

/// The same of a file, or of a folder, with how many segments are left.
fn led(kind: u8, index: usize, left: usize) -> (u8, Found) {
    let place = UNTOLD;
    (kind, Found { index, left, place })
}

fn expected(lookup: &Lookup, importer: &[u8], segments: &[Vec<u8>]) -> (u8, Found) {
    let found = match lookup.resolve(importer, segments) {
        Err(number) => return refused(number, 0),
        Ok(found) => found,
    };
    let left = segments.len() - found.rest;
    match lookup.file(&found.path) {
        Some(index) => led(0, index, left),
        None => {
            let folders = &lookup.bundle.folders;
            let index = folders.iter().position(|folder| *folder == found.path);
            led(FOLDER, index.expect("a listed folder"), left)
        }
    }
}

pub fn generated(seed: u64, count: u64) -> u64 {
    let (mut bundles, mut own_uses, mut compared, mut differences) = (0u64, 0u64, 0u64, 0u64);
    let mut numbers = [0u64; 256];
    for index in 0..count {
        let bytes = bundle_generate::bundle(seed, index, None);
        let bundle = match Bundle::decode(&bytes) {
            Ok(bundle) if bundle.check().is_none() => bundle,
            _ => continue,
        };
        bundles += 1;
        let lookup = Lookup::new(&bundle);
        // Every use of every file; and, invented, the first uses of the bundle from its first files.
        let mut asked: Vec<(&[u8], &[Vec<u8>])> = Vec::new();
        let mut all = Vec::new();
        for file in &bundle.files {
            let mut own = Vec::new();
            uses(&file.items, &mut own);
            asked.extend(own.iter().map(|segments| (&file.path[..], *segments)));
            all.extend(own);
        }
        own_uses += asked.len() as u64;
        for file in bundle.files.iter().take(4) {
            asked.extend(
                all.iter()
                    .take(8)
                    .map(|segments| (&file.path[..], *segments)),
            );
        }
        for (importer, segments) in asked {
            let expected = expected(&lookup, importer, segments);
            let found = host::resolve(&bytes, importer, &encoded(segments));
            compared += 1;
            numbers[usize::from(expected.0)] += 1;
            if expected != found {
                differences += 1;
                if differences <= 10 {
                    println!("bundle {index}: {expected:?} expected, {found:?} found");
                }
            }
        }
    }
    println!("{own_uses} of the uses are every use of every file");
    println!("{bundles} bundles, {compared} uses, {differences} differences");
    for (number, count) in numbers.iter().enumerate().filter(|(_, count)| **count > 0) {
        println!("{number}: {count}");
    }
    differences
}

/// The port against the original: every use of every file of generated bundles.
#[cfg(original)]
pub fn original(seed: u64, count: u64) -> u64 {
    let mut tally = Tally::new();
    for index in 0..count {
        let bytes = bundle_generate::bundle(seed, index, None);
        let bundle = match Bundle::decode(&bytes) {
            Ok(bundle) if bundle.check().is_none() => bundle,
            _ => continue,
        };
        tally.lend(&bytes);
        for file in &bundle.files {
            let mut own = Vec::new();
            uses(&file.items, &mut own);
            for segments in own {
                tally.compare(&bytes, &bundle, &file.path, segments);
            }
        }
    }
    tally.tell()
}

/// The same on small bundles made for clashes of names: from every file every use of up to four
/// segments of a few words.
#[cfg(original)]
pub fn clashes(seed: u64, count: u64) -> u64 {
    let mut asked: Vec<Vec<Vec<u8>>> = vec![Vec::new()];
    let mut at = 0;
    while asked[at].len() < 4 {
        for word in bundle_generate::WORDS {
            let mut longer = asked[at].clone();
            longer.push(word.as_bytes().to_vec());
            // `crate` is a word like others after the first.
            if longer.len() == 1 || word != "crate" || longer.len() == 2 {
                asked.push(longer);
            }
        }
        at += 1;
    }
    let mut tally = Tally::new();
    for index in 0..count {
        let bytes = bundle_generate::clash(seed, index);
        let bundle = Bundle::decode(&bytes).expect("a bundle that passes");
        tally.lend(&bytes);
        for file in &bundle.files {
            for segments in &asked {
                tally.compare(&bytes, &bundle, &file.path, segments);
            }
        }
    }
    tally.tell()
}

#[cfg(original)]
struct Tally {
    resolver: oracle::resolve::Resolver,
    bundles: u64,
    uses: u64,
    differences: u64,
    numbers: [u64; 256],
}

#[cfg(original)]
impl Tally {
    fn new() -> Self {
        let judge = oracle::judge::Judge::new().expect("a private root");
        Tally {
            resolver: oracle::resolve::Resolver::new(judge),
            bundles: 0,
            uses: 0,
            differences: 0,
            numbers: [0; 256],
        }
    }

    fn lend(&mut self, bytes: &[u8]) {
        self.resolver.lend(bytes).expect("a bundle that passes");
        self.bundles += 1;
    }

    fn compare(&mut self, bytes: &[u8], bundle: &Bundle, importer: &[u8], segments: &[Vec<u8>]) {
        let original = self.resolver.resolve(importer, segments);
        let expected = match original.expect("a bundle is lent") {
            Err(refusal) => refused(refusal.number, refusal.place),
            Ok((path, left)) => {
                let rest = segments.len() - left.len();
                let same = left.iter().map(String::as_bytes);
                assert!(same.eq(segments[rest..].iter().map(Vec::as_slice)));
                let file = bundle.files.iter().position(|file| file.path == path);
                let folder = bundle.folders.iter().position(|folder| *folder == path);
                match file {
                    Some(file) => led(0, file, left.len()),
                    None => led(FOLDER, folder.expect("a listed path"), left.len()),
                }
            }
        };
        let found = host::resolve(bytes, importer, &encoded(segments));
        self.uses += 1;
        self.numbers[usize::from(expected.0)] += 1;
        if expected != found {
            self.differences += 1;
            if self.differences <= 10 {
                let hex: String = bytes.iter().map(|byte| format!("{byte:02x}")).collect();
                let words: Vec<_> = segments
                    .iter()
                    .map(|word| String::from_utf8_lossy(word))
                    .collect();
                println!(
                    "{} from {}: {expected:?} expected, {found:?} found: {hex}",
                    words.join("::"),
                    String::from_utf8_lossy(importer)
                );
            }
        }
    }

    fn tell(self) -> u64 {
        println!(
            "{} bundles, {} uses, {} differences",
            self.bundles, self.uses, self.differences
        );
        let numbers = self.numbers.iter().enumerate();
        for (number, count) in numbers.filter(|(_, count)| **count > 0) {
            println!("{number}: {count}");
        }
        self.differences
    }
}
