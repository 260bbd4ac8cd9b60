//! Paths and names against std and the original's own expressions.

use std::ffi::OsStr;
use std::os::unix::ffi::OsStrExt;
use std::path::Path;

use bundle_generate::rng::Rng;

use crate::steps;

/// lexer.rs, `KEYWORDS`.
const KEYWORDS: &[&str] = &[
    "pub", "use", "as", "fn", "let", "type", "mod", "const", "match", "enum", "crate", "simc",
    "true", "false",
];

/// lexer.rs, `is_keyword`.
fn is_keyword(s: &[u8]) -> bool {
    std::str::from_utf8(s).is_ok_and(|s| KEYWORDS.contains(&s))
}

/// source.rs, `starts_with`.
fn starts_with(f: &[u8], p: &[u8]) -> bool {
    let path = |bytes| Path::new(OsStr::from_bytes(bytes));
    path(f).starts_with(path(p))
}

/// Paths of up to sixteen components with few names, so that many begin alike.
fn path(rng: &mut Rng) -> Vec<u8> {
    let mut path = Vec::new();
    for _ in 0..rng.below(8) {
        path.extend_from_slice(rng.word(&[b"/src", b"/pay", b"/payroll", b"/lib", b"/r"]));
    }
    if path.is_empty() {
        path.push(b'/');
    }
    path
}

fn inputs(seed: u64, count: u64) -> Vec<(Vec<u8>, Vec<u8>)> {
    let pair = |index| {
        let rng = &mut Rng::new(seed, index);
        (path(rng), path(rng))
    };
    (0..count).map(pair).collect()
}

pub fn compare(seed: u64, count: u64) -> u64 {
    let mut differences = 0;
    for (f, p) in inputs(seed, count) {
        differences += u64::from(starts_with(&f, &p) != steps::starts_with(&f, &p));
        differences += u64::from(is_keyword(&f[1..]) != steps::is_keyword(&f[1..]));
    }
    println!("{count} inputs, {differences} differences");
    differences
}

/// All pairs of 64 paths `times` over, then every keyword.
pub fn measure(who: &str, times: u64) -> u64 {
    let paths = inputs(1, 64);
    type Prefix = fn(&[u8], &[u8]) -> bool;
    type Keyword = fn(&[u8]) -> bool;
    let (starts_with, is_keyword): (Prefix, Keyword) = match who {
        "port" => (steps::starts_with, steps::is_keyword),
        "original" => (starts_with, is_keyword),
        _ => return 1,
    };
    let (mut below, mut words) = (0, 0);
    for _ in 0..times {
        for (f, _) in &paths {
            for (_, p) in &paths {
                below += u64::from(starts_with(
                    std::hint::black_box(f),
                    std::hint::black_box(p),
                ));
            }
        }
    }
    for _ in 0..times {
        for word in KEYWORDS {
            words += u64::from(is_keyword(std::hint::black_box(word.as_bytes())));
        }
    }
    println!("{below} below, {words} words");
    0
}
