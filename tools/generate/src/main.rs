//! `generate SEED COUNT`: a stream of bundles, each led by its length in 4 bytes, big-endian.

use std::io::{BufWriter, Read, Write};
use std::process::ExitCode;

use bundle_format::limits;
use bundle_generate::{bundle, case, far_bundle, link, shape, stats, Family, Reach, FAMILIES, FAR};

const USAGE: &str = "\
usage: generate SEED COUNT [--family NAME]   a stream of bundles on standard output
       generate --far SEED COUNT             the same of families that reach to the limits
       generate --list-families              their names
       generate --shape NAME UNITS           one bundle whose imports are a chain, ring, star,
                                             diamonds, next-four or folders
       generate --case NAME                  one bundle of those that `bench` measures
       generate --answers [--image]          a stream of bundles in, the model's answers out
       generate --discover                   the same, of discovery and order alone
       generate --stats                      answers in, a table of their numbers out
       generate --reach                      a stream of bundles in, a table of their sizes out";

fn main() -> ExitCode {
    let arguments: Vec<String> = std::env::args_os()
        .skip(1)
        .map(|argument| argument.to_string_lossy().into_owned())
        .collect();
    let arguments: Vec<&str> = arguments.iter().map(String::as_str).collect();
    let result = match arguments[..] {
        ["--list-families"] => list(),
        ["--reach"] => reach(),
        ["--stats"] => stats(std::io::stdin().lock()).and_then(|table| print(&table)),
        ["--shape", name, units] => one_shape(name, units),
        ["--case", name] => one_case(name),
        ["--answers"] => answers(|bytes| answer(bytes, false)),
        ["--answers", "--image"] => answers(|bytes| answer(bytes, true)),
        ["--discover"] => answers(|bytes| link::discover(bytes).print()),
        [seed, count] => stream(seed, count, |seed, index| bundle(seed, index, None)),
        ["--far", seed, count] => stream(seed, count, far_bundle),
        [seed, count, "--family", name] | ["--family", name, seed, count] => {
            match families().find(|family| family.name == name) {
                Some(family) => {
                    stream(seed, count, |seed, index| bundle(seed, index, Some(family)))
                }
                None => usage("family"),
            }
        }
        _ => usage("arguments"),
    };
    match result {
        Ok(()) => ExitCode::SUCCESS,
        // The reader wanted no more.
        Err(error) if error.kind() == std::io::ErrorKind::BrokenPipe => ExitCode::SUCCESS,
        Err(error) => {
            eprintln!("generate: {error}");
            ExitCode::FAILURE
        }
    }
}

fn usage(what: &str) -> std::io::Result<()> {
    Err(std::io::Error::other(format!("unknown {what}\n{USAGE}")))
}

fn print(text: &str) -> std::io::Result<()> {
    let mut out = std::io::stdout().lock();
    out.write_all(text.as_bytes())?;
    out.flush()
}

fn families() -> impl Iterator<Item = &'static Family> {
    FAMILIES.iter().chain(FAR)
}

fn list() -> std::io::Result<()> {
    let lines: String = families()
        .map(|family| format!("{:<16} {}\n", family.name, family.about))
        .collect();
    print(&lines)
}

fn stream(seed: &str, count: &str, make: impl Fn(u64, u64) -> Vec<u8>) -> std::io::Result<()> {
    let (Ok(seed), Ok(count)) = (seed.parse::<u64>(), count.parse::<u64>()) else {
        return usage("seed or count");
    };
    let mut out = BufWriter::with_capacity(1 << 18, std::io::stdout().lock());
    for index in 0..count {
        let bytes = make(seed, index);
        let length = u32::try_from(bytes.len()).expect("a bundle of a few thousand bytes");
        out.write_all(&length.to_be_bytes())?;
        out.write_all(&bytes)?;
    }
    out.flush()
}

fn one_shape(name: &str, units: &str) -> std::io::Result<()> {
    let units = units
        .parse()
        .ok()
        .filter(|units| (1..=limits::FILES).contains(units));
    let Some(bytes) = units.and_then(|units| shape(name, units)) else {
        return usage("shape or number of units");
    };
    let mut out = std::io::stdout().lock();
    out.write_all(&bytes)?;
    out.flush()
}

fn one_case(name: &str) -> std::io::Result<()> {
    let Some(bytes) = case(name) else {
        return usage("case");
    };
    let mut out = std::io::stdout().lock();
    out.write_all(&bytes)?;
    out.flush()
}

fn answer(bytes: &[u8], with_image: bool) -> String {
    let run = link::run(bytes, 1_000_000);
    let mut text = run.text;
    if let (Some(image), true) = (run.image, with_image) {
        let hex: String = image.iter().map(|byte| format!("{byte:02x}")).collect();
        text += &format!("image {hex}\n");
    }
    text
}

/// What the model says of each bundle of a stream, each answer followed by a line `--`.
fn answers(answer: impl Fn(&[u8]) -> String) -> std::io::Result<()> {
    let mut out = BufWriter::with_capacity(1 << 18, std::io::stdout().lock());
    each_bundle(|bytes| {
        out.write_all(answer(bytes).as_bytes())?;
        out.write_all(b"--\n")
    })?;
    out.flush()
}

fn reach() -> std::io::Result<()> {
    let mut reach = Reach::default();
    each_bundle(|bytes| {
        reach.note(bytes);
        Ok(())
    })?;
    print(&reach.table())
}

/// Each bundle of the stream on standard input.
fn each_bundle(mut visit: impl FnMut(&[u8]) -> std::io::Result<()>) -> std::io::Result<()> {
    let mut input = std::io::BufReader::with_capacity(1 << 18, std::io::stdin().lock());
    let mut bytes = Vec::new();
    loop {
        let mut length = [0; 4];
        bytes.clear();
        input.by_ref().take(4).read_to_end(&mut bytes)?;
        if bytes.is_empty() {
            return Ok(());
        }
        if bytes.len() < length.len() {
            return Err(std::io::ErrorKind::UnexpectedEof.into());
        }
        length.copy_from_slice(&bytes);
        bytes.resize(u32::from_be_bytes(length) as usize, 0);
        input.read_exact(&mut bytes)?;
        visit(&bytes)?;
    }
}
