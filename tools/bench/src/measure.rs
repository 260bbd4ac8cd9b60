//! One case, linked by either side; the table of all of them.

use std::hint::black_box;
use std::process::{Command, Stdio};

use bundle_generate::{case, shape, CASES};
use gontsamy::layout::{ANSWER, ANSWER_REPORT, ROWS};

/// Large copies by vector instructions: valgrind counts `rep movsb` by the byte.
const TUNABLES: &str = "glibc.cpu.x86_rep_movsb_threshold=100000000:\
                        glibc.cpu.x86_rep_stosb_threshold=100000000";
/// The seeds of the original's hash maps differ from link to link.
const TIMES: u64 = 10;

/// What is counted of the port: the whole link from bytes, with answer, tree and image. Says whether it
/// linked.
#[no_mangle]
#[inline(never)]
pub fn bench_linked(
    bytes: &[u8],
    report: &mut [u8],
    image: &mut [u8],
    answer: &mut [usize],
    rows: &mut [u64],
) -> bool {
    let number = gontsamy::exports::link(bytes, report, image, answer, rows);
    number == 0 && answer[ANSWER_REPORT] == 0
}

fn port(bytes: &[u8], times: u64) -> bool {
    let (mut report, mut image) = (vec![0; 1024], vec![0; 1 << 17]);
    let (mut answer, mut rows) = (vec![0; ANSWER], vec![0; ROWS]);
    (0..times).all(|_| {
        black_box(bench_linked(
            bytes,
            &mut report,
            &mut image,
            &mut answer,
            &mut rows,
        ))
    })
}

/// A case by its name, or `chain-N`, `star-N`, `folders-N`.
fn bundle(name: &str) -> Result<Vec<u8>, String> {
    let shaped = || {
        let (name, units) = name.split_once('-')?;
        shape(name, units.parse().ok()?)
    };
    case(name)
        .or_else(shaped)
        .ok_or_else(|| format!("no case {name}"))
}

pub fn run(name: &str, who: &str, times: &str) -> Result<(), String> {
    let bytes = black_box(bundle(name)?);
    let times: u64 = times.parse().map_err(|_| "no number".to_string())?;
    let linked = match who {
        "port" => port(&bytes, times),
        "original" => {
            let mut judge = oracle::judge::Judge::new().map_err(|error| error.to_string())?;
            judge.measure_link(&bytes, times as usize) == Ok(true)
        }
        _ => return Err("WHO is port or original".into()),
    };
    linked.then_some(()).ok_or(format!("{name} does not link"))
}

/// The instructions of a link, counted inside a function.
fn counted(name: &str, who: &str, function: &str) -> Result<u64, String> {
    let program = std::env::current_exe().map_err(|error| error.to_string())?;
    let output = Command::new("valgrind")
        .args(["--tool=callgrind", "--callgrind-out-file=/dev/null"])
        .arg(format!("--toggle-collect={function}"))
        .arg(program)
        .args(["run", name, who, &TIMES.to_string()])
        .env("GLIBC_TUNABLES", TUNABLES)
        .output()
        .map_err(|error| format!("valgrind: {error}"))?;
    let text = String::from_utf8_lossy(&output.stderr);
    let count = text
        .lines()
        .find_map(|line| line.split_once("Collected : "));
    let count = count.and_then(|(_, count)| count.trim().parse::<u64>().ok());
    match (output.status.success(), count) {
        (true, Some(count)) => Ok(count / TIMES),
        _ => Err(format!("{name}, {who}: {text}")),
    }
}

/// With commas between thousands.
fn grouped(number: u64) -> String {
    let digits = number.to_string();
    let mut out = String::new();
    for (at, digit) in digits.chars().enumerate() {
        if at > 0 && (digits.len() - at).is_multiple_of(3) {
            out.push(',');
        }
        out.push(digit);
    }
    out
}

/// These cases, or all, and after them what grows.
fn asked(names: &[&str]) -> Vec<String> {
    if !names.is_empty() {
        return names.iter().map(|name| name.to_string()).collect();
    }
    let mut all: Vec<String> = CASES.iter().map(|(name, _)| name.to_string()).collect();
    for shape in ["chain", "star", "folders"] {
        all.extend([1, 2, 4, 8, 16, 32, 64].map(|units| format!("{shape}-{units}")));
    }
    all
}

/// A line for each case.
pub fn table(names: &[&str]) -> Result<(), String> {
    println!("| Bundle | Bytes | Port, from bytes | Original, from items | Original, from bytes | Ratio, items | Ratio, bytes |");
    println!("|---|---|---|---|---|---|---|");
    for name in asked(names) {
        let bytes = bundle(&name)?.len();
        let port = counted(&name, "port", "bench_linked")?;
        let items = counted(&name, "original", "oracle_linked")?;
        let all = counted(&name, "original", "oracle_linked_bytes")?;
        println!(
            "| {name} | {} | {} | {} | {} | {:.2} | {:.2} |",
            grouped(bytes as u64),
            grouped(port),
            grouped(items),
            grouped(all),
            port as f64 / items as f64,
            port as f64 / all as f64,
        );
    }
    Ok(())
}

/// One link of the port in a thread whose stack has so many pages of 4 KB. Where they are too few the
/// process ends by a signal.
pub fn stack(name: &str, pages: &str) -> Result<(), String> {
    let bytes = bundle(name)?;
    let pages: usize = pages.parse().map_err(|_| "no number".to_string())?;
    let thread = std::thread::Builder::new().stack_size(4096 * pages);
    let thread = thread.spawn(move || port(&bytes, 1));
    let linked = thread.expect("a thread").join().expect("no panic");
    linked.then_some(()).ok_or(format!("{name} does not link"))
}

/// The smallest stack that the port runs in, of each case.
pub fn stacks(names: &[&str]) -> Result<(), String> {
    let program = std::env::current_exe().map_err(|error| error.to_string())?;
    for name in asked(names) {
        let ends_well = |pages: usize| {
            Command::new(&program)
                .args(["stack", &name, &pages.to_string()])
                .stderr(Stdio::null())
                .status()
                .is_ok_and(|status| status.success())
        };
        // 16 KB is the least that a thread has, 16 MB are enough.
        let (mut few, mut enough) = (3, 4096);
        while enough - few > 1 {
            let pages = (few + enough) / 2;
            match ends_well(pages) {
                true => enough = pages,
                false => few = pages,
            }
        }
        println!("{name}: {} KB", 4 * enough);
    }
    Ok(())
}
