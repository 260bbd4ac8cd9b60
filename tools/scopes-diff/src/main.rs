//! `scopes-diff SEED LISTS`: lists of tree calls, made by the proved code and by the original:
//! every answer, and the tree written out.

#[cfg(original)]
mod bench;
#[cfg(original)]
mod calls;
#[cfg(original)]
mod compare;
#[cfg(original)]
mod cover;
#[cfg(original)]
mod lists;
#[cfg(original)]
mod port;
#[cfg(original)]
mod register;
#[cfg(original)]
mod vectors;

#[cfg(original)]
fn main() -> std::process::ExitCode {
    /// Modules copied into modules nest deeper than the stack of a main thread may hold.
    const STACK: usize = 256 << 20;
    let run = std::thread::Builder::new().stack_size(STACK).spawn(run);
    run.expect("a thread").join().expect("no panic")
}

#[cfg(original)]
fn run() -> std::process::ExitCode {
    use std::process::ExitCode;
    let arguments: Vec<String> = std::env::args().skip(1).collect();
    let arguments: Vec<&str> = arguments.iter().map(String::as_str).collect();
    let number = |word: &str| word.parse::<u64>().ok();
    let differences = match arguments[..] {
        ["show", seed, index] => match (number(seed), number(index)) {
            (Some(seed), Some(index)) => {
                compare::show(seed, index);
                0
            }
            _ => return usage(),
        },
        ["vectors", seed, calls] => match (number(seed), number(calls)) {
            (Some(seed), Some(calls)) => match vectors::write(seed, calls as usize) {
                Ok(()) => 0,
                Err(error) => {
                    eprintln!("scopes-diff: {error}");
                    1
                }
            },
            _ => return usage(),
        },
        ["instructions"] => {
            bench::instructions();
            0
        }
        ["time"] => {
            bench::time();
            0
        }
        ["stacks"] => {
            bench::stacks();
            0
        }
        ["measure", row, who, entries, with @ ("0" | "1")] => {
            let done = number(entries)
                .and_then(|entries| bench::measure(row, who, entries as usize, with == "1"));
            match done {
                Some(()) => 0,
                None => return usage(),
            }
        }
        ["stack", row, who, pages] => {
            let done = number(pages).and_then(|pages| bench::stack(row, who, pages as usize));
            match done {
                Some(()) => 0,
                None => return usage(),
            }
        }
        [seed, lists] => match (number(seed), number(lists)) {
            (Some(seed), Some(lists)) => compare::run(seed, lists),
            _ => return usage(),
        },
        _ => return usage(),
    };
    match differences {
        0 => ExitCode::SUCCESS,
        _ => ExitCode::FAILURE,
    }
}

#[cfg(original)]
fn usage() -> std::process::ExitCode {
    eprintln!(
        "usage: scopes-diff SEED LISTS        lists of calls, and what they cover\n\
         \x20      scopes-diff show SEED INDEX   one list, with both answers\n\
         \x20      scopes-diff vectors SEED CALLS  the files stdin and stdout of crates/scopes_vectors\n\
         \x20      scopes-diff instructions      instructions a call, port and original\n\
         \x20      scopes-diff time              nanoseconds a call\n\
         \x20      scopes-diff stacks            the stack of a call\n\
         \x20      scopes-diff measure ROW WHO ENTRIES WITH, scopes-diff stack ROW WHO PAGES:\n\
         \x20                                    one of the runs that these are made of"
    );
    std::process::ExitCode::from(2)
}

#[cfg(not(original))]
fn main() -> std::process::ExitCode {
    eprintln!("scopes-diff: the original Rust is missing: see docs/ORACLE.md");
    std::process::ExitCode::FAILURE
}
