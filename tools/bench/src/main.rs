//! `bench`: a whole link, by the proved code and by the original, in instructions. Both sides are in this
//! program; `bench table` runs it under callgrind, which counts inside one function.

#[cfg(original)]
mod measure;

#[cfg(original)]
fn main() -> std::process::ExitCode {
    let arguments: Vec<String> = std::env::args().skip(1).collect();
    let arguments: Vec<&str> = arguments.iter().map(String::as_str).collect();
    let done = match arguments[..] {
        ["run", name, who, times] => measure::run(name, who, times),
        ["table", ..] => measure::table(&arguments[1..]),
        ["stack", name, pages] => measure::stack(name, pages),
        ["stacks", ..] => measure::stacks(&arguments[1..]),
        _ => Err(
            "usage: bench table [NAME..]     instructions of a link, a line for each case\n\
                  \x20      bench stacks [NAME..]    the smallest stack that it runs in\n\
                  \x20      bench run NAME WHO TIMES what is counted; WHO is port or original\n\
                  NAME is a case of `generate --case`, or chain-N, star-N or folders-N of N units"
                .into(),
        ),
    };
    match done {
        Ok(()) => std::process::ExitCode::SUCCESS,
        Err(message) => {
            eprintln!("bench: {message}");
            std::process::ExitCode::FAILURE
        }
    }
}

#[cfg(not(original))]
fn main() -> std::process::ExitCode {
    eprintln!("bench: built without the original's sources (docs/ORACLE.md)");
    std::process::ExitCode::FAILURE
}
