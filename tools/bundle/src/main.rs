//! `bundle pack`: the text form on standard input, the bundle on standard output.
//! `bundle show`: the bundle on standard input, the text form on standard output.

use std::io::{Read, Write};
use std::process::ExitCode;

use bundle_format::Bundle;
use bundle_text::{pack, show};

fn main() -> ExitCode {
    let arguments: Vec<_> = std::env::args_os().skip(1).collect();
    let result = match arguments.as_slice() {
        [command] if command == "pack" => run(|text| pack(text).map_err(|error| error.to_string())),
        [command] if command == "show" => run(|bytes| {
            Bundle::decode(bytes)
                .map(|bundle| show(&bundle).into_bytes())
                .map_err(|refusal| refusal.to_string())
        }),
        _ => {
            eprintln!("usage: bundle pack < TEXT > BUNDLE");
            eprintln!("       bundle show < BUNDLE > TEXT");
            return ExitCode::from(2);
        }
    };
    match result {
        Ok(()) => ExitCode::SUCCESS,
        Err(message) => {
            eprintln!("bundle: {message}");
            ExitCode::FAILURE
        }
    }
}

/// Standard input through `change` to standard output, which gets nothing where it fails.
fn run(change: impl Fn(&[u8]) -> Result<Vec<u8>, String>) -> Result<(), String> {
    let mut input = Vec::new();
    std::io::stdin()
        .read_to_end(&mut input)
        .map_err(|error| format!("standard input: {error}"))?;
    let output = change(&input)?;
    let mut stdout = std::io::stdout().lock();
    stdout
        .write_all(&output)
        .and_then(|()| stdout.flush())
        .map_err(|error| format!("standard output: {error}"))
}
