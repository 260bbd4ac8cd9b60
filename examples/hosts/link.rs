//! A host in Rust: links the bundle of a file and prints its units, or why it is refused.
//!
//!     cd tools && cargo run --offline --example link -p gontsamy -- CARD

use std::process::ExitCode;

use gontsamy::{link, Buffers, Refusal};

fn main() -> ExitCode {
    let Some(path) = std::env::args_os().nth(1) else {
        eprintln!("usage: link BUNDLE");
        return ExitCode::from(2);
    };
    let bundle = match std::fs::read(&path) {
        Ok(bundle) => bundle,
        Err(error) => {
            eprintln!("{}: {error}", path.to_string_lossy());
            return ExitCode::from(2);
        }
    };
    let mut buffers = Box::new(Buffers::new());
    match link(&bundle, &mut buffers) {
        Ok(linked) => {
            println!("ok {}", linked.units().count());
            for unit in linked.units() {
                println!("unit {} {}", unit.id, String::from_utf8_lossy(unit.path));
            }
            println!(
                "{} entries, image of {} bytes",
                linked.entry_count(),
                linked.image().len()
            );
            ExitCode::SUCCESS
        }
        Err(Refusal::At(number, place)) => {
            println!("no {} {place}", number.0);
            eprintln!("{number}");
            ExitCode::FAILURE
        }
        Err(Refusal::Report(records)) => {
            for record in records {
                println!("no {} {}", record.number.0, record.place);
                eprintln!("{} {:?}", record.number, record.ring);
            }
            ExitCode::FAILURE
        }
    }
}
