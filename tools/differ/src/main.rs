//! `differ`: the proved code, linked as a static library, against independent implementations on
//! many inputs. Every difference is printed with its input; the exit status tells whether there was
//! one.

mod assemble;
mod bundles;
mod host;
mod lines;
mod names;
mod order;
mod steps;
mod uses;

fn main() -> std::process::ExitCode {
    let arguments: Vec<String> = std::env::args().skip(1).collect();
    let arguments: Vec<&str> = arguments.iter().map(String::as_str).collect();
    let number = |word: &str| word.parse::<u64>().ok();
    let differences = match arguments[..] {
        ["bundles", seed, count] => match (number(seed), number(count)) {
            (Some(seed), Some(count)) => bundles::generated(seed, count),
            _ => return usage(),
        },
        ["damaged", seed, count] => match (number(seed), number(count)) {
            (Some(seed), Some(count)) => bundles::damaged(seed, count),
            _ => return usage(),
        },
        ["short"] => bundles::short(),
        ["sample", count] => match number(count).map(|count| bundles::sample(count as usize)) {
            Some(Ok(())) => 0,
            Some(Err(error)) => {
                eprintln!("differ: {error}");
                1
            }
            None => return usage(),
        },
        ["uses", seed, count] => match (number(seed), number(count)) {
            (Some(seed), Some(count)) => uses::generated(seed, count),
            _ => return usage(),
        },
        #[cfg(original)]
        ["resolve", seed, count] => match (number(seed), number(count)) {
            (Some(seed), Some(count)) => uses::original(seed, count),
            _ => return usage(),
        },
        #[cfg(original)]
        ["clashes", seed, count] => match (number(seed), number(count)) {
            (Some(seed), Some(count)) => uses::clashes(seed, count),
            _ => return usage(),
        },
        ["order", seed, count] => match (number(seed), number(count)) {
            (Some(seed), Some(count)) => order::generated(seed, count),
            _ => return usage(),
        },
        ["assemble", seed, count] => match (number(seed), number(count)) {
            (Some(seed), Some(count)) => assemble::generated(seed, count),
            _ => return usage(),
        },
        ["assemble-sample", length] => {
            match number(length).map(|length| assemble::sample(length as usize)) {
                Some(Ok(())) => 0,
                Some(Err(error)) => {
                    eprintln!("differ: {error}");
                    1
                }
                None => return usage(),
            }
        }
        ["order-sample", form @ ("lists" | "order"), length] => {
            match number(length).map(|length| order::sample(form, length as usize)) {
                Some(Ok(())) => 0,
                Some(Err(error)) => {
                    eprintln!("differ: {error}");
                    1
                }
                None => return usage(),
            }
        }
        ["stacks"] => order::stacks(),
        ["stack", shape, pages] => match number(pages) {
            Some(pages) => order::stack(shape, pages as usize),
            _ => return usage(),
        },
        ["measure", "order", shape, who, times] => match number(times) {
            Some(times) => order::measure(shape, who, times),
            _ => return usage(),
        },
        ["lines", seed, count] => match (number(seed), number(count)) {
            (Some(seed), Some(count)) => lines::compare(seed, count),
            _ => return usage(),
        },
        ["lines-sample", count] => match number(count).map(|count| lines::sample(count as usize)) {
            Some(Ok(())) => 0,
            Some(Err(error)) => {
                eprintln!("differ: {error}");
                1
            }
            None => return usage(),
        },
        ["names", seed, count] => match (number(seed), number(count)) {
            (Some(seed), Some(count)) => names::compare(seed, count),
            _ => return usage(),
        },
        ["measure", "lines", which, who, times] => match number(times) {
            Some(times) => lines::measure(which, who, times),
            _ => return usage(),
        },
        ["measure", "names", who, times] => match number(times) {
            Some(times) => names::measure(who, times),
            _ => return usage(),
        },
        ["measure", which, who, times] => match number(times) {
            Some(times) => bundles::measure(which, who, times),
            _ => return usage(),
        },
        _ => return usage(),
    };
    if differences == 0 {
        std::process::ExitCode::SUCCESS
    } else {
        std::process::ExitCode::FAILURE
    }
}

fn usage() -> std::process::ExitCode {
    eprintln!(
        "usage: differ bundles SEED COUNT    generated bundles\n\
         \x20      differ damaged SEED COUNT    every truncation and single-byte change of small bundles\n\
         \x20      differ short                 every byte string of at most 4 bytes\n\
         \x20      differ uses SEED COUNT       the uses of generated bundles\n\
         \x20      differ resolve SEED COUNT    the same against the original, every use of every file\n\
         \x20      differ clashes SEED COUNT    the same on small bundles made for clashes of names\n\
         \x20      differ sample COUNT          the files stdin and stdout of crates/bundle_vectors\n\
         \x20      differ order SEED COUNT      discovery and order of generated bundles\n\
         \x20      differ order-sample FORM LENGTH  stored bundles and answers; FORM is lists or order\n\
         \x20      differ assemble SEED COUNT   steps 1 to 5 and the image of generated bundles\n\
         \x20      differ assemble-sample LENGTH  the files stdin and stdout of crates/assembly_vectors\n\
         \x20      differ lines SEED COUNT      remapping lists, every short one too, and their sections in bundles\n\
         \x20      differ lines-sample COUNT    the files stdin and stdout of crates/remapping_lines_vectors\n\
         \x20      differ names SEED COUNT      prefixes and keywords\n\
         \x20      differ measure lines LIST WHO TIMES   LIST is long or short, WHO port or tools: remapping lists\n\
         \x20      differ measure WHICH WHO TIMES   WHICH is largest, alike or middle, WHO port or tools: checks\n\
         \x20      differ measure names WHO TIMES   WHO is port or original: prefixes and keywords\n\
         \x20      differ measure order SHAPE WHO TIMES   WHO is port, original or model, SHAPE as in `generate`\n\
         \x20      differ stacks                the stack of discovery and order"
    );
    std::process::ExitCode::from(2)
}
