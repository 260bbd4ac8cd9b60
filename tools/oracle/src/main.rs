//! The command line of the oracle; see docs/ORACLE.md.

#[cfg(not(original))]
fn main() -> std::process::ExitCode {
    eprintln!("oracle: {}", env!("ORIGINAL_PROBLEM"));
    std::process::ExitCode::FAILURE
}

#[cfg(original)]
fn main() -> std::process::ExitCode {
    command::main()
}

#[cfg(original)]
mod command {
    use std::any::Any;
    use std::io::{self, BufRead, BufReader, BufWriter, Read, Write};
    use std::panic::{self, AssertUnwindSafe};
    use std::process::ExitCode;
    use std::thread;

    use oracle::ast::scope::Tree;
    use oracle::judge::Judge;
    use oracle::resolve::Resolver;
    use oracle::{graph, names, tree};

    const USAGE: &str = "\
oracle [--image | --discover] [--stream], or one of oracle --names, --tree, --graph, --resolve, \
or oracle --measure TIMES";

    /// Modules copied into modules nest deeper than the stack of a main thread may hold.
    const STACK: usize = 256 << 20;

    pub fn main() -> ExitCode {
        let worker = thread::Builder::new().stack_size(STACK).spawn(run);
        let done = worker.expect("a thread").join();
        match done.expect("panics in the original are caught where they matter") {
            Ok(code) => code,
            Err(error) if error.kind() == io::ErrorKind::BrokenPipe => ExitCode::FAILURE,
            Err(error) => {
                eprintln!("oracle: {error}");
                ExitCode::FAILURE
            }
        }
    }

    /// What is asked of a bundle.
    #[derive(Clone, Copy, PartialEq, Eq)]
    enum Asked {
        Whole,
        WithImage,
        Discovery,
    }

    impl Asked {
        fn answer(self, judge: &mut Judge, bytes: &[u8]) -> String {
            match self {
                Asked::Discovery => judge.discover(bytes).print(),
                _ => judge.judge(bytes).print(self == Asked::WithImage),
            }
        }
    }

    fn run() -> io::Result<ExitCode> {
        let arguments: Vec<String> = std::env::args().skip(1).collect();
        let arguments: Vec<&str> = arguments.iter().map(String::as_str).collect();
        match arguments[..] {
            [] => one(Asked::Whole),
            ["--image"] => one(Asked::WithImage),
            ["--discover"] => one(Asked::Discovery),
            ["--stream"] => stream(Asked::Whole),
            ["--image", "--stream"] | ["--stream", "--image"] => stream(Asked::WithImage),
            ["--discover", "--stream"] | ["--stream", "--discover"] => stream(Asked::Discovery),
            ["--names"] => answer_lines(names::answer),
            ["--graph"] => answer_lines(graph::answer),
            ["--resolve"] => {
                let mut resolver = Resolver::new(Judge::new()?);
                answer_lines(|line| resolver.answer(line))
            }
            ["--tree"] => trees(),
            ["--measure", times] => match times.parse() {
                Ok(times) => measure(times),
                Err(_) => Ok(usage()),
            },
            _ => Ok(usage()),
        }
    }

    fn usage() -> ExitCode {
        eprintln!("usage: {USAGE}");
        ExitCode::from(2)
    }

    /// One bundle on standard input.
    fn one(asked: Asked) -> io::Result<ExitCode> {
        let mut bytes = Vec::new();
        io::stdin().lock().read_to_end(&mut bytes)?;
        let answer = asked.answer(&mut Judge::new()?, &bytes);
        io::stdout().lock().write_all(answer.as_bytes())?;
        Ok(ExitCode::SUCCESS)
    }

    /// Discovery and order of the bundle on standard input, so many times.
    fn measure(times: usize) -> io::Result<ExitCode> {
        let mut bytes = Vec::new();
        io::stdin().lock().read_to_end(&mut bytes)?;
        match Judge::new()?.measure(&bytes, times) {
            Ok(linked) => println!("{times} times, linked: {linked}"),
            Err(refusal) => println!("{refusal}"),
        }
        Ok(ExitCode::SUCCESS)
    }

    /// Bundles led by their length in 4 bytes; each answer is followed by a line `--`.
    fn stream(asked: Asked) -> io::Result<ExitCode> {
        let mut input = BufReader::with_capacity(1 << 20, io::stdin().lock());
        let mut output = BufWriter::with_capacity(1 << 20, io::stdout().lock());
        let mut judge = Judge::new()?;
        let mut panics = 0;
        panic::set_hook(Box::new(|_| {}));
        for index in 0u64.. {
            if input.fill_buf()?.is_empty() {
                break;
            }
            let mut length = [0; 4];
            input.read_exact(&mut length)?;
            let mut bytes = vec![0; u32::from_be_bytes(length) as usize];
            input.read_exact(&mut bytes)?;

            let answer = panic::catch_unwind(AssertUnwindSafe(|| asked.answer(&mut judge, &bytes)));
            match answer {
                Ok(answer) => output.write_all(answer.as_bytes())?,
                Err(cause) => {
                    panics += 1;
                    eprintln!("oracle: panic at bundle {index}: {}", message(&*cause));
                    output.write_all(b"panic\n")?;
                    judge.reset()?;
                }
            }
            output.write_all(b"--\n")?;
        }
        output.flush()?;
        Ok(match panics {
            0 => ExitCode::SUCCESS,
            _ => ExitCode::FAILURE,
        })
    }

    fn message(cause: &(dyn Any + Send)) -> &str {
        let text = cause.downcast_ref::<&str>().copied();
        let text = text.or(cause.downcast_ref::<String>().map(String::as_str));
        text.unwrap_or("without a message")
    }

    /// One answer for each line; a line that is no question ends the run.
    fn answer_lines(mut answer: impl FnMut(&str) -> Option<String>) -> io::Result<ExitCode> {
        let mut output = BufWriter::new(io::stdout().lock());
        for (index, line) in io::stdin().lock().lines().enumerate() {
            let line = line?;
            let Some(answer) = answer(&line) else {
                output.flush()?;
                return Ok(not_understood(index));
            };
            writeln!(output, "{answer}")?;
        }
        output.flush()?;
        Ok(ExitCode::SUCCESS)
    }

    fn not_understood(index: usize) -> ExitCode {
        eprintln!("oracle: line {} is not understood", index + 1);
        ExitCode::FAILURE
    }

    /// Lists of tree calls, each ended by a blank line or the end of the input: an answer for each
    /// call, the tree written out, and a line `--`.
    fn trees() -> io::Result<ExitCode> {
        let mut output = BufWriter::new(io::stdout().lock());
        let mut open: Option<Tree> = None;
        for (index, line) in io::stdin().lock().lines().enumerate() {
            let line = line?;
            let tree = open.get_or_insert_default();
            if line.is_empty() {
                writeln!(output, "{}--", tree.write())?;
                open = None;
                continue;
            }
            let Some(answer) = tree::answer(tree, &line) else {
                output.flush()?;
                return Ok(not_understood(index));
            };
            writeln!(output, "{answer}")?;
        }
        if let Some(tree) = open {
            writeln!(output, "{}--", tree.write())?;
        }
        output.flush()?;
        Ok(ExitCode::SUCCESS)
    }
}
