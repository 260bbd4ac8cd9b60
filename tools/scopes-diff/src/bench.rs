//! The cost of calls, of the port and of the original, in instructions, time and stack.
//!
//! A call is measured in a tree of so many entries, most of them in the current module. The
//! port's calls go through crates/scopes_c_c over crates/scopes_c, which reads them from bytes: a call's cost is that of
//! a list that ends with it less that of the list without it. The original's are counted inside
//! `scopes_diff_measured`, over fresh trees, since the seeds of its hash maps differ from run to
//! run.

use std::hint::black_box;
use std::process::{Command, Stdio};
use std::time::{Duration, Instant};

use oracle::ast::scope::bare::{self, Bare};

use crate::calls::Call;
use crate::port;

/// Large copies by vector instructions: valgrind counts `rep movsb` by the byte.
const TUNABLES: &str = "glibc.cpu.x86_rep_movsb_threshold=100000000:\
                        glibc.cpu.x86_rep_stosb_threshold=100000000";
/// Fresh trees of the original.
const TREES: usize = 20;
const SIZES: [usize; 3] = [10, 100, 1000];

/// Calls to measure, and the list that they follow.
struct Case {
    before: Vec<Call>,
    calls: Vec<Call>,
}

impl Case {
    /// By how much a figure of the row is divided: 1 where it is measured as a whole; an enter has
    /// its exit with it.
    fn times(&self, row: &str) -> f64 {
        match (row, whole(row)) {
            (_, Some(_)) => 1.0,
            ("enter", _) => self.calls.len() as f64 / 2.0,
            _ => self.calls.len() as f64,
        }
    }
}

#[derive(Clone, Copy, PartialEq, Eq)]
enum Who {
    /// By value, through the replay.
    Port,
    /// Over lent arrays.
    Walk,
    Original,
}

impl Who {
    const ALL: [Who; 3] = [Who::Port, Who::Walk, Who::Original];

    fn word(self) -> &'static str {
        match self {
            Who::Port => "port",
            Who::Walk => "walk",
            Who::Original => "original",
        }
    }

    fn of(word: &str) -> Option<Who> {
        Who::ALL.into_iter().find(|who| who.word() == word)
    }
}

/// What a walk over a program does, by name, each measured as a whole.
const WHOLE: [(&str, &str); 5] = [
    ("list", "list of 1,000 calls"),
    ("items", "a module of 1,000 items"),
    ("elements", "a use of 32 functions, into 960 entries"),
    (
        "kinds",
        "a use of 32 types, functions and modules each, into 900",
    ),
    ("meeting", "a module of 1,000 functions of one hash"),
];

/// The eight calls by name.
const ROWS: [&str; 8] = [
    "enter",
    "exit",
    "insert_alias",
    "insert_enum",
    "insert_function",
    "resolve_use",
    "get_alias",
    "get_function",
];

fn function(name: &str) -> Call {
    Call::Function(name.to_string(), true, 1)
}

fn alias(name: &str) -> Call {
    Call::Alias(name.to_string(), true, 1)
}

fn enter(name: &str) -> Call {
    Call::Enter(name.to_string(), true, 1)
}

fn use_of(module: &str, elements: Vec<(String, String)>) -> Call {
    let path = vec!["crate".to_string(), module.to_string()];
    Call::Use(true, path, elements)
}

/// A module `m` with a type, a function and a module `g` of one entry; and an open module with
/// uses of `g` that fill up.
fn tree_of(entries: usize) -> Vec<Call> {
    let mut calls = vec![enter("m"), alias("g"), function("g"), enter("g")];
    calls.extend([function("i"), Call::Exit, Call::Exit, enter("here")]);
    let mut left = entries - 6;
    while left >= 3 {
        let count = (left / 3).min(32);
        let elements = (0..count).map(|at| ("g".to_string(), format!("u{left}_{at}")));
        calls.push(use_of("m", elements.collect()));
        left -= 3 * count;
    }
    calls.extend((0..left).map(|at| function(&format!("d{at}"))));
    calls
}

/// Modules of eight calls each: 1,000 calls that make 624 entries.
fn list_of_1000() -> Vec<Call> {
    let mut calls = Vec::new();
    for at in 0..125 {
        calls.extend([
            enter(&format!("m{at}")),
            alias("t"),
            Call::Enum("e".to_string(), true, 1),
            function("f"),
            match at {
                0 => function("main"),
                _ => {
                    let before = format!("m{}", at - 1);
                    use_of(&before, vec![("f".to_string(), "g".to_string())])
                }
            },
            Call::GetAlias("t".to_string()),
            Call::GetFunction("f".to_string()),
            Call::Exit,
        ]);
    }
    calls
}

/// One module, of types and functions in turn.
fn items_of_1000() -> Vec<Call> {
    let item = |at: usize| match at % 2 {
        0 => alias(&format!("item_{at}")),
        _ => function(&format!("item_{at}")),
    };
    std::iter::once(enter("m"))
        .chain((0..999).map(item))
        .collect()
}

/// A use of 32 elements that fills a tree up to so many entries and then some: the elements stand
/// in a module, each a function, and where `kinds` holds a type and a module too; the rest of the
/// entries stand in the module that imports.
fn use_of_32(kinds: bool, entries: usize) -> Case {
    let mut before = vec![enter("m")];
    for at in 0..32 {
        before.push(function(&format!("e{at}")));
        if kinds {
            before.push(alias(&format!("e{at}")));
            before.extend([enter(&format!("e{at}")), Call::Exit]);
        }
    }
    before.extend([Call::Exit, enter("here")]);
    let made = if kinds { 98 } else { 34 };
    before.extend((made..entries).map(|at| function(&format!("d{at}"))));
    let element = |at| (format!("e{at}"), String::new());
    let calls = vec![use_of("m", (0..32).map(element).collect())];
    Case { before, calls }
}

/// The hash of a function's name in the scope of entry 0, as crates/scopes has it.
fn hash(name: &str) -> u64 {
    let mut bytes = [0; 32];
    bytes[..name.len()].copy_from_slice(name.as_bytes());
    let word = |at: usize| {
        let word = bytes[8 * at..8 * at + 8].try_into().expect("eight bytes");
        u64::from_be_bytes(word)
    };
    let high: [u64; 4] = [165902239, 232471937, 176714393, 150740719];
    let low: [u64; 4] = [189812533, 220889051, 215493451, 182388329];
    let words: u64 = (0..4)
        .map(|at| (word(at) >> 32) * high[at] + (word(at) & 0xffff_ffff) * low[at])
        .sum();
    ((words + 7000208109065 + 2 * 3387945472435) >> 28) % 1024
}

/// One module of functions whose names were chosen to have one hash: the worst that a program can
/// do to the port's lookups.
fn meeting_1000() -> Vec<Call> {
    let names = (0..)
        .map(|at| format!("f{at}"))
        .filter(|name| hash(name) == 0);
    std::iter::once(enter("m"))
        .chain(names.take(999).map(|name| function(&name)))
        .collect()
}

fn case(row: &str, entries: usize) -> Option<Case> {
    let from_nothing = |calls| Case {
        before: Vec::new(),
        calls,
    };
    match row {
        "list" => return Some(from_nothing(list_of_1000())),
        "items" => return Some(from_nothing(items_of_1000())),
        "meeting" => return Some(from_nothing(meeting_1000())),
        "elements" => return Some(use_of_32(false, 960)),
        "kinds" => return Some(use_of_32(true, 900)),
        _ => {}
    }
    let mut before = tree_of(entries);
    // A get leaves the tree as it is, so that many are measured.
    let times = match row {
        "get_alias" | "get_function" => 64,
        _ => 8,
    };
    let calls = (0..times).flat_map(|at| {
        let call = match row {
            "enter" => enter(&format!("x{at}")),
            "exit" => Call::Exit,
            "insert_alias" => alias(&format!("x{at}")),
            "insert_enum" => Call::Enum(format!("x{at}"), true, 1),
            "insert_function" => function(&format!("x{at}")),
            "resolve_use" => use_of("m", vec![("g".to_string(), format!("x{at}"))]),
            "get_alias" => Call::GetAlias("q".to_string()),
            _ => Call::GetFunction("q".to_string()),
        };
        // A second enter would search an empty module.
        let exit = (row == "enter").then_some(Call::Exit);
        std::iter::once(call).chain(exit)
    });
    let calls: Vec<Call> = calls.collect();
    match row {
        "exit" => before.extend((0..times).map(|at| enter(&format!("x{at}")))),
        "get_alias" => before.push(alias("q")),
        "get_function" => before.push(function("q")),
        _ if ROWS.contains(&row) => {}
        _ => return None,
    }
    Some(Case { before, calls })
}

fn bytes(calls: &[Call]) -> Vec<u8> {
    let mut bytes = Vec::new();
    for call in calls {
        call.bytes(&mut bytes);
    }
    bytes
}

fn prepared(calls: &[Call]) -> Vec<bare::Call> {
    let element = |(name, alias): &(String, String)| bundle_format::Element {
        name: name.clone().into_bytes(),
        alias: (!alias.is_empty()).then(|| alias.clone().into_bytes()),
    };
    let prepare = |call: &Call| match call {
        Call::Enter(name, public, _) => bare::Call::enter(name, *public),
        Call::Exit => bare::Call::Exit,
        Call::Alias(name, public, mark) => bare::Call::alias(name, *public, (*mark).into()),
        Call::Enum(name, public, mark) => bare::Call::enumeration(name, *public, (*mark).into()),
        Call::Function(name, public, mark) => bare::Call::function(name, *public, (*mark).into()),
        Call::Use(public, path, elements) => {
            let path: Vec<Vec<u8>> = path.iter().map(|name| name.clone().into_bytes()).collect();
            let elements: Vec<_> = elements.iter().map(element).collect();
            bare::Call::resolve_use(*public, &path, &elements)
        }
        Call::Form(..) => unreachable!("no use by its bytes is measured"),
        Call::GetAlias(name) => bare::Call::get_alias(name),
        Call::GetFunction(name) => bare::Call::get_function(name),
    };
    calls.iter().map(prepare).collect()
}

/// Replays bytes; all calls are to be accepted.
fn replay(who: Who, list: &[u8], numbers: &mut [u32]) {
    let count = match who {
        Who::Walk => port::walk(black_box(list), numbers),
        _ => port::replay(black_box(list), numbers),
    };
    assert!(numbers[..count].iter().all(|number| number >> 16 < 2));
}

/// Makes calls; all are to be accepted.
fn make(tree: &mut Bare, calls: &[bare::Call]) {
    for call in black_box(calls) {
        assert!(tree.call(call));
    }
}

/// What is counted of the original.
#[no_mangle]
#[inline(never)]
pub fn scopes_diff_measured(tree: &mut Bare, calls: &[bare::Call]) {
    make(tree, calls);
}

/// `measure ROW WHO ENTRIES WITH`, for a counter of instructions: WITH is 1 with the calls, 0
/// without them; what is made beforehand does not depend on it.
pub fn measure(row: &str, who: &str, entries: usize, with: bool) -> Option<()> {
    let who = Who::of(who)?;
    let case = case(row, entries)?;
    match who {
        Who::Port | Who::Walk => {
            let mut list = bytes(&case.before);
            let end = list.len();
            list.extend(bytes(&case.calls));
            let mut numbers = vec![0; case.before.len() + case.calls.len()];
            let end = if with { list.len() } else { end };
            replay(who, &list[..end], &mut numbers);
        }
        Who::Original => {
            let (before, calls) = (prepared(&case.before), prepared(&case.calls));
            for _ in 0..TREES {
                let mut tree = Bare::default();
                make(&mut tree, &before);
                scopes_diff_measured(&mut tree, &calls[..if with { calls.len() } else { 0 }]);
                // What a tree costs when it is dropped is no part of a call.
                std::mem::forget(tree);
            }
        }
    }
    Some(())
}

/// Instructions of this program with `measure` and these arguments; of the original those alone
/// that are spent in `scopes_diff_measured`.
fn counted(row: &str, who: Who, entries: usize, with: bool) -> u64 {
    let program = std::env::current_exe().expect("this program");
    let mut valgrind = Command::new("valgrind");
    valgrind.env("GLIBC_TUNABLES", TUNABLES);
    valgrind.args(["--tool=callgrind", "--callgrind-out-file=/dev/null"]);
    if who == Who::Original {
        valgrind.arg("--toggle-collect=scopes_diff_measured");
    }
    let done = valgrind
        .arg(program)
        .args(["measure", row, who.word()])
        .args([entries.to_string(), u8::from(with).to_string()])
        .output()
        .expect("valgrind runs");
    let text = String::from_utf8_lossy(&done.stderr);
    let line = text
        .lines()
        .find_map(|line| line.split_once("Collected : "));
    let number = line.and_then(|(_, number)| number.trim().parse().ok());
    number.unwrap_or_else(|| panic!("no count: {text}"))
}

/// Instructions of the calls of a row.
fn spent(row: &str, who: Who, entries: usize) -> u64 {
    match who {
        Who::Port | Who::Walk => {
            counted(row, who, entries, true) - counted(row, who, entries, false)
        }
        Who::Original => counted(row, who, entries, true) / TREES as u64,
    }
}

/// The rows of a table: the calls, each with its sizes, then what is measured as a whole.
fn rows() -> impl Iterator<Item = (&'static str, usize)> {
    let sizes = |row| SIZES.map(|entries| (row, entries));
    let whole = WHOLE.into_iter().map(|(row, _)| (row, 0));
    ROWS.into_iter().flat_map(sizes).chain(whole)
}

/// The title of a row that is measured as a whole.
fn whole(row: &str) -> Option<&'static str> {
    let named = WHOLE.into_iter().find(|(name, _)| *name == row);
    named.map(|(_, title)| title)
}

fn tell(row: &str, entries: usize, port: f64, walk: f64, original: f64) {
    let title = match (row, whole(row)) {
        (_, Some(title)) => format!("{title} | "),
        ("enter", _) => format!("enter, exit | {entries}"),
        _ => format!("{row} | {entries}"),
    };
    println!(
        "| {title} | {port:.0} | {walk:.0} | {original:.0} | {:.0} | {:.1} |",
        port / original,
        walk / original
    );
}

/// The head of a table.
fn head() {
    println!("| Call | Entries | By value | Lent | Original | Ratio by value | Ratio lent |");
    println!("|---|---|---|---|---|---|---|");
}

/// A table of instructions a call, and of the rest as a whole.
pub fn instructions() {
    head();
    for (row, entries) in rows() {
        let times = case(row, entries).expect("a row").times(row);
        let spent = |who| spent(row, who, entries) as f64 / times;
        let [port, walk, original] = Who::ALL.map(spent);
        tell(row, entries, port, walk, original);
    }
}

/// The middle one of many figures.
fn middle(mut figures: Vec<f64>) -> f64 {
    figures.sort_by(f64::total_cmp);
    figures[figures.len() / 2]
}

fn nanoseconds(time: Duration) -> f64 {
    time.as_nanos() as f64
}

/// By how much a run of the one exceeds one of the other right after it, in the middle of many.
fn excess(runs: usize, mut long: impl FnMut(), mut short: impl FnMut()) -> f64 {
    let more = |_| nanoseconds(timed(&mut long)) - nanoseconds(timed(&mut short));
    middle((0..runs).map(more).collect())
}

fn timed(run: impl FnOnce()) -> Duration {
    let start = Instant::now();
    run();
    start.elapsed()
}

/// A table of nanoseconds a call, the middle of many runs in this one process.
pub fn time() {
    head();
    for (row, entries) in rows() {
        let case = case(row, entries).expect("a row");
        let runs = 500;
        let times = case.times(row);
        let mut list = bytes(&case.before);
        let end = list.len();
        list.extend(bytes(&case.calls));
        let mut numbers = vec![0; case.before.len() + case.calls.len()];
        let mut others = numbers.clone();
        let [port, walk] = [Who::Port, Who::Walk].map(|who| {
            let more = excess(
                // A short run is measured more often: what the calls take is a small part of it.
                if who == Who::Walk { 40 * runs } else { runs },
                || replay(who, &list, &mut numbers),
                || replay(who, &list[..end], &mut others),
            );
            more / times
        });

        let (before, calls) = (prepared(&case.before), prepared(&case.calls));
        let run = |_| {
            let mut tree = Bare::default();
            make(&mut tree, &before);
            nanoseconds(timed(|| make(&mut tree, &calls)))
        };
        let original = middle((0..runs).map(run).collect());
        tell(row, entries, port, walk, original / times);
    }
}

/// A tree whose modules stand in each other: nine open, then copies of a chain of copies.
fn deepest(copies: usize) -> Vec<Call> {
    let mut calls = vec![enter("c0"), function("f"), Call::Exit];
    for at in 1..=copies {
        let before = format!("c{}", at - 1);
        let path = vec!["crate".to_string()];
        calls.push(enter(&format!("c{at}")));
        calls.push(Call::Use(true, path, vec![(before, String::new())]));
        calls.push(Call::Exit);
    }
    calls.extend((0..9).map(|at| enter(&format!("n{at}"))));
    calls
}

fn stack_case(row: &str) -> Option<Vec<Call>> {
    let mut calls = deepest(60);
    let last = match row {
        "enter" => {
            calls.push(Call::Exit);
            enter("x")
        }
        "exit" => Call::Exit,
        "insert_alias" => alias("x"),
        "insert_enum" => Call::Enum("x".to_string(), true, 1),
        "insert_function" => function("x"),
        "resolve_use" => {
            let path = vec!["crate".to_string()];
            Call::Use(true, path, vec![("c60".to_string(), String::new())])
        }
        "get_alias" => Call::GetAlias("x".to_string()),
        "get_function" => Call::GetFunction("x".to_string()),
        _ => return None,
    };
    calls.push(last);
    Some(calls)
}

/// `stack ROW WHO PAGES`: a list that ends with the call, in a thread whose stack has so many
/// pages of 4 KB. Where they are too few the process ends by a signal.
pub fn stack(row: &str, who: &str, pages: usize) -> Option<()> {
    let (who, calls) = (Who::of(who)?, stack_case(row)?);
    // All but the last call, which is made in the thread; the port makes the whole list there.
    let (list, mut numbers) = (bytes(&calls), vec![0; calls.len()]);
    let calls = prepared(&calls);
    let (last, before) = calls.split_last().expect("a call");
    let mut tree = Bare::default();
    make(&mut tree, before);
    std::thread::scope(|scope| {
        let thread = std::thread::Builder::new().stack_size(4096 * pages);
        let thread = thread.spawn_scoped(scope, || match who {
            Who::Port => {
                port::replay(&list, &mut numbers);
            }
            Who::Walk => {
                port::walk(&list, &mut numbers);
            }
            Who::Original => {
                tree.call(last);
            }
        });
        thread.expect("a thread").join().expect("no panic");
    });
    // A deep tree is dropped by recursion.
    std::mem::forget(tree);
    Some(())
}

/// The fewest pages with which a call ends well.
fn pages(row: &str, who: Who) -> usize {
    let program = std::env::current_exe().expect("this program");
    let ends_well = |pages: usize| {
        Command::new(&program)
            .args(["stack", row, who.word(), &pages.to_string()])
            .stderr(Stdio::null())
            .status()
            .expect("this program runs")
            .success()
    };
    // 16 KB is the least that a thread has.
    let (mut few, mut enough) = (3, 4096);
    assert!(ends_well(enough), "{row}");
    while few + 1 < enough {
        let middle = (few + enough) / 2;
        match ends_well(middle) {
            true => enough = middle,
            false => few = middle,
        }
    }
    enough
}

/// A table of the smallest stacks in which a call runs.
pub fn stacks() {
    println!("| Call | By value, KB | Lent, KB | Original, KB |");
    println!("|---|---|---|---|");
    for row in ROWS {
        let [port, walk, original] = Who::ALL.map(|who| 4 * pages(row, who));
        println!("| {row} | {port} | {walk} | {original} |");
    }
}
