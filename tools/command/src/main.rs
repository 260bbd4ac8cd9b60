//! `gontsamy`: cards linked, checked, shown, packed and drawn, with the reason of a refusal in words.
//!
//! The linker is the proved library; what is around it, reading files, finding causes and drawing, is not proved.

mod card;
mod cause;
mod explain;
mod fields;
mod graph;
mod image;
mod list;
mod render;
mod scopes;

use std::io::Write;
use std::process::ExitCode;

use bundle_text::show;
use gontsamy::{link, Buffers, Entry, Items, Kind, Linked, Number, Refusal};

use card::{Card, InputError, PackOptions};
use list::{Line, List};
use render::Diagnostic;

const USAGE: &str = "\
usage: gontsamy COMMAND ..          gontsamy COMMAND --help

  link INPUT        link a card: its units, scope entries and image
  check INPUT       test a bundle alone (numbers 1 to 13)
  show INPUT        print a bundle as text, or what can be read of it
  pack INPUT        write the bundle of a text or of a folder of .simf files
  image FILE        print an image as text
  graph INPUT       print the import graph
  remappings FILE   say what each line of a remapping list means
  explain NUMBER    say what a number means

INPUT is a bundle, its text form, a folder, or - for standard input.
Status: 0 linked, 1 refused, 2 bad usage or input.
";

const PACKING: &str = "
For every input:
  --remappings FILE              the remappings of a list, lines CONTEXT:NAME=TARGET or NAME=TARGET,
                                 behind those that the input or --remap has; may be given again.
                                 All are kept: the same context and name twice is refused by 13

For a folder, which becomes `/` of the bundle:
  --entry PATH                   the entry, as a path in the bundle; else the only main.simf
  --root PATH                    its package root; else the entry's folder
  --remap CONTEXT:NAME=TARGET    a remapping; may be given again
Source files are read by a small reader of items that is not proved.
";

fn usage_of(command: &str) -> String {
    let (line, packing) = match command {
        "link" => ("usage: gontsamy link INPUT [--json] [--image FILE]\n\nPrints `ok`, `unit` and `has` lines, or says why the card is refused.\n  --json          one object a line\n  --image FILE    write the image there\n", true),
        "check" => ("usage: gontsamy check INPUT [--json]\n\nTests a bundle by the numbers 1 to 13 and links nothing.\n", true),
        "show" => ("usage: gontsamy show INPUT\n\nPrints a bundle in its text form, each item's mark in a comment. Of a bundle that is refused by 1 to 6 the fields are printed with their offsets, and the place is marked.\n", true),
        "pack" => ("usage: gontsamy pack INPUT [-o FILE]\n\nWrites the bundle to FILE or standard output.\n", true),
        "image" => ("usage: gontsamy image FILE\n\nPrints the items of an image.\n", false),
        "graph" => ("usage: gontsamy graph INPUT [--svg]\n\nPrints the import graph as DOT, or draws it as SVG; the imports of a ring are red.\n", true),
        "remappings" => ("usage: gontsamy remappings FILE [--json]\n\nPrints context, name and target of each line of a remapping list, and which lines the linker refuses by 11 to 13; or says why the list is refused. FILE is - for standard input.\n  --json          one object a line\n\nA line is CONTEXT:NAME=TARGET or NAME=TARGET and ends in LF alone; nothing is trimmed, and there are no comments. One / at the end of a name or a target is dropped. Paths are those of the bundle, from / on.\n", false),
        "explain" => ("usage: gontsamy explain NUMBER\n       gontsamy explain --all\n\nSays when a number is given, what its place is, and what to do.\n", false),
        _ => return USAGE.to_string(),
    };
    format!("{line}{}", if packing { PACKING } else { "" })
}

/// The words after a command.
#[derive(Default)]
struct Arguments {
    input: Option<String>,
    json: bool,
    svg: bool,
    all: bool,
    help: bool,
    output: Option<String>,
    image: Option<String>,
    /// Remapping lists, by their files.
    lists: Vec<String>,
    packing: PackOptions,
}

fn arguments(words: &[String]) -> Result<Arguments, String> {
    let mut arguments = Arguments::default();
    let mut words = words.iter();
    while let Some(word) = words.next() {
        let mut value = || {
            words
                .next()
                .cloned()
                .ok_or_else(|| format!("`{word}` wants a value"))
        };
        match word.as_str() {
            "--help" | "-h" => arguments.help = true,
            "--json" => arguments.json = true,
            "--svg" => arguments.svg = true,
            "--dot" => arguments.svg = false,
            "--all" => arguments.all = true,
            "-o" => arguments.output = Some(value()?),
            "--image" => arguments.image = Some(value()?),
            "--root" => arguments.packing.root = Some(value()?),
            "--entry" => arguments.packing.entry = Some(value()?),
            "--remap" => {
                let remapping = value()?;
                arguments.packing.remappings.push(remapping);
            }
            "--remappings" => arguments.lists.push(value()?),
            option if option.len() > 1 && option.starts_with('-') => {
                return Err(format!("there is no option `{option}`"))
            }
            input if arguments.input.is_none() => arguments.input = Some(input.to_string()),
            other => return Err(format!("`{other}` is one word too many")),
        }
    }
    Ok(arguments)
}

/// How a run ends other than well.
enum Failure {
    /// The card is refused; what was to be said is said.
    Refused,
    Usage(String),
    Input(InputError),
}

impl From<InputError> for Failure {
    fn from(error: InputError) -> Self {
        Failure::Input(error)
    }
}

fn main() -> ExitCode {
    let words: Vec<String> = std::env::args_os()
        .skip(1)
        .map(|word| word.to_string_lossy().into_owned())
        .collect();
    let mut out = String::new();
    let result = run(&words, &mut out);
    let written = std::io::stdout().write_all(out.as_bytes());
    match result {
        Ok(()) if written.is_ok() => ExitCode::SUCCESS,
        Ok(()) => ExitCode::from(2),
        Err(Failure::Refused) => ExitCode::from(1),
        Err(Failure::Usage(message)) => {
            eprint!("error: {message}\n\n{USAGE}");
            ExitCode::from(2)
        }
        Err(Failure::Input(error)) => {
            eprint!("{}", render::input_error(&error));
            ExitCode::from(2)
        }
    }
}

fn run(words: &[String], out: &mut String) -> Result<(), Failure> {
    let Some((command, rest)) = words.split_first() else {
        return Err(Failure::Usage("no command".to_string()));
    };
    if matches!(command.as_str(), "--help" | "-h" | "help") {
        *out += USAGE;
        return Ok(());
    }
    let known = [
        "link",
        "check",
        "show",
        "pack",
        "image",
        "graph",
        "remappings",
        "explain",
    ];
    if !known.contains(&command.as_str()) {
        return Err(Failure::Usage(format!("there is no command `{command}`")));
    }
    let arguments = arguments(rest).map_err(Failure::Usage)?;
    if arguments.help {
        *out += &usage_of(command);
        return Ok(());
    }
    if command == "explain" && arguments.all {
        *out += &explain::pages();
        return Ok(());
    }
    let Some(input) = &arguments.input else {
        return Err(Failure::Usage(format!("`{command}` wants an input")));
    };
    match command.as_str() {
        "explain" => explain_number(input, out),
        "image" => show_image(input, out),
        "remappings" => show_list(input, &arguments, out),
        _ => {
            let card = load(input, &arguments, out)?;
            match command.as_str() {
                "link" => link_card(&card, &arguments, out),
                "check" => check_card(&card, &arguments, out),
                "show" => show_card(&card, out),
                "pack" => pack_card(&card, &arguments),
                _ => draw_card(&card, &arguments, out),
            }
        }
    }
}

/// The card of an input, with the remappings of the lists given.
fn load(input: &str, arguments: &Arguments, out: &mut String) -> Result<Card, Failure> {
    let inputs = arguments.lists.iter().map(String::as_str).chain([input]);
    if inputs.filter(|&input| input == "-").count() > 1 {
        return Err(Failure::Usage("`-` stands for one input alone".to_string()));
    }
    let mut card = Card::load(input, &arguments.packing)?;
    for path in &arguments.lists {
        card.add(&lines(path, arguments.json, out)?)?;
    }
    Ok(card)
}

/// The lines of a remapping list.
fn lines(path: &str, json: bool, out: &mut String) -> Result<Vec<Line>, Failure> {
    let list = List::load(path)?;
    list.lines()
        .map_err(|refusal| tell(list.len(), &[list.diagnostic(refusal)], json, out))
}

fn show_list(input: &str, arguments: &Arguments, out: &mut String) -> Result<(), Failure> {
    let lines = lines(input, arguments.json, out)?;
    *out += &match arguments.json {
        true => list::json(&lines),
        false => list::text(&lines),
    };
    Ok(())
}

fn explain_number(input: &str, out: &mut String) -> Result<(), Failure> {
    let page = input.parse().ok().and_then(explain::page);
    *out += &page.ok_or_else(|| Failure::Usage(format!("there is no number `{input}`")))?;
    Ok(())
}

fn read(path: &str) -> Result<Vec<u8>, Failure> {
    std::fs::read(path).map_err(|error| InputError::new(format!("{path}: {error}")).into())
}

fn write(path: &str, bytes: &[u8]) -> Result<(), Failure> {
    std::fs::write(path, bytes).map_err(|error| InputError::new(format!("{path}: {error}")).into())
}

fn show_image(input: &str, out: &mut String) -> Result<(), Failure> {
    let bytes = read(input)?;
    let whole = match bytes.as_slice() {
        [1, high, low, rest @ ..] => rest.len() == usize::from(u16::from_be_bytes([*high, *low])),
        _ => false,
    };
    if !whole {
        return Err(InputError::new(format!("{input}: this is no image")).into());
    }
    *out += &image::text(Items::of_image(&bytes));
    Ok(())
}

/// The refusals of an answer, each with its cause.
fn diagnostics(card: &Card, refusal: Refusal) -> Vec<Diagnostic> {
    let one = |number: Number, place: usize, ring: &[u8]| Diagnostic {
        number,
        place,
        finding: cause::find(card, number.0, place, ring),
    };
    match refusal {
        Refusal::At(number, place) => vec![one(number, place, &[])],
        Refusal::Report(records) => records
            .map(|record| one(record.number, record.place, record.ring))
            .collect(),
    }
}

/// Says why a bundle or a list of that length is refused.
fn tell(length: usize, diagnostics: &[Diagnostic], json: bool, out: &mut String) -> Failure {
    if json {
        for diagnostic in diagnostics {
            *out += &format!("{}\n", diagnostic.json());
        }
        return Failure::Refused;
    }
    for diagnostic in diagnostics {
        eprintln!("{}", diagnostic.text(length));
    }
    let lines: Vec<String> = diagnostics
        .iter()
        .map(|diagnostic| format!("no {} {}", diagnostic.number.0, diagnostic.place))
        .collect();
    eprintln!("refused: {}", lines.join(", "));
    Failure::Refused
}

fn link_card(card: &Card, arguments: &Arguments, out: &mut String) -> Result<(), Failure> {
    let mut buffers = Box::new(Buffers::new());
    match link(&card.bytes, &mut buffers) {
        Ok(linked) => {
            if let Some(path) = &arguments.image {
                write(path, linked.image())?;
            }
            *out += &match arguments.json {
                true => linked_json(&linked),
                false => linked_text(&linked),
            };
            Ok(())
        }
        Err(refusal) => {
            let diagnostics = diagnostics(card, refusal);
            Err(tell(card.bytes.len(), &diagnostics, arguments.json, out))
        }
    }
}

/// The module that holds an entry, from `crate` on.
fn module_of(entries: &[Entry], entry: &Entry) -> String {
    let mut names = Vec::new();
    let mut scope = entry.scope;
    while let Some(module) = scope.and_then(|index| entries.get(index)) {
        names.push(fields::quoted(module.name()));
        scope = module.scope;
    }
    names.push("crate".to_string());
    names.reverse();
    names.join("::")
}

fn kind_of(kind: Kind) -> u8 {
    match kind {
        Kind::Type => 1,
        Kind::Function => 2,
        Kind::Module => 3,
    }
}

fn linked_text(linked: &Linked) -> String {
    let units: Vec<_> = linked.units().collect();
    let mut out = format!("ok {}\n", units.len());
    for unit in units {
        out += &format!("unit {} {}\n", unit.id, fields::quoted(unit.path));
    }
    let entries: Vec<Entry> = linked.entries().collect();
    for entry in entries.iter().filter(|entry| entry.scope.is_some()) {
        out += &format!(
            "has {} {} {} {}\n",
            module_of(&entries, entry),
            kind_of(entry.kind),
            fields::quoted(entry.name()),
            entry.mark
        );
    }
    out
}

fn linked_json(linked: &Linked) -> String {
    let units: Vec<String> = linked
        .units()
        .map(|unit| {
            let path = render::string(&fields::quoted(unit.path));
            format!("{{\"id\":{},\"path\":{path}}}", unit.id)
        })
        .collect();
    let entries: Vec<Entry> = linked.entries().collect();
    let entries: Vec<String> = entries
        .iter()
        .filter(|entry| entry.scope.is_some())
        .map(|entry| {
            format!(
                "{{\"module\":{},\"kind\":{},\"name\":{},\"public\":{},\"mark\":{}}}",
                render::string(&module_of(&entries, entry)),
                kind_of(entry.kind),
                render::string(&fields::quoted(entry.name())),
                entry.public,
                entry.mark
            )
        })
        .collect();
    format!(
        "{{\"linked\":true,\"units\":[{}],\"entries\":[{}],\"image\":{}}}\n",
        units.join(","),
        entries.join(","),
        linked.image().len()
    )
}

fn check_card(card: &Card, arguments: &Arguments, out: &mut String) -> Result<(), Failure> {
    match gontsamy::check(&card.bytes) {
        Ok(()) => {
            *out += "ok\n";
            Ok(())
        }
        Err((number, place)) => {
            let diagnostics = diagnostics(card, Refusal::At(number, place));
            Err(tell(card.bytes.len(), &diagnostics, arguments.json, out))
        }
    }
}

fn show_card(card: &Card, out: &mut String) -> Result<(), Failure> {
    let refusal = gontsamy::check(&card.bytes).err();
    match (&card.bundle, refusal) {
        (Some(bundle), None) => {
            *out += &show(bundle);
            Ok(())
        }
        (Some(bundle), Some((number, place))) => {
            *out += &show(bundle);
            let diagnostics = diagnostics(card, Refusal::At(number, place));
            Err(tell(card.bytes.len(), &diagnostics, false, out))
        }
        (None, refusal) => {
            let (number, place) = refusal.unwrap_or((Number(1), 0));
            let fields = fields::fields(&card.bytes);
            let width = card.bytes.len().to_string().len();
            let marked = fields.iter().rposition(|field| field.offset <= place);
            for (index, field) in fields.iter().enumerate() {
                let sign = if Some(index) == marked { '>' } else { ' ' };
                let indent = "  ".repeat(field.depth);
                *out += &format!("{sign} {:width$}  {indent}{}\n", field.offset, field.text);
                if Some(index) == marked {
                    let meaning = number.meaning().map_or("", |meaning| meaning.when);
                    *out += &format!("{:1$}^ {number} at {place}: {meaning}\n", "", width + 4);
                }
            }
            Err(Failure::Refused)
        }
    }
}

fn pack_card(card: &Card, arguments: &Arguments) -> Result<(), Failure> {
    match &arguments.output {
        Some(path) => write(path, &card.bytes),
        None => std::io::stdout()
            .write_all(&card.bytes)
            .map_err(|error| InputError::new(format!("standard output: {error}")).into()),
    }
}

fn draw_card(card: &Card, arguments: &Arguments, out: &mut String) -> Result<(), Failure> {
    let refusal = gontsamy::check(&card.bytes).err();
    let graph = match (&card.bundle, refusal) {
        (Some(bundle), None) => graph::Graph::of(card, bundle),
        (_, Some((number, place))) => {
            let diagnostics = diagnostics(card, Refusal::At(number, place));
            return Err(tell(card.bytes.len(), &diagnostics, false, out));
        }
        _ => None,
    };
    let graph = graph.ok_or_else(|| InputError::new("the bundle can't be read"))?;
    *out += &match arguments.svg {
        true => graph.svg(),
        false => graph.dot(),
    };
    Ok(())
}
