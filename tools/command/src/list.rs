//! Remapping lists: what each line means, or why a list is refused, for a person to read. Nothing here decides: the proved library has.

use std::ops::Range;
use std::rc::Rc;

use bundle_format::{forms, limits};
use gontsamy::layout::REMAPPINGS;
use gontsamy::{remappings, ListRefusal};

use crate::card::{self, line_at, InputError, Location, Text};
use crate::cause::{name_fault, Finding};
use crate::fields::quoted;
use crate::render::{self, is_plain, Diagnostic, SHOWN};

/// Cells of the table are padded up to this width.
const CELL: usize = 40;

const CR_LF: &str =
    "the line ends in CR LF; only LF ends a line, so the CR belongs to it: save the list with LF alone";

/// The words of a line with a `=`, by their ranges in the list. Where no context is written the whole line stands for it.
struct Words {
    context: Range<usize>,
    name: Range<usize>,
    target: Range<usize>,
}

fn words(list: &[u8], line: Range<usize>) -> Option<Words> {
    let find = |range: Range<usize>, sign: u8| {
        let at = list[range.clone()].iter().position(|&byte| byte == sign);
        at.map(|at| range.start + at)
    };
    let equals = find(line.clone(), b'=')?;
    let colon = find(line.start..equals, b':');
    Some(Words {
        context: line.start..colon.unwrap_or(line.end),
        name: colon.map_or(line.start, |at| at + 1)..equals,
        target: equals + 1..line.end,
    })
}

/// A line with content, and what it means.
pub struct Line {
    /// From 1.
    number: usize,
    context: Vec<u8>,
    name: Vec<u8>,
    target: Vec<u8>,
    /// Where the three stand.
    locations: [Location; 3],
}

impl Line {
    /// The fields of the remapping, in the bundle's order, each with its place in the list.
    pub fn fields(&self) -> impl Iterator<Item = (&[u8], Location)> {
        let fields = [&self.context[..], &self.name, &self.target];
        fields.into_iter().zip(self.locations.iter().cloned())
    }

    /// Why the linker refuses a bundle with this line behind those before it, whatever else the bundle has.
    fn fault(&self, before: &[Line]) -> Option<(u8, String)> {
        name_fault(&self.name).or_else(|| {
            let same = |line: &&Line| line.context == self.context && line.name == self.name;
            let first = before.iter().find(same)?;
            let (name, context) = (quoted(&self.name), quoted(&self.context));
            let label = format!(
                "{name} is remapped below {context} in line {} already",
                first.number
            );
            Some((13, label))
        })
    }
}

/// A remapping list as it was written.
pub struct List {
    name: Rc<str>,
    bytes: Rc<[u8]>,
}

impl List {
    /// Reads a file or, for `-`, standard input.
    pub fn load(input: &str) -> Result<List, InputError> {
        let (name, bytes) = card::read(input)?;
        Ok(List {
            name: name.into(),
            bytes: bytes.into(),
        })
    }

    pub fn len(&self) -> usize {
        self.bytes.len()
    }

    /// Its lines with content, or the refusal.
    pub fn lines(&self) -> Result<Vec<Line>, ListRefusal> {
        let mut buffer = vec![0; REMAPPINGS];
        let section = remappings(&self.bytes, &mut buffer)?;
        let mut start = 0;
        let ranges = self.bytes.split(|&byte| byte == b'\n').map(|line| {
            let range = start..start + line.len();
            start = range.end + 1;
            range
        });
        let with_content = (1..).zip(ranges).filter(|(_, range)| !range.is_empty());
        let lines = with_content.zip(section.remappings());
        let line = |((number, range), remapping): ((usize, Range<usize>), gontsamy::Remapping)| {
            let Words {
                context,
                name,
                target,
            } = words(&self.bytes, range)?;
            Some(Line {
                number,
                context: remapping.context.to_vec(),
                name: remapping.name.to_vec(),
                target: remapping.target.to_vec(),
                locations: [context, name, target].map(|range| self.location(range)),
            })
        };
        Ok(lines.filter_map(line).collect())
    }

    fn location(&self, range: Range<usize>) -> Location {
        Location {
            name: self.name.clone(),
            text: Text::List(self.bytes.clone()),
            start: range.start,
            end: range.end,
        }
    }

    /// A refusal with its cause.
    pub fn diagnostic(&self, refusal: ListRefusal) -> Diagnostic {
        Diagnostic {
            number: refusal.number,
            place: refusal.place,
            finding: self.finding(refusal),
        }
    }

    fn finding(&self, refusal: ListRefusal) -> Finding {
        let range = line_at(&self.bytes, refusal.place);
        let line = &self.bytes[range.clone()];
        let cr_lf = line.ends_with(b"\r") && range.end < self.bytes.len();
        let (marked, said) = match (refusal.number.0, words(&self.bytes, range.clone())) {
            (3, _) => {
                let label = format!("{} lines with content stand before it", limits::REMAPPINGS);
                (range, (label, None))
            }
            (4, Some(Words { context, .. })) if refusal.place == range.start => {
                let said = bad_context(&self.bytes[context.clone()]);
                (context, said)
            }
            (4, Some(Words { target, .. })) => {
                let said = bad_target(&self.bytes[target.clone()], cr_lf);
                (target, said)
            }
            (12, Some(Words { name, .. })) => {
                let length = without_slash(&self.bytes[name.clone()]).len();
                (
                    name,
                    (format!("the name has {length} bytes, over 255"), None),
                )
            }
            (52, _) => (range, no_equals(line, cr_lf)),
            _ => return Finding::default(),
        };
        let (label, help) = said;
        let mut finding = Finding {
            location: Some(self.location(marked)),
            label,
            help,
            ..Finding::default()
        };
        if cr_lf && finding.help.as_deref() != Some(CR_LF) {
            finding.note(CR_LF);
        }
        if !is_plain(line) {
            finding.note("bytes of the line that do not print are shown as escapes");
        }
        finding
    }
}

/// A name or a target without a `/` at its end; the target `/` stays.
fn without_slash(word: &[u8]) -> &[u8] {
    match word {
        [path @ .., b'/'] if !path.is_empty() => path,
        _ => word,
    }
}

/// What is said of a word, and what to do where it is more than the number's own.
type Said = (String, Option<String>);

fn no_equals(line: &[u8], cr_lf: bool) -> Said {
    let text = line.trim_ascii();
    let (label, help) = if cr_lf && line == b"\r" {
        ("a CR alone", Some(CR_LF))
    } else if text.is_empty() {
        ("blanks alone", Some("leave the line empty, without blanks"))
    } else if text.starts_with(b"#") || text.starts_with(b"//") {
        (
            "there is no `=`",
            Some("leave the line out: a list has no comments"),
        )
    } else {
        ("there is no `=`", None)
    };
    (label.to_string(), help.map(str::to_string))
}

fn bad_context(context: &[u8]) -> Said {
    let help = match context {
        [] => Some("leave out the `:`, or write a folder before it".to_string()),
        _ => path_help(context, "the `/` at a context's end is not dropped"),
    };
    (format!("the context {}", path_fault(context)), help)
}

fn bad_target(target: &[u8], cr_lf: bool) -> Said {
    let written = target.strip_suffix(b"\r").filter(|_| cr_lf);
    let path = without_slash(written.unwrap_or(target));
    let help = match path.trim_ascii() {
        [] => Some("write a folder behind the `=`".to_string()),
        _ if cr_lf && forms::is_path(path) => Some(CR_LF.to_string()),
        _ => path_help(path, "only one `/` at a target's end is dropped"),
    };
    let path = without_slash(target);
    let fault = match path.ends_with(b"/") {
        true => "ends in more than one `/`".to_string(),
        false => path_fault(path),
    };
    (format!("the target {fault}"), help)
}

/// What to do with a word that is no path because of its ends; `slashes` says what holds of slashes at its end.
fn path_help(word: &[u8], slashes: &str) -> Option<String> {
    let trimmed = word.trim_ascii();
    let reason = if trimmed.len() < word.len() {
        "blanks are not trimmed"
    } else if !word.starts_with(b"/") {
        "paths are those of the bundle, from `/` on"
    } else if word.ends_with(b"/") {
        slashes
    } else {
        return None;
    };
    let mut path = trimmed.strip_prefix(b"./").unwrap_or(trimmed).to_vec();
    if !path.starts_with(b"/") {
        path.insert(0, b'/');
    }
    while path.len() > 1 && path.ends_with(b"/") {
        path.pop();
    }
    Some(match forms::is_path(&path) {
        true if path.len() <= SHOWN => format!("{reason}: write {}", quoted(&path)),
        true => reason.to_string(),
        false => format!("{reason}; it also {}", path_fault(&path)),
    })
}

/// Why a word is no path.
fn path_fault(word: &[u8]) -> String {
    let Some((b'/', rest)) = word.split_first() else {
        return match word {
            [] => "is empty".to_string(),
            [b' ' | b'\t', ..] => "begins with a blank".to_string(),
            _ => "does not begin with `/`".to_string(),
        };
    };
    if let Some(&byte) = rest.iter().find(|byte| !byte.is_ascii_graphic()) {
        return format!("has {}, which no path has", byte_name(byte));
    }
    let components: Vec<&[u8]> = rest.split(|&byte| byte == b'/').collect();
    for component in &components {
        match *component {
            [] if word.ends_with(b"/") => return "ends in `/`".to_string(),
            [] => return "has two `/` in a row".to_string(),
            b"." | b".." => return format!("has a component `{}`", quoted(component)),
            _ if component.len() > limits::NAME => {
                let length = component.len();
                return format!("has a component of {length} bytes, over {}", limits::NAME);
            }
            _ => {}
        }
    }
    match components.len() {
        count if count > limits::COMPONENTS => {
            format!("has {count} components, over {}", limits::COMPONENTS)
        }
        _ => format!("has {} bytes, over {}", word.len(), limits::PATH),
    }
}

fn byte_name(byte: u8) -> String {
    match byte {
        b' ' => "a blank".to_string(),
        b'\t' => "a tab".to_string(),
        b'\r' => "a CR".to_string(),
        0 => "a NUL".to_string(),
        _ => format!("the byte {byte:02X}"),
    }
}

/// The lines of a list as a table, and which of them the linker will refuse.
pub fn text(lines: &[Line]) -> String {
    if lines.is_empty() {
        return "the list has no remapping\n".to_string();
    }
    let mut rows = vec![["line", "context", "name", "target"].map(str::to_string)];
    rows.extend(lines.iter().map(|line| {
        [
            line.number.to_string(),
            quoted(&line.context),
            quoted(&line.name),
            quoted(&line.target),
        ]
    }));
    let width = |column: usize| rows.iter().map(|row| row[column].len()).max();
    let width = |column: usize| width(column).unwrap_or_default().min(CELL);
    let (number, context, name) = (width(0), width(1), width(2));
    let mut out = String::new();
    for row in &rows {
        out += &format!(
            "{:>number$}  {:context$}  {:name$}  {}\n",
            row[0], row[1], row[2], row[3]
        );
    }
    let faults: Vec<(usize, u8, String)> = lines
        .iter()
        .enumerate()
        .filter_map(|(index, line)| {
            let (number, label) = line.fault(&lines[..index])?;
            Some((line.number, number, label))
        })
        .collect();
    if !faults.is_empty() {
        out += "\nnote: the linker refuses a bundle with these remappings\n";
    }
    for (line, number, label) in &faults {
        out += &format!("  line {line}: {number}, {label}\n");
    }
    if faults.iter().any(|&(_, number, _)| number != 13) {
        out += "  = help: `use` lines name a library by 1 to 32 letters, digits or `_`, with no digit first\n";
    }
    out
}

/// The same, an object a line.
pub fn json(lines: &[Line]) -> String {
    let object = |(index, line): (usize, &Line)| {
        let mut fields = vec![format!("\"line\":{}", line.number)];
        for (key, (field, _)) in ["context", "name", "target"].iter().zip(line.fields()) {
            let text = String::from_utf8_lossy(field);
            fields.push(format!("\"{key}\":{}", render::string(&text)));
        }
        if let Some((number, label)) = line.fault(&lines[..index]) {
            fields.push(format!("\"number\":{number}"));
            fields.push(format!("\"label\":{}", render::string(&label)));
        }
        format!("{{{}}}\n", fields.join(","))
    };
    lines.iter().enumerate().map(object).collect()
}
