//! Diagnostics as text, in the manner of rustc's, and as JSON.

use std::ops::Range;

use gontsamy::Number;

use crate::card::{line_at, InputError, Location, Text};
use crate::cause::Finding;

/// A refusal with all that is said of it.
pub struct Diagnostic {
    pub number: Number,
    pub place: usize,
    pub finding: Finding,
}

/// A part of a list's line that has more bytes than these is shown by its ends.
pub const SHOWN: usize = 72;

/// Whether all bytes of a list's line print.
pub fn is_plain(line: &[u8]) -> bool {
    line.iter().all(|byte| (b' '..=b'~').contains(byte))
}

/// A part of a list's line: as it stands where the line is plain, else with escapes for what doesn't print.
fn drawn(part: &[u8], plain: bool) -> String {
    let escaped = |&byte: &u8| match byte {
        b' '..=b'~' if plain || byte != b'\\' => char::from(byte).to_string(),
        _ => byte.escape_ascii().to_string(),
    };
    let text = |bytes: &[u8]| bytes.iter().map(escaped).collect::<String>();
    if part.len() <= SHOWN {
        return text(part);
    }
    let (first, last) = (&part[..SHOWN * 2 / 3], &part[part.len() - SHOWN / 4..]);
    format!("{}...{}", text(first), text(last))
}

/// The line of a location as it is shown: what stands before the range, the range as far as it goes there, and what stands behind it.
fn shown(location: &Location) -> [String; 3] {
    let start = location.start;
    let parts = |line: Range<usize>, end: usize| {
        let end = end.clamp(start, line.end);
        [line.start..start, start..end, end..line.end]
    };
    match &location.text {
        Text::Source(text) => {
            let mut end = location.end.min(text.len());
            while !text.is_char_boundary(end) {
                end += 1;
            }
            let line = line_at(text.as_bytes(), start);
            parts(line, end).map(|part| text[part].replace('\t', " "))
        }
        Text::List(bytes) => {
            let line = line_at(bytes, start);
            let plain = is_plain(&bytes[line.clone()]);
            parts(line, location.end).map(|part| drawn(&bytes[part], plain))
        }
    }
}

/// The lines of a location with its range marked, led by `-->` or `:::`.
fn excerpt(location: &Location, arrow: &str, label: &str, mark: char) -> String {
    let (line, column) = location.position();
    let width = line.to_string().len();
    let blank = " ".repeat(width);
    let [before, marked, after] = shown(location);
    let (indent, count) = (before.chars().count(), marked.chars().count().max(1));
    let shown = before + &marked + &after;
    let label = if label.is_empty() {
        String::new()
    } else {
        format!(" {label}")
    };
    format!(
        "{blank}{arrow} {}:{line}:{column}\n{blank} |\n{line} | {}\n{blank} | {}{}{label}\n",
        location.name,
        shown.trim_end(),
        " ".repeat(indent),
        mark.to_string().repeat(count),
    )
}

impl Diagnostic {
    /// As text; `length` is that of the bundle.
    pub fn text(&self, length: usize) -> String {
        let meaning = self.number.meaning();
        let when = meaning.map_or("", |meaning| meaning.when);
        let mut out = format!("error[{}]: {}: {when}\n", self.number.0, self.number.word());
        let Finding {
            location,
            label,
            notes,
            ..
        } = &self.finding;
        match location {
            Some(location) => out += &excerpt(location, "-->", label, '^'),
            None => {
                if self.place != 0 {
                    out += &format!(" --> byte {} of {length} of the bundle\n", self.place);
                }
                if !label.is_empty() {
                    out += &format!("  = note: {label}\n");
                }
            }
        }
        for note in notes {
            match &note.location {
                Some(location) => out += &excerpt(location, ":::", &note.text, '-'),
                None => out += &format!("  = note: {}\n", note.text),
            }
        }
        if let Some(help) = self.help() {
            out += &format!("  = help: {help}\n");
        }
        out
    }

    fn help(&self) -> Option<&str> {
        let own = self.finding.help.as_deref();
        own.or(self.number.meaning().map(|meaning| meaning.help))
    }

    pub fn json(&self) -> String {
        let meaning = self.number.meaning();
        let mut fields = vec![
            format!("\"number\":{}", self.number.0),
            format!("\"word\":{}", string(self.number.word())),
            format!("\"place\":{}", self.place),
            format!("\"message\":{}", string(meaning.map_or("", |m| m.when))),
            format!("\"label\":{}", string(&self.finding.label)),
        ];
        fields.extend(self.finding.location.as_ref().map(location_json));
        let notes: Vec<String> = self
            .finding
            .notes
            .iter()
            .map(|note| {
                let place = note.location.as_ref().map(location_json);
                let place = place.map(|text| format!(",{text}")).unwrap_or_default();
                format!("{{\"text\":{}{place}}}", string(&note.text))
            })
            .collect();
        fields.push(format!("\"notes\":[{}]", notes.join(",")));
        fields.push(format!(
            "\"help\":{}",
            string(self.help().unwrap_or_default())
        ));
        format!("{{{}}}", fields.join(","))
    }
}

fn location_json(location: &Location) -> String {
    let (line, column) = location.position();
    format!(
        "\"file\":{},\"line\":{line},\"column\":{column},\"offset\":{},\"length\":{}",
        string(&location.name),
        location.start,
        location.end - location.start
    )
}

/// A text as a JSON string.
pub fn string(text: &str) -> String {
    let mut out = String::from('"');
    for c in text.chars() {
        match c {
            '"' => out += "\\\"",
            '\\' => out += "\\\\",
            '\n' => out += "\\n",
            c if (c as u32) < 0x20 => out += &format!("\\u{:04x}", c as u32),
            c => out.push(c),
        }
    }
    out.push('"');
    out
}

/// What is wrong with an input.
pub fn input_error(error: &InputError) -> String {
    let mut out = format!("error: {}\n", error.message);
    if let Some(location) = &error.location {
        out += &excerpt(location, "-->", "", '^');
    }
    out
}
