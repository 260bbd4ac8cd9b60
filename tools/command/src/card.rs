//! What is handed to the command: a bundle, its text form or a folder of source files, as a bundle with the place of each of its
//! fields in what the person wrote.

use std::collections::BTreeMap;
use std::io::Read;
use std::ops::Range;
use std::path::{Path, PathBuf};
use std::rc::Rc;

use bundle_format::{limits, Bundle, File, Item, Remapping};
use bundle_text::{pack_with_fields, show};
use source_items::{line_and_column, SourceBody, SourceItem};

use crate::list::Line;

/// A text that a person wrote, or the text form of a bundle.
#[derive(Clone, Debug)]
pub enum Text {
    /// Characters; a column counts them.
    Source(Rc<str>),
    /// A remapping list, of any bytes; a column counts them.
    List(Rc<[u8]>),
}

/// A range of a text.
#[derive(Clone, Debug)]
pub struct Location {
    pub name: Rc<str>,
    pub text: Text,
    pub start: usize,
    pub end: usize,
}

/// The line that an offset lies in, without its line feed.
pub fn line_at(text: &[u8], offset: usize) -> Range<usize> {
    let start = text[..offset].iter().rposition(|&byte| byte == b'\n');
    let end = text[offset..].iter().position(|&byte| byte == b'\n');
    start.map_or(0, |at| at + 1)..end.map_or(text.len(), |at| offset + at)
}

impl Location {
    /// Line and column, from 1.
    pub fn position(&self) -> (usize, usize) {
        match &self.text {
            Text::Source(text) => line_and_column(text, self.start),
            Text::List(bytes) => {
                let before = bytes[..self.start].iter();
                let line = before.filter(|&&byte| byte == b'\n').count() + 1;
                (line, self.start - line_at(bytes, self.start).start + 1)
            }
        }
    }
}

/// A bundle and where its fields come from.
pub struct Card {
    pub bytes: Vec<u8>,
    /// What was read of it, where 1 to 6 let it through.
    pub bundle: Option<Bundle>,
    places: BTreeMap<usize, Location>,
}

/// What is wrong with an input, before there is a bundle.
#[derive(Debug)]
pub struct InputError {
    pub message: String,
    pub location: Option<Location>,
}

impl InputError {
    pub fn new(message: impl Into<String>) -> Self {
        InputError {
            message: message.into(),
            location: None,
        }
    }
}

/// How a folder becomes a bundle.
#[derive(Clone, Debug, Default)]
pub struct PackOptions {
    /// The package root of the entry, as a path in the bundle.
    pub root: Option<String>,
    /// The entry, as a path in the bundle.
    pub entry: Option<String>,
    /// `context:name=target`.
    pub remappings: Vec<String>,
}

impl Card {
    /// The place of the field that begins at an offset of the bundle.
    pub fn at(&self, offset: usize) -> Option<&Location> {
        self.places.get(&offset)
    }

    /// Reads a file, a folder or, for `-`, standard input.
    pub fn load(input: &str, options: &PackOptions) -> Result<Card, InputError> {
        if input != "-" && Path::new(input).is_dir() {
            return Card::of_folder(Path::new(input), options);
        }
        let (name, bytes) = read(input)?;
        if is_text(&bytes) {
            Card::of_text(name, &bytes)
        } else {
            Ok(Card::of_bytes(name, bytes))
        }
    }

    /// The remappings of a list behind the bundle's own.
    pub fn add(&mut self, lines: &[Line]) -> Result<(), InputError> {
        let Some((count_at, end)) = remappings_of(&self.bytes) else {
            return Err(InputError::new(
                "no remapping can be added: this is no bundle, or it is cut off before its files",
            ));
        };
        let mut section = Vec::new();
        let mut places = Vec::new();
        for line in lines {
            for (field, location) in line.fields() {
                places.push((end + section.len(), location));
                section.push(field.len() as u8);
                section.extend(field);
            }
        }
        let count = u8::try_from(usize::from(self.bytes[count_at]) + lines.len())
            .map_err(|_| InputError::new("over 255 remappings"))?;
        let length = usize::from(u16::from_be_bytes([self.bytes[1], self.bytes[2]]));
        let length = u16::try_from(length + section.len())
            .map_err(|_| InputError::new("the bundle has over 65535 bytes"))?;
        self.bytes[1..3].copy_from_slice(&length.to_be_bytes());
        self.bytes[count_at] = count;
        let behind = self.places.split_off(&end);
        self.places.extend(places);
        for (offset, location) in behind {
            self.places.insert(offset + section.len(), location);
        }
        self.bytes.splice(end..end, section);
        self.bundle = Bundle::decode_form(&self.bytes).ok();
        Ok(())
    }

    pub fn of_text(name: &str, text: &[u8]) -> Result<Card, InputError> {
        let shown: Rc<str> = String::from_utf8_lossy(text).into();
        let name: Rc<str> = name.into();
        let packed = pack_with_fields(text).map_err(|error| InputError {
            location: Some(Location {
                name: name.clone(),
                start: offset_of(&shown, error.line, error.column),
                end: offset_of(&shown, error.line, error.column) + 1,
                text: Text::Source(shown.clone()),
            }),
            message: error.message,
        })?;
        let places = packed.fields.into_iter().map(|(offset, range)| {
            let location = Location {
                name: name.clone(),
                text: Text::Source(shown.clone()),
                start: range.start,
                end: range.end,
            };
            (offset, location)
        });
        Ok(Card {
            bundle: Bundle::decode_form(&packed.bytes).ok(),
            bytes: packed.bytes,
            places: places.collect(),
        })
    }

    /// A bundle that nobody wrote as text is shown as its text form.
    pub fn of_bytes(name: &str, bytes: Vec<u8>) -> Card {
        let bundle = Bundle::decode_form(&bytes).ok();
        let shown = bundle.as_ref().map(show);
        let places = shown.and_then(|text| Card::of_text(name, text.as_bytes()).ok());
        Card {
            bytes,
            bundle,
            places: places.map(|card| card.places).unwrap_or_default(),
        }
    }

    /// The `.simf` files and the folders below a folder, which is `/` of the bundle.
    pub fn of_folder(folder: &Path, options: &PackOptions) -> Result<Card, InputError> {
        let mut folders = Vec::new();
        let mut files = Vec::new();
        list(folder, "", &mut folders, &mut files)?;
        let entry = entry_of(&files, options)?;
        let place = files.iter().position(|(path, _)| *path == entry);
        let Some(place) = place else {
            return Err(InputError::new(format!(
                "{}: there is no file {entry}",
                folder.display()
            )));
        };
        files[..=place].rotate_right(1);

        let root = options
            .root
            .clone()
            .unwrap_or_else(|| parent(&entry).to_string());
        let mut bundle = Bundle {
            root: root.into_bytes(),
            folders: folders.into_iter().map(String::into_bytes).collect(),
            ..Bundle::default()
        };
        for remapping in &options.remappings {
            bundle.remappings.push(remapping_of(remapping)?);
        }
        let mut spans: Vec<Option<Location>> =
            vec![None; 1 + bundle.folders.len() + 3 * bundle.remappings.len()];
        for (path, on_disk) in files {
            let SourceFile { name, text, items } = items_of(&on_disk)?;
            spans.push(None);
            for item in &items {
                locate(item, &name, &text, &mut spans);
            }
            bundle.files.push(File {
                path: path.into_bytes(),
                items: items.iter().map(SourceItem::to_item).collect::<Vec<Item>>(),
                ..File::default()
            });
        }
        let (bytes, offsets) = bundle.encode_with_fields().map_err(InputError::new)?;
        let places = offsets
            .into_iter()
            .zip(spans)
            .filter_map(|(offset, location)| Some((offset, location?)));
        Ok(Card {
            bundle: Bundle::decode_form(&bytes).ok(),
            bytes,
            places: places.collect(),
        })
    }
}

/// The bytes of a file or, for `-`, of standard input, and the name to show for it.
pub fn read(input: &str) -> Result<(&str, Vec<u8>), InputError> {
    let mut bytes = Vec::new();
    let read = match input {
        "-" => std::io::stdin().read_to_end(&mut bytes),
        path => std::fs::File::open(path).and_then(|mut file| file.read_to_end(&mut bytes)),
    };
    read.map_err(|error| InputError::new(format!("{input}: {error}")))?;
    let name = if input == "-" { "<input>" } else { input };
    Ok((name, bytes))
}

/// Where the count of a bundle's remappings stands, and where they end.
fn remappings_of(bytes: &[u8]) -> Option<(usize, usize)> {
    let past = |at: usize| Some(at + 1 + usize::from(*bytes.get(at)?));
    let past_all = |at: usize, strings: usize| {
        let count = usize::from(*bytes.get(at)?) * strings;
        (0..count).try_fold(at + 1, |at, _| past(at))
    };
    let count_at = past_all(past(3)?, 1)?;
    let end = past_all(count_at, 3)?;
    (bytes[0] == limits::VERSION && end <= bytes.len()).then_some((count_at, end))
}

/// Whether the bytes are a text form: its first word is `bundle`.
fn is_text(bytes: &[u8]) -> bool {
    let Ok(text) = std::str::from_utf8(bytes) else {
        return false;
    };
    text.lines()
        .map(str::trim_start)
        .find(|line| !line.is_empty() && !line.starts_with('#'))
        .is_some_and(|line| line.starts_with("bundle"))
}

fn offset_of(text: &str, line: usize, column: usize) -> usize {
    let start: usize = text
        .split_inclusive('\n')
        .take(line - 1)
        .map(str::len)
        .sum();
    (start + column - 1).min(text.len())
}

fn parent(path: &str) -> &str {
    match path.rfind('/') {
        None | Some(0) => "/",
        Some(at) => &path[..at],
    }
}

/// Folders and `.simf` files below a folder in the order of their names; other files are passed over.
fn list(
    folder: &Path,
    path: &str,
    folders: &mut Vec<String>,
    files: &mut Vec<(String, PathBuf)>,
) -> Result<(), InputError> {
    let failed = |error: std::io::Error| InputError::new(format!("{}: {error}", folder.display()));
    let mut entries = std::fs::read_dir(folder)
        .and_then(|entries| entries.collect::<Result<Vec<_>, _>>())
        .map_err(failed)?;
    entries.sort_by_key(|entry| entry.file_name());
    for entry in entries {
        let name = entry.file_name();
        let Some(name) = name.to_str() else {
            return Err(InputError::new(format!(
                "{}: a name that is no text",
                entry.path().display()
            )));
        };
        if name.starts_with('.') {
            continue;
        }
        let path = format!("{path}/{name}");
        if entry.path().is_dir() {
            folders.push(path.clone());
            list(&entry.path(), &path, folders, files)?;
        } else if name.ends_with(".simf") {
            files.push((path, entry.path()));
        }
    }
    Ok(())
}

/// The entry: the one given, or the only `main.simf`.
fn entry_of(files: &[(String, PathBuf)], options: &PackOptions) -> Result<String, InputError> {
    if let Some(entry) = &options.entry {
        return Ok(entry.clone());
    }
    let mains: Vec<&String> = files
        .iter()
        .map(|(path, _)| path)
        .filter(|path| path.ends_with("/main.simf"))
        .collect();
    match mains.as_slice() {
        [main] => Ok(main.to_string()),
        [] => Err(InputError::new(
            "there is no main.simf: name the entry with --entry",
        )),
        _ => Err(InputError::new(
            "there are several files main.simf: name the entry with --entry",
        )),
    }
}

fn remapping_of(text: &str) -> Result<Remapping, InputError> {
    let (left, target) = text
        .split_once('=')
        .ok_or_else(|| InputError::new(format!("`{text}` is not `context:name=target`")))?;
    let (context, name) = left.split_once(':').unwrap_or(("/", left));
    Ok(Remapping {
        context: context.into(),
        name: name.into(),
        target: target.into(),
        ..Remapping::default()
    })
}

/// A source file as it was read.
struct SourceFile {
    name: Rc<str>,
    text: Rc<str>,
    items: Vec<SourceItem>,
}

fn items_of(file: &Path) -> Result<SourceFile, InputError> {
    let name: Rc<str> = file.display().to_string().into();
    let bytes = std::fs::read(file).map_err(|error| InputError::new(format!("{name}: {error}")))?;
    let text = String::from_utf8(bytes)
        .map_err(|_| InputError::new(format!("{name}: the file is no text")))?;
    let text: Rc<str> = text.into();
    let items = source_items::read(&text).map_err(|error| InputError {
        message: error.message,
        location: Some(Location {
            name: name.clone(),
            text: Text::Source(text.clone()),
            start: error.span.start,
            end: error.span.end,
        }),
    })?;
    Ok(SourceFile { name, text, items })
}

/// The places of an item's fields, in the bundle's order.
fn locate(item: &SourceItem, name: &Rc<str>, text: &Rc<str>, spans: &mut Vec<Option<Location>>) {
    let mut push = |span: source_items::Span| {
        spans.push(Some(Location {
            name: name.clone(),
            text: Text::Source(text.clone()),
            start: span.start,
            end: span.end,
        }));
    };
    push(item.span);
    match &item.body {
        SourceBody::TypeAlias(word) | SourceBody::Function(word) | SourceBody::Enum(word) => {
            push(word.span);
        }
        SourceBody::Use { segments, elements } => {
            for segment in segments {
                push(segment.span);
            }
            for element in elements {
                push(element.name.span);
                push(element.alias.as_ref().unwrap_or(&element.name).span);
            }
        }
        SourceBody::Module { name: word, items } => {
            push(word.span);
            for inner in items {
                locate(inner, name, text, spans);
            }
        }
    }
}
