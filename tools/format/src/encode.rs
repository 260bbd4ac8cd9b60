//! Bundles, images and the items that both hold, written. Forms and limits are not tested here:
//! only what does not fit its field is an error. Stored marks and offsets are not looked at.

use crate::{limits, Body, Bundle, File, Item, Remapping};

/// Bytes, and where each field of them begins: every string and every item, in the order written.
#[derive(Default)]
struct Writer {
    bytes: Vec<u8>,
    fields: Vec<usize>,
}

impl Bundle {
    pub fn encode(&self) -> Result<Vec<u8>, String> {
        Ok(self.encode_with_fields()?.0)
    }

    /// The bundle, and the offset of every field: the root, the folders, each remapping's context, name and target, each file's
    /// path, then of each item its mark and its strings (an element's alias too where it is none).
    pub fn encode_with_fields(&self) -> Result<(Vec<u8>, Vec<usize>), String> {
        let out = versioned(|out| {
            string(&self.root, out)?;
            list("folders", &self.folders, out, |folder, out| {
                string(folder, out)
            })?;
            remappings(&self.remappings, out)?;
            list("files", &self.files, out, file)
        })?;
        Ok((out.bytes, out.fields))
    }
}

/// The image of the units, which are private modules.
pub fn image(units: &[Item]) -> Result<Vec<u8>, String> {
    Ok(versioned(|out| units.iter().try_for_each(|unit| item(unit, out)))?.bytes)
}

/// The count of the remappings, and the remappings.
pub fn encode_remappings(all: &[Remapping], out: &mut Vec<u8>) -> Result<(), String> {
    append(out, |out| remappings(all, out))
}

/// A file's path, the length of its items, and the items.
pub fn encode_file(one: &File, out: &mut Vec<u8>) -> Result<(), String> {
    append(out, |out| file(one, out))
}

/// An item in the form that bundle and image share.
pub fn encode_item(one: &Item, out: &mut Vec<u8>) -> Result<(), String> {
    append(out, |out| item(one, out))
}

fn append(
    bytes: &mut Vec<u8>,
    write: impl FnOnce(&mut Writer) -> Result<(), String>,
) -> Result<(), String> {
    let mut out = Writer::default();
    write(&mut out)?;
    bytes.extend(out.bytes);
    Ok(())
}

fn remappings(remappings: &[Remapping], out: &mut Writer) -> Result<(), String> {
    list("remappings", remappings, out, |remapping, out| {
        string(&remapping.context, out)?;
        string(&remapping.name, out)?;
        string(&remapping.target, out)
    })
}

fn file(file: &File, out: &mut Writer) -> Result<(), String> {
    string(&file.path, out)?;
    counted("a file's items", out, |out| {
        file.items.iter().try_for_each(|one| item(one, out))
    })
}

fn item(one: &Item, out: &mut Writer) -> Result<(), String> {
    out.fields.push(out.bytes.len());
    counted("an item", out, |out| {
        out.bytes.push(one.body.kind());
        out.bytes.push(u8::from(one.public));
        match &one.body {
            Body::TypeAlias(name) | Body::Function(name) | Body::Enum(name) => string(name, out),
            Body::Use { segments, elements } => {
                list("segments", segments, out, |segment, out| {
                    string(segment, out)
                })?;
                list("elements", elements, out, |element, out| {
                    string(&element.name, out)?;
                    string(element.alias.as_deref().unwrap_or_default(), out)
                })
            }
            Body::Module { name, items } => {
                string(name, out)?;
                items.iter().try_for_each(|inner| item(inner, out))
            }
            Body::Ignored => Ok(()),
        }
    })
}

/// The version, then what `write` writes, led by its length.
fn versioned(write: impl FnOnce(&mut Writer) -> Result<(), String>) -> Result<Writer, String> {
    let mut out = Writer::default();
    out.bytes.push(limits::VERSION);
    counted("everything after the header", &mut out, write)?;
    Ok(out)
}

/// What `write` writes, led by its 2-byte length.
fn counted(
    what: &str,
    out: &mut Writer,
    write: impl FnOnce(&mut Writer) -> Result<(), String>,
) -> Result<(), String> {
    let at = out.bytes.len();
    out.bytes.extend([0, 0]);
    write(out)?;
    let length = out.bytes.len() - at - 2;
    let field = u16::try_from(length)
        .map_err(|_| format!("{what} has {length} bytes, over {}", limits::LENGTH))?;
    out.bytes[at..at + 2].copy_from_slice(&field.to_be_bytes());
    Ok(())
}

/// The values, led by their 1-byte count.
fn list<T>(
    what: &str,
    values: &[T],
    out: &mut Writer,
    mut write: impl FnMut(&T, &mut Writer) -> Result<(), String>,
) -> Result<(), String> {
    let count = u8::try_from(values.len())
        .map_err(|_| format!("{} {what}, over {}", values.len(), u8::MAX))?;
    out.bytes.push(count);
    values.iter().try_for_each(|value| write(value, out))
}

fn string(bytes: &[u8], out: &mut Writer) -> Result<(), String> {
    out.fields.push(out.bytes.len());
    let length = u8::try_from(bytes.len())
        .map_err(|_| format!("a string of {} bytes, over {}", bytes.len(), u8::MAX))?;
    out.bytes.push(length);
    out.bytes.extend(bytes);
    Ok(())
}
