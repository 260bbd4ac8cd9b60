//! Remapping lists: lines `context:prefix=target`, read into remappings and printed. A place is an offset in the list.

use crate::encode::encode_remappings;
use crate::forms::is_path;
use crate::{limits, Remapping};

const TOO_MANY: u8 = 3;
const BAD_PATH: u8 = 4;
const LONG_NAME: u8 = 12;
const SMALL_BUFFER: u8 = 14;
const NO_TARGET: u8 = 52;

/// The remappings of a list, with their places in it, or the first number and its place.
pub fn read(list: &[u8]) -> Result<Vec<Remapping>, (u8, usize)> {
    let mut remappings = Vec::new();
    let mut at = 0;
    for line in list.split(|b| *b == b'\n') {
        if !line.is_empty() {
            if remappings.len() == limits::REMAPPINGS {
                return Err((TOO_MANY, at));
            }
            remappings.push(read_line(line, at)?);
        }
        at += line.len() + 1;
    }
    Ok(remappings)
}

/// The remapping of a line that stands at `at`: context, then target, then name are tested.
fn read_line(line: &[u8], at: usize) -> Result<Remapping, (u8, usize)> {
    let equals = line.iter().position(|b| *b == b'=');
    let equals = equals.ok_or((NO_TARGET, at))?;
    let (left, target_from) = (&line[..equals], equals + 1);
    let (context, name_from) = match left.iter().position(|b| *b == b':') {
        Some(colon) => (&left[..colon], colon + 1),
        None => (&b"/"[..], 0),
    };
    let name = without_slash(&left[name_from..]);
    let target = match &line[target_from..] {
        b"/" => b"/",
        target => without_slash(target),
    };

    if !is_path(context) {
        return Err((BAD_PATH, at));
    }
    if !is_path(target) {
        return Err((BAD_PATH, at + target_from));
    }
    if name.len() > limits::STRING {
        return Err((LONG_NAME, at + name_from));
    }
    Ok(Remapping {
        context: context.to_vec(),
        name: name.to_vec(),
        target: target.to_vec(),
        at,
        context_at: at,
        name_at: at + name_from,
        target_at: at + target_from,
    })
}

/// The bytes without one `/` at their end.
fn without_slash(bytes: &[u8]) -> &[u8] {
    bytes.strip_suffix(b"/").unwrap_or(bytes)
}

/// The remapping section of a bundle with these remappings. They fit its fields, as those of a list and of a bundle do.
pub fn section(remappings: &[Remapping]) -> Vec<u8> {
    let mut out = Vec::new();
    encode_remappings(remappings, &mut out).expect("remappings that fit their fields");
    out
}

/// The length of a list's section, where a buffer of `room` bytes holds it; or a number and its place.
pub fn answer(list: &[u8], room: usize) -> Result<usize, (u8, usize)> {
    let length = section(&read(list)?).len();
    if length > room {
        return Err((SMALL_BUFFER, 0));
    }
    Ok(length)
}

/// The line of a remapping, with its context and without a line feed. None where the line would be read as another remapping: its
/// context has a `:` or a `=`, or its name a `=` or a line feed.
pub fn line_of(remapping: &Remapping) -> Option<Vec<u8>> {
    let Remapping {
        context,
        name,
        target,
        ..
    } = remapping;
    if context.iter().any(|b| b":=".contains(b)) || name.iter().any(|b| b"=\n".contains(b)) {
        return None;
    }
    // The reader drops one `/`.
    let slash: &[u8] = if name.ends_with(b"/") { b"/" } else { b"" };
    Some([&context[..], b":", name, slash, b"=", target].concat())
}
