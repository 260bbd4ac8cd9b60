//! Parts of a bundle that was linked, found again by their lengths. What is not there gives nothing.

fn after_string(bytes: &[u8], at: usize) -> Option<usize> {
    Some(at + 1 + usize::from(*bytes.get(at)?))
}

fn string(bytes: &[u8], at: usize) -> Option<&[u8]> {
    bytes.get(at + 1..after_string(bytes, at)?)
}

/// The path of the file of that place among the bundle's files.
pub(crate) fn file_path(bundle: &[u8], file: usize) -> Option<&[u8]> {
    let mut at = after_string(bundle, 3)?;
    for strings in [1, 3] {
        let count = usize::from(*bundle.get(at)?) * strings;
        at += 1;
        for _ in 0..count {
            at = after_string(bundle, at)?;
        }
    }
    if file >= usize::from(*bundle.get(at)?) {
        return None;
    }
    at += 1;
    for _ in 0..file {
        at = after_string(bundle, at)?;
        let length = [*bundle.get(at)?, *bundle.get(at + 1)?];
        at += 2 + usize::from(u16::from_be_bytes(length));
    }
    string(bundle, at)
}
