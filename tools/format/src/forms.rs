//! The forms of paths and names.

use crate::limits;

/// The reserved words of the language.
pub const KEYWORDS: [&[u8]; 14] = [
    b"pub", b"use", b"as", b"fn", b"let", b"type", b"mod", b"const", b"match", b"enum", b"crate",
    b"simc", b"true", b"false",
];

pub fn is_keyword(name: &[u8]) -> bool {
    KEYWORDS.contains(&name)
}

/// 1 to 32 ASCII letters, digits or `_`, no leading digit.
pub fn is_identifier(name: &[u8]) -> bool {
    (1..=limits::NAME).contains(&name.len())
        && !name[0].is_ascii_digit()
        && name.iter().all(|&b| b.is_ascii_alphanumeric() || b == b'_')
}

/// `/`, or components each led by `/`: 1 to 32 bytes from 21 to 7E hexadecimal, no `/`, not `.`
/// or `..`; at most 16, 255 bytes in all.
pub fn is_path(path: &[u8]) -> bool {
    if path == b"/" {
        return true;
    }
    if path.len() > limits::PATH || path.first() != Some(&b'/') {
        return false;
    }
    let mut count = 0;
    for component in path[1..].split(|&b| b == b'/') {
        count += 1;
        let good = (1..=limits::NAME).contains(&component.len())
            && component.iter().all(|b| (0x21..=0x7e).contains(b))
            && component != b"."
            && component != b"..";
        if !good {
            return false;
        }
    }
    count <= limits::COMPONENTS
}

/// The path without its last component; `/` for `/`.
pub fn parent(path: &[u8]) -> &[u8] {
    match path.iter().rposition(|&b| b == b'/') {
        None | Some(0) => b"/",
        Some(at) => &path[..at],
    }
}
