//! A bundle into text, each item with its mark in a comment.

use bundle_format::forms::{is_identifier, is_path};
use bundle_format::{limits, Body, Bundle, Element, Item};

/// The column that a mark's comment is moved to where the line is shorter.
const COMMENT: usize = 40;

/// The text of a decoded bundle.
pub fn show(bundle: &Bundle) -> String {
    let mut out = format!("bundle {}\nroot {}\n", limits::VERSION, path(&bundle.root));
    for folder in &bundle.folders {
        out += &format!("folder {}\n", path(folder));
    }
    for remapping in &bundle.remappings {
        let (context, target) = (path(&remapping.context), path(&remapping.target));
        out += &format!("remap {context} {} = {target}\n", name(&remapping.name));
    }
    for file in &bundle.files {
        out += &format!("file {} {{\n", path(&file.path));
        items(&file.items, 1, &mut out);
        out += "}\n";
    }
    out
}

fn items(list: &[Item], depth: usize, out: &mut String) {
    for item in list {
        let indent = "    ".repeat(depth);
        let visibility = if item.public { "pub " } else { "" };
        let line = format!("{indent}{visibility}{}", head(&item.body));
        *out += &format!("{line:COMMENT$} # {}\n", item.mark);
        if let Body::Module { items: inner, .. } = &item.body {
            items(inner, depth + 1, out);
            *out += &format!("{indent}}}\n");
        }
    }
}

/// An item without its visibility, a module up to its brace.
fn head(body: &Body) -> String {
    match body {
        Body::TypeAlias(alias) => format!("type {}", name(alias)),
        Body::Function(function) => format!("fn {}", name(function)),
        Body::Use { segments, elements } => {
            let segments: String = segments
                .iter()
                .map(|segment| name(segment) + "::")
                .collect();
            let elements: Vec<String> = elements.iter().map(element).collect();
            format!("use {segments}{{{}}}", elements.join(", "))
        }
        Body::Enum(decl) => format!("enum {}", name(decl)),
        Body::Module { name: module, .. } => format!("mod {} {{", name(module)),
        Body::Ignored => "ignored".to_string(),
    }
}

fn element(element: &Element) -> String {
    match &element.alias {
        None => name(&element.name),
        Some(alias) => format!("{} as {}", name(&element.name), name(alias)),
    }
}

fn path(bytes: &[u8]) -> String {
    plain_or_quoted(bytes, is_path(bytes))
}

fn name(bytes: &[u8]) -> String {
    plain_or_quoted(bytes, is_identifier(bytes))
}

fn plain_or_quoted(bytes: &[u8], plain: bool) -> String {
    if plain {
        return bytes.iter().copied().map(char::from).collect();
    }
    let mut out = String::from('"');
    for &byte in bytes {
        match byte {
            b'"' | b'\\' => out.extend(['\\', char::from(byte)]),
            b' '..=b'~' => out.push(char::from(byte)),
            _ => out += &format!("\\x{byte:02X}"),
        }
    }
    out.push('"');
    out
}
