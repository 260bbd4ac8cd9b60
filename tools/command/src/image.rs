//! An image as text.

use gontsamy::{Body, Items};

use crate::fields::quoted;

/// The items, as in the text form of a bundle.
pub fn text(items: Items) -> String {
    let mut out = String::new();
    write(items, 0, &mut out);
    out
}

fn write(items: Items, depth: usize, out: &mut String) {
    let indent = "    ".repeat(depth);
    for item in items {
        let visibility = if item.public { "pub " } else { "" };
        *out += &format!("{indent}{visibility}");
        match item.body {
            Body::TypeAlias(name) => *out += &format!("type {}\n", quoted(name)),
            Body::Function(name) => *out += &format!("fn {}\n", quoted(name)),
            Body::Enum(name) => *out += &format!("enum {}\n", quoted(name)),
            Body::Use(segments, elements) => {
                let path: String = segments.map(|segment| quoted(segment) + "::").collect();
                let elements: Vec<String> = elements
                    .map(|element| match element.alias {
                        Some(alias) => format!("{} as {}", quoted(element.name), quoted(alias)),
                        None => quoted(element.name),
                    })
                    .collect();
                *out += &format!("use {path}{{{}}}\n", elements.join(", "));
            }
            Body::Module(name, inner) => {
                *out += &format!("mod {} {{\n", quoted(name));
                write(inner, depth + 1, out);
                *out += &format!("{indent}}}\n");
            }
        }
    }
}
