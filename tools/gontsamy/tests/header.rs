//! include/gontsamy.h, this crate and the source of the proved exports say the same.

use std::collections::BTreeMap;
use std::path::PathBuf;

fn root() -> PathBuf {
    PathBuf::from(env!("CARGO_MANIFEST_DIR")).join("../..")
}

fn read(path: &str) -> String {
    std::fs::read_to_string(root().join(path)).unwrap()
}

/// The constants of the header, computed.
fn header() -> BTreeMap<String, usize> {
    let mut constants: BTreeMap<String, usize> = BTreeMap::new();
    for line in read("include/gontsamy.h").lines() {
        let Some(rest) = line.strip_prefix("#define GONTSAMY_") else {
            continue;
        };
        let Some((name, value)) = rest.split_once(' ') else {
            continue;
        };
        let value = value.split("/*").next().unwrap_or_default();
        let mut words = value.trim().trim_matches(['(', ')']).split(' ');
        let number = |word: Option<&str>| {
            let word = word.unwrap_or_default();
            match word.strip_prefix("GONTSAMY_") {
                Some(name) => constants[name],
                None => word.parse().unwrap_or_else(|_| panic!("{line}")),
            }
        };
        let mut total = number(words.next());
        while let Some(sign) = words.next() {
            let next = number(words.next());
            total = match sign {
                "+" => total + next,
                "*" => total * next,
                _ => panic!("{line}"),
            };
        }
        constants.insert(name.to_string(), total);
    }
    constants
}

/// The constants of a source file in Rust or Rattle, `pub const NAME: TYPE = VALUE;`, computed; `outside` are those of other files.
fn constants(text: &str, outside: &BTreeMap<String, usize>) -> BTreeMap<String, usize> {
    let mut constants: BTreeMap<String, usize> = BTreeMap::new();
    // One may be made from others that stand behind it.
    loop {
        let before = constants.len();
        for line in text.lines() {
            if let Some((name, total)) = constant(line.trim(), outside, &constants) {
                constants.insert(name, total);
            }
        }
        if constants.len() == before {
            return constants;
        }
    }
}

/// The constant of a line, where it is made from what is known.
fn constant(
    line: &str,
    outside: &BTreeMap<String, usize>,
    constants: &BTreeMap<String, usize>,
) -> Option<(String, usize)> {
    let rest = line
        .strip_prefix("pub const ")
        .or_else(|| line.strip_prefix("const "))?;
    let (name, _) = rest.split_once(':')?;
    let (_, value) = rest.split_once("= ")?;
    let value = value.trim_end_matches(';').replace('_', "");
    let known: BTreeMap<String, usize> = outside
        .iter()
        .chain(constants)
        .map(|(name, value)| (name.replace('_', ""), *value))
        .collect();
    let number = |word: &str| word.parse().ok().or_else(|| known.get(word).copied());
    let words: Vec<&str> = value.split(' ').collect();
    let total = match words.as_slice() {
        [one] => number(one),
        [one, "+", two] => number(one).zip(number(two)).map(|(a, b)| a + b),
        [one, "*", two] => number(one).zip(number(two)).map(|(a, b)| a * b),
        _ => None,
    };
    Some((name.to_string(), total?))
}

/// The constants of the proved crates by their paths, `bundle::limits::FILES`; a plain number each.
fn limits() -> BTreeMap<String, usize> {
    let mut limits = BTreeMap::new();
    // A constant by the path of the crate that passes it on, and by its own.
    let mut passed = Vec::new();
    for folder in std::fs::read_dir(root().join("crates")).unwrap() {
        let folder = folder.unwrap().path();
        let Ok(files) = std::fs::read_dir(folder.join("src")) else {
            continue;
        };
        let krate = folder.file_name().unwrap().to_str().unwrap().to_string();
        for file in files {
            let file = file.unwrap().path();
            let module = file.file_stem().unwrap().to_str().unwrap();
            let text = std::fs::read_to_string(&file).unwrap();
            for (at, word) in text.match_indices("pub use ") {
                let rest = &text[at + word.len()..];
                let path = rest.split(';').next().unwrap_or_default();
                let (head, names) = path.rsplit_once("::").unwrap_or(("", path));
                // One name, or several in braces.
                let (head, names) = path.split_once("::{").unwrap_or((head, names));
                for name in names.trim_end_matches('}').split(',').map(str::trim) {
                    if !name.is_empty() {
                        passed.push((format!("{krate}::{name}"), format!("{head}::{name}")));
                    }
                }
            }
            for (name, value) in constants(&text, &BTreeMap::new()) {
                let path = match module {
                    "lib" | "main" => format!("{krate}::{name}"),
                    _ => format!("{krate}::{module}::{name}"),
                };
                limits.insert(path, value);
            }
        }
    }
    for (path, own) in passed {
        if let Some(&value) = limits.get(&own) {
            limits.insert(path, value);
        }
    }
    limits
}

#[test]
fn layouts() {
    let header = header();
    let crate_constants = constants(&read("tools/gontsamy/src/layout.rs"), &BTreeMap::new());
    assert!(crate_constants.len() >= 25, "{crate_constants:?}");
    for (name, value) in &crate_constants {
        assert_eq!(header.get(name), Some(value), "{name}");
    }
    let exports = constants(&read("crates/host/src/lib.rt"), &limits());
    for name in [
        "FILES",
        "ENTRIES",
        "ANSWER_PLACE",
        "ANSWER_REPORT",
        "ANSWER_UNITS",
        "ANSWER_IMAGE",
        "ANSWER_ENTRIES",
        "ANSWER_FILES",
        "ANSWER_IDS",
        "ANSWER",
        "ROW",
        "ROWS",
        "UNITS",
        "IDS",
        "TREE_OPENED",
        "TREE_CELLS",
        "FOLDER",
    ] {
        assert_eq!(exports.get(name), header.get(name), "{name} of crates/host");
    }
}

#[test]
fn numbers() {
    let header = header();
    for meaning in gontsamy::MEANINGS {
        let name = meaning.word.to_uppercase().replace(' ', "_");
        assert_eq!(
            header.get(&name),
            Some(&usize::from(meaning.number)),
            "{name}"
        );
    }
}

/// Every function of the header is an export of the proved crate, with as many lent parts, and every export is in the header. A
/// function that the header defines itself calls one.
#[test]
fn exports() {
    let header = read("include/gontsamy.h");
    let source: String = std::fs::read_dir(root().join("crates/host/src"))
        .unwrap()
        .map(|file| std::fs::read_to_string(file.unwrap().path()).unwrap())
        .collect();
    let mut declared = Vec::new();
    for part in header.split("\nuint8_t gontsamy_").skip(1) {
        let name = part.split('(').next().unwrap_or_default();
        let arguments = part.split(')').next().unwrap_or_default();
        let export = source
            .split(&format!("pub extern \"C\" fn gontsamy_{name}"))
            .nth(1)
            .unwrap_or_else(|| panic!("gontsamy_{name} is no export"));
        let lent = export
            .split(')')
            .next()
            .unwrap_or_default()
            .matches('&')
            .count();
        assert_eq!(arguments.matches('*').count(), lent, "gontsamy_{name}");
        declared.push(name);
    }
    for part in source.split("pub extern \"C\" fn gontsamy_").skip(1) {
        let name = part.split(['(', '<']).next().unwrap_or_default();
        assert!(declared.contains(&name), "gontsamy_{name} is in no header");
    }
    assert_eq!(declared.len(), 15);
    for name in declared {
        let inline = format!("static inline uint8_t gontsamy_tree_{name}(");
        let Some(body) = header.split(&inline).nth(1) else {
            continue;
        };
        let called = format!("return gontsamy_{name}(tree->opened, tree->cells,");
        assert!(
            body.split('}').next().unwrap_or_default().contains(&called),
            "{name}"
        );
    }
    assert_eq!(header.matches("static inline").count(), 9);
}
