//! `explain`: what a number means, with an example that the tests link.

use gontsamy::layout::{ANSWER, ANSWER_PLACE, BUNDLE, ENTRIES, REMAPPINGS, REPORT, ROWS};
use gontsamy::{exports, link, Buffers, BuildError, Builder, Number, Refusal};

/// How a number comes about.
pub enum Example {
    /// A bundle in text form, and the place told.
    Text(&'static str, usize),
    /// A bundle's bytes in hexadecimal, and the place told.
    Bytes(&'static str, usize),
    /// A remapping list, and the place told.
    List(&'static str, usize),
    /// No small bundle tells it: what does, in words, and as a function that gives the number and the place told.
    Call(&'static str, fn() -> (u8, usize)),
}

/// The entry, directly in the root, with this text among its items.
macro_rules! main_with {
    ($items:literal) => {
        concat!(
            "bundle 1\nroot /r\nfolder /r\nfile /r/main.simf {\n    fn main\n",
            $items,
            "}\n"
        )
    };
    ($items:literal, $other:literal) => {
        concat!(
            "bundle 1\nroot /r\nfolder /r\nfile /r/main.simf {\n    fn main\n",
            $items,
            "}\nfile /r/a.simf {\n",
            $other,
            "}\n"
        )
    };
}

/// A bundle with these parts.
fn built(parts: impl FnOnce(&mut Builder) -> Result<(), BuildError>) -> Vec<u8> {
    let mut bytes = vec![0; BUNDLE];
    let bundle = Builder::new(&mut bytes, b"/r").and_then(|mut builder| {
        parts(&mut builder)?;
        builder.finish()
    });
    bundle.map_or_else(|_| Vec::new(), <[u8]>::to_vec)
}

/// The number and the place that a bundle is told first.
fn told(bundle: &[u8]) -> (u8, usize) {
    let mut buffers = Box::new(Buffers::new());
    match link(bundle, &mut buffers) {
        Ok(_) => (0, 0),
        Err(Refusal::At(number, place)) => (number.0, place),
        Err(Refusal::Report(mut records)) => records
            .next()
            .map_or((0, 0), |record| (record.number.0, record.place)),
    }
}

/// 14: the buffers of the crate hold every image, so that a shorter one is lent to the export.
fn short_image() -> (u8, usize) {
    let bundle = built(|builder| {
        builder.folder(b"/r")?;
        builder.file(b"/r/main.simf")?;
        builder.use_item(false, &[b"crate", b"a"], &[(b"f", None)])?;
        builder.function(false, b"main")?;
        builder.file(b"/r/a.simf")?;
        builder.function(true, b"f").map(drop)
    });
    let (mut report, mut image) = ([0; REPORT], [0; 61]);
    let (mut answer, mut rows) = ([0; ANSWER], vec![0; ROWS]);
    let number = exports::link(&bundle, &mut report, &mut image, &mut answer, &mut rows);
    (number, answer[ANSWER_PLACE])
}

/// 15: in the image each path of a library of one letter grows by `crate::unit_1`.
fn long_image() -> (u8, usize) {
    let name = [b'f'; 32];
    let aliases: Vec<String> = (0..960).map(|i| format!("a{i:031}")).collect();
    told(&built(|builder| {
        builder.folder(b"/r")?;
        builder.folder(b"/l")?;
        builder.remapping(b"/r", b"l", b"/l")?;
        builder.file(b"/r/main.simf")?;
        builder.function(false, b"main")?;
        for part in aliases.chunks(32) {
            let elements: Vec<(&[u8], Option<&[u8]>)> = part
                .iter()
                .map(|alias| (&name[..], Some(alias.as_bytes())))
                .collect();
            builder.use_item(false, &[b"l", b"a"], &elements)?;
        }
        for _ in 0..150 {
            builder.use_item(false, &[b"l", b"a"], &[])?;
        }
        builder.file(b"/l/a.simf")?;
        builder.function(true, &name).map(drop)
    }))
}

/// 29: the bundle lists one file, and another imports.
fn unlisted_importer() -> (u8, usize) {
    let bundle = built(|builder| {
        builder.folder(b"/r")?;
        builder.file(b"/r/m.simf")
    });
    let resolved = gontsamy::resolve(&bundle, b"/r/a.simf", b"\x02\x05crate\x01b");
    resolved.map_or_else(|(number, place)| (number.0, place), |_| (0, 0))
}

/// 40: no use of a linked bundle lacks the word, since its path was rewritten.
fn use_of_no_crate() -> (u8, usize) {
    let mut tree = Box::new(gontsamy::Tree::new());
    let told = tree.resolve_use(b"\x02\x03lib\x01a\x01\x01f\x00", false);
    (told.map_or_else(|number| number.0, |()| 0), 0)
}

/// 50: a bundle's modules are closed where they end.
fn exit_at_the_root() -> (u8, usize) {
    let mut tree = Box::new(gontsamy::Tree::new());
    (tree.exit().map_or_else(|number| number.0, |()| 0), 0)
}

/// 51: 1,024 functions and their unit are 1,025 entries.
fn full_tree() -> (u8, usize) {
    told(&built(|builder| {
        builder.folder(b"/r")?;
        builder.file(b"/r/main.simf")?;
        builder.function(false, b"main")?;
        for i in 1..ENTRIES {
            builder.function(false, format!("f{i}").as_bytes())?;
        }
        Ok(())
    }))
}

/// The number and the place that a remapping list is told, with a buffer of this length.
fn list_told(list: &[u8], length: usize) -> (u8, usize) {
    match gontsamy::remappings(list, &mut vec![0; length]) {
        Ok(_) => (0, 0),
        Err(refusal) => (refusal.number.0, refusal.place),
    }
}

/// 3: a line more than a bundle has remappings.
fn long_list() -> (u8, usize) {
    list_told(&b"lib=/l\n".repeat(33), REMAPPINGS)
}

/// 12: a name that fits no string of a bundle.
fn long_name() -> (u8, usize) {
    list_told(&[&[b'n'; 256][..], b"=/lib"].concat(), REMAPPINGS)
}

/// 14: the section of this list has 10 bytes.
fn short_section() -> (u8, usize) {
    list_told(b"lib=/l", 9)
}

/// An example or two for each number.
pub const EXAMPLES: &[(u8, Example)] = &[
    (1, Example::Bytes("01000100ff", 4)),
    (2, Example::Bytes("020000", 0)),
    (3, Example::Text("bundle 1\nroot /\n", 7)),
    (
        3,
        Example::Call("a remapping list of 33 lines `lib=/l`", long_list),
    ),
    (4, Example::Text("bundle 1\nroot \"src\"\n", 3)),
    (4, Example::List("limits/=lib/limits/\n", 8)),
    (5, Example::Text(main_with!("    fn \"1st\"\n"), 40)),
    (6, Example::Bytes("01000e012f0000 01022f6d 0004 0002 0900", 15)),
    (
        7,
        Example::Text(
            "bundle 1\nroot /\nfolder /a\nfolder /a\nfile /m.simf {\n    fn main\n}\n",
            9,
        ),
    ),
    (
        8,
        Example::Text(
            "bundle 1\nroot /\nfolder /a/b\nfile /m.simf {\n    fn main\n}\n",
            6,
        ),
    ),
    (
        9,
        Example::Text("bundle 1\nroot /src\nfile /m.simf {\n    fn main\n}\n", 3),
    ),
    (
        10,
        Example::Text("bundle 1\nroot /m.simf\nfile /m.simf {\n    fn main\n}\n", 3),
    ),
    (
        11,
        Example::Text(
            "bundle 1\nroot /\nremap / crate = /\nfile /m.simf {\n    fn main\n}\n",
            9,
        ),
    ),
    (
        12,
        Example::Text(
            "bundle 1\nroot /\nremap / use = /\nfile /m.simf {\n    fn main\n}\n",
            9,
        ),
    ),
    (
        12,
        Example::Call(
            "a remapping list of one line with a name of 256 bytes",
            long_name,
        ),
    ),
    (
        13,
        Example::Text(
            "bundle 1\nroot /\nremap / lib = /\nremap / lib = /\nfile /m.simf {\n    fn main\n}\n",
            15,
        ),
    ),
    (
        14,
        Example::Call(
            "`gontsamy_link` of the README's printed case with an image buffer of 61 bytes, where the image has 62,",
            short_image,
        ),
    ),
    (
        14,
        Example::Call(
            "`gontsamy_remappings` of the list `lib=/l` with a buffer of 9 bytes, where the section has 10,",
            short_section,
        ),
    ),
    (
        15,
        Example::Call(
            "an entry of 65,000 bytes with 180 uses of a library of one letter, each of whose paths grows by `crate::unit_1`,",
            long_image,
        ),
    ),
    (20, Example::Text(main_with!("    use {f}\n"), 36)),
    (21, Example::Text(main_with!("    use limits::daily::{check}\n"), 36)),
    (
        22,
        Example::Text(
            "bundle 1\nroot /r\nfolder /r\nfolder /lib\nremap /r limits = /lib\nfile /r/main.simf {\n    fn main\n    use limits::daily::{check}\n}\n",
            56,
        ),
    ),
    (
        23,
        Example::Text(
            "bundle 1\nroot /r\nfolder /r\nfolder /r/s\nfile /r/s/main.simf {\n    fn main\n    use crate::daily::{check}\n}\n",
            43,
        ),
    ),
    (
        24,
        Example::Text(
            "bundle 1\nroot /r\nfolder /r\nremap /r own = /r\nfile /r/main.simf {\n    fn main\n    use own::a::{f}\n}\nfile /r/a.simf {\n    pub fn f\n}\n",
            46,
        ),
    ),
    (
        25,
        Example::Text(
            "bundle 1\nroot /r\nfolder /r\nfile /main.simf {\n    fn main\n    use crate::a::{f}\n}\nfile /r/a.simf {\n    pub fn f\n}\n",
            34,
        ),
    ),
    (
        26,
        Example::Text(
            main_with!("    use crate::a::{f}\n    pub fn g\n", "    pub fn f\n    use crate::main::{g}\n"),
            0,
        ),
    ),
    (
        27,
        Example::Text(
            "bundle 1\nroot /r\nfolder /r\nfile /r/main.simf {\n    fn start\n}\n",
            0,
        ),
    ),
    (
        28,
        Example::Text(main_with!("    use crate::a::{Side}\n", "    pub enum Side\n"), 68),
    ),
    (
        29,
        Example::Call(
            "`resolve` of `crate::b` for the importer `/r/a.simf` in a bundle whose one file is `/r/m.simf`",
            unlisted_importer,
        ),
    ),
    (
        40,
        Example::Call("`resolve_use` of `lib::a::{f}` on an empty tree", use_of_no_crate),
    ),
    (
        41,
        Example::Text(main_with!("    use crate::a::m::{f}\n", "    pub fn f\n"), 36),
    ),
    (
        42,
        Example::Text(main_with!("    use crate::a::m::{f}\n", "    mod m { pub fn f }\n"), 36),
    ),
    (
        43,
        Example::Text(main_with!("    use crate::a::{g}\n", "    pub fn f\n"), 36),
    ),
    (44, Example::Text(main_with!("    use crate::a::{f}\n", "    fn f\n"), 36)),
    (
        45,
        Example::Text(main_with!("    fn f\n    use crate::a::{f}\n", "    pub fn f\n"), 42),
    ),
    (
        46,
        Example::Text(main_with!("    use crate::a::{f as main}\n", "    pub fn f\n"), 36),
    ),
    (47, Example::Text(main_with!("    mod m { }\n    mod m { }\n"), 42)),
    (48, Example::Text(main_with!("    type T\n    enum T\n"), 42)),
    (49, Example::Text(main_with!("    fn f\n    fn f\n"), 42)),
    (50, Example::Call("`exit` on an empty tree", exit_at_the_root)),
    (
        51,
        Example::Call(
            "an entry with 1,024 functions, which with its unit are 1,025 entries,",
            full_tree,
        ),
    ),
    (52, Example::List("limits=/lib/limits\ndaily\n", 19)),
];

/// The examples of a number.
fn examples(number: u8) -> impl Iterator<Item = &'static Example> {
    let all = EXAMPLES.iter().filter(move |(of, _)| *of == number);
    all.map(|(_, example)| example)
}

/// The page of a number.
pub fn page(number: u8) -> Option<String> {
    let meaning = Number(number).meaning()?;
    let mut out = format!(
        "{number} {}\n\nGiven when {}.\nPlace: {}.\nWhat to do: {}.\n",
        meaning.word, meaning.when, meaning.place, meaning.help
    );
    for example in examples(number) {
        out += "\nExample:\n";
        match example {
            Example::Text(text, place) => {
                for line in text.lines() {
                    out += &format!("    {line}\n");
                }
                out += &format!("tells `no {number} {place}`\n");
            }
            Example::Bytes(hex, place) => {
                out += &format!("    the bytes {hex}\ntell `no {number} {place}`\n");
            }
            Example::List(list, place) => {
                for line in list.lines() {
                    out += &format!("    {line}\n");
                }
                out += &format!("as a remapping list tells `no {number} {place}`\n");
            }
            Example::Call(words, call) => {
                let (number, place) = call();
                out += &format!("    {words}\ntells `no {number} {place}`\n");
            }
        }
    }
    Some(out)
}

/// docs/NUMBERS.md: the page of every number.
pub fn pages() -> String {
    let mut out = String::from("# Numbers\n\nEvery number that a refusal tells. Made by `gontsamy explain --all`; `gontsamy explain N` shows one.\n\n| No. | Word | Given when | Place | What to do |\n|---|---|---|---|---|\n");
    for meaning in gontsamy::MEANINGS {
        out += &format!(
            "| {} | {} | {} | {} | {} |\n",
            meaning.number, meaning.word, meaning.when, meaning.place, meaning.help
        );
    }
    out += "\n## Examples\n";
    for meaning in gontsamy::MEANINGS {
        let number = meaning.number;
        for example in examples(number) {
            out += &format!("\n**{number} {}.** ", meaning.word);
            match example {
                Example::Text(text, place) => {
                    out += &format!("Tells `no {number} {place}`:\n\n```\n{text}```\n");
                }
                Example::Bytes(hex, place) => {
                    out += &format!("The bytes `{hex}` tell `no {number} {place}`.\n");
                }
                Example::List(list, place) => {
                    out += &format!(
                        "As a remapping list, tells `no {number} {place}`:\n\n```\n{list}```\n"
                    );
                }
                Example::Call(words, call) => {
                    let (number, place) = call();
                    out += &format!("{words} tells `no {number} {place}`.\n");
                }
            }
        }
    }
    out
}

#[cfg(test)]
mod tests {
    use super::*;
    use crate::card::Card;

    fn bytes_of(hex: &str) -> Vec<u8> {
        let digits: Vec<u8> = hex
            .chars()
            .filter_map(|c| c.to_digit(16))
            .map(|digit| digit as u8)
            .collect();
        digits
            .chunks(2)
            .map(|pair| pair[0] * 16 + pair[1])
            .collect()
    }

    #[test]
    fn every_number_has_its_example() {
        let mut wrong = Vec::new();
        for meaning in gontsamy::MEANINGS {
            let number = meaning.number;
            assert!(examples(number).next().is_some(), "{number} has no example");
            for example in examples(number) {
                let (answer, place) = match example {
                    Example::Text(text, place) => {
                        let card =
                            Card::of_text("example", text.as_bytes()).expect("the text is good");
                        (told(&card.bytes), *place)
                    }
                    Example::Bytes(hex, place) => (told(&bytes_of(hex)), *place),
                    Example::List(list, place) => (list_told(list.as_bytes(), REMAPPINGS), *place),
                    Example::Call(_, call) => {
                        let told = call();
                        (told, told.1)
                    }
                };
                if answer != (number, place) {
                    wrong.push(format!("{number}: {answer:?}, not {:?}", (number, place)));
                }
            }
        }
        assert!(wrong.is_empty(), "{wrong:#?}");
    }
}
