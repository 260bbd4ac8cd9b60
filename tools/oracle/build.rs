//! Takes the original Rust from SIMPLICITYHL_SRC into the build, after comparing each file with
//! its checksum in original.sha256. Files that are used whole are copied byte for byte; a line
//! that declares a child module of ours, to reach private items, may follow their last byte. Of
//! two files only some items are used, each copied whole.
//!
//! Where the sources are missing or not those of the commit, the build goes on with
//! ORIGINAL_PROBLEM set and without the cfg `original`.

use std::path::{Path, PathBuf};
use std::{env, fs};

/// Relative to the repository.
const DEFAULT_SRC: &str = "../shared/docs/src";
const COMMIT: &str = "56e8f39e75";

/// Files used whole, each with the child module of ours that follows it, if any.
const WHOLE: [(&str, Option<&str>); 7] = [
    ("src/resolution.rs", Some("resolution.rs")),
    ("src/driver/mod.rs", Some("driver.rs")),
    ("src/driver/linearization.rs", None),
    ("src/driver/resolve_order.rs", Some("resolve_order.rs")),
    ("src/ast/scope/modules.rs", Some("modules.rs")),
    ("src/source.rs", Some("source.rs")),
    ("src/str.rs", None),
];

/// The first line of each item used, without what leads it (documentation, attributes).
const LEXER_ITEMS: [&str; 2] = [
    "pub const KEYWORDS: &[&str] = &[",
    "pub fn is_keyword(s: &str) -> bool {",
];
const PARSE_ITEMS: [&str; 35] = [
    "pub struct Program {",
    "impl Program {",
    "impl_eq_hash!(Program; items);",
    "pub enum Item {",
    "impl Item {",
    "pub enum Visibility {",
    "pub struct UseDecl {",
    "impl UseDecl {",
    "impl_eq_hash!(UseDecl; visibility, path, items, span);",
    "pub type AliasedSymbolName = (SymbolName, Option<SymbolName>);",
    "pub enum UseItems {",
    "pub struct Function {",
    "impl Function {",
    "impl_eq_hash!(Function; visibility, name, params, ret, body);",
    "pub struct FunctionParam {",
    "impl FunctionParam {",
    "impl_eq_hash!(FunctionParam; identifier, ty);",
    "pub struct TypeAlias {",
    "impl TypeAlias {",
    "impl_eq_hash!(TypeAlias; name, ty);",
    "pub struct EnumVariant {",
    "impl EnumVariant {",
    "impl_eq_hash!(EnumVariant; name, payload);",
    "pub struct EnumDeclaration {",
    "impl EnumDeclaration {",
    "impl_eq_hash!(EnumDeclaration; name, variants);",
    "impl AsRef<Span> for EnumDeclaration {",
    "pub struct Module {",
    "impl Module {",
    "impl<'a, A: AsRef<Span>> From<&'a A> for Span {",
    "impl AsRef<Span> for Program {",
    "impl AsRef<Span> for Function {",
    "impl AsRef<Span> for TypeAlias {",
    "impl AsRef<Span> for UseDecl {",
    "impl AsRef<Span> for Module {",
];

fn main() {
    let package = PathBuf::from(env::var_os("CARGO_MANIFEST_DIR").expect("set by cargo"));
    let out = PathBuf::from(env::var_os("OUT_DIR").expect("set by cargo"));
    let repository = package.join("../..");
    let src = match env::var_os("SIMPLICITYHL_SRC") {
        Some(folder) if !folder.is_empty() => repository.join(folder),
        _ => repository.join(DEFAULT_SRC),
    };

    println!("cargo:rerun-if-changed=build.rs");
    println!("cargo:rerun-if-changed=original.sha256");
    println!("cargo:rerun-if-env-changed=SIMPLICITYHL_SRC");
    println!("cargo:rustc-check-cfg=cfg(original)");
    // Features of the original, all off.
    println!("cargo:rustc-check-cfg=cfg(feature, values(\"arbitrary\", \"fmt\"))");

    match read_verified(&package, &src) {
        Ok(files) => {
            generate(&package, &out, &files);
            println!("cargo:rustc-cfg=original");
            println!("cargo:found=1");
        }
        Err(problem) => {
            println!(
                "cargo:rustc-env=ORIGINAL_PROBLEM={problem}; set SIMPLICITYHL_SRC to a checkout \
                 of BlockstreamResearch/SimplicityHL at commit {COMMIT} and build again"
            );
            // A file that is never there: the next build looks again, whatever the files' times.
            println!("cargo:rerun-if-changed={}", out.join("none").display());
        }
    }
}

/// A file's path below the source folder, and its text.
type Text = (String, String);

/// Every file of original.sha256, each with the checksum given there.
fn read_verified(package: &Path, src: &Path) -> Result<Vec<Text>, String> {
    let list = fs::read_to_string(package.join("original.sha256")).expect("original.sha256");
    let mut files = Vec::new();
    for line in list.lines() {
        let (checksum, name) = line.split_once("  ").expect("checksum, two spaces, path");
        let path = src.join(name);
        println!("cargo:rerun-if-changed={}", path.display());
        let bytes = fs::read(&path)
            .map_err(|_| format!("the original Rust is missing ({name} cannot be read)"))?;
        if sha256(&bytes) != checksum {
            return Err(format!("{name} is not the text of commit {COMMIT}"));
        }
        files.push((name.to_string(), String::from_utf8(bytes).expect("UTF-8")));
    }
    Ok(files)
}

fn text<'a>(files: &'a [Text], name: &str) -> &'a str {
    let file = files.iter().find(|(path, _)| path == name);
    &file.expect("every file used is in original.sha256").1
}

fn generate(package: &Path, out: &Path, files: &[Text]) {
    for (name, access) in WHOLE {
        let mut copy = text(files, name).to_string();
        if let Some(access) = access {
            let path = package.join("src/access").join(access);
            println!("cargo:rerun-if-changed={}", path.display());
            copy += &format!("\n{}", declare(&path, "pub(crate)", "access"));
        }
        let path = out.join(name);
        fs::create_dir_all(path.parent().expect("a file below a folder")).expect("OUT_DIR");
        fs::write(path, copy).expect("OUT_DIR");
    }

    // Declared under cfg(test) by src/driver/mod.rs, and not among the files.
    fs::write(out.join("src/driver/version_tests.rs"), "").expect("OUT_DIR");

    let roots: String = ["resolution.rs", "driver/mod.rs", "source.rs", "str.rs"]
        .into_iter()
        .map(|file| {
            let name = file.trim_end_matches("/mod.rs").trim_end_matches(".rs");
            declare(&out.join("src").join(file), "pub", name)
        })
        .collect();
    fs::write(out.join("roots.rs"), roots).expect("OUT_DIR");
    let modules = declare(
        &out.join("src/ast/scope/modules.rs"),
        "pub(super)",
        "modules",
    );
    fs::write(out.join("modules.rs"), modules).expect("OUT_DIR");

    let items = extract(text(files, "src/lexer.rs"), &LEXER_ITEMS);
    fs::write(out.join("lexer_items.rs"), items).expect("OUT_DIR");
    let items = extract(text(files, "src/parse/mod.rs"), &PARSE_ITEMS);
    fs::write(out.join("parse_items.rs"), items).expect("OUT_DIR");
}

/// A module declaration with the path of its file.
fn declare(path: &Path, visibility: &str, name: &str) -> String {
    format!(
        "#[path = {:?}]\n#[allow(dead_code)]\n{visibility} mod {name};\n",
        path.display().to_string()
    )
}

/// The items that start with the given lines, each with the documentation and attributes ahead
/// of it and up to the line that closes it.
fn extract(text: &str, heads: &[&str]) -> String {
    let lines: Vec<&str> = text.lines().collect();
    let mut out = String::new();
    for head in heads {
        let mut found = (0..lines.len()).filter(|&at| lines[at] == *head);
        let at = found.next().unwrap_or_else(|| panic!("no line {head:?}"));
        assert!(found.next().is_none(), "two lines {head:?}");

        let leads = |line: &str| line.starts_with("///") || line.starts_with("#[");
        let lead = lines[..at].iter().rev().take_while(|line| leads(line));
        let first = at - lead.count();
        let length = lines[at..]
            .iter()
            .position(|line| line.starts_with(['}', ']']) || (line.ends_with(';') && line == head))
            .unwrap_or_else(|| panic!("{head:?} is not closed"));
        for line in &lines[first..=at + length] {
            out += line;
            out.push('\n');
        }
        out.push('\n');
    }
    out
}

/// SHA-256 (FIPS 180-4), in lower-case hexadecimal.
fn sha256(bytes: &[u8]) -> String {
    let primes: Vec<u32> = (2..312u32)
        .filter(|n| (2..*n).all(|d| n % d != 0))
        .take(64)
        .collect();
    let round_words: Vec<u32> = primes
        .iter()
        .map(|p| fraction(f64::from(*p).cbrt()))
        .collect();
    let mut state: Vec<u32> = primes[..8]
        .iter()
        .map(|p| fraction(f64::from(*p).sqrt()))
        .collect();

    let mut message = bytes.to_vec();
    message.push(0x80);
    while message.len() % 64 != 56 {
        message.push(0);
    }
    message.extend((bytes.len() as u64 * 8).to_be_bytes());

    for block in message.chunks(64) {
        let mut w: Vec<u32> = block
            .chunks(4)
            .map(|word| u32::from_be_bytes([word[0], word[1], word[2], word[3]]))
            .collect();
        for i in 16..64 {
            let (a, b) = (w[i - 15], w[i - 2]);
            let s0 = a.rotate_right(7) ^ a.rotate_right(18) ^ (a >> 3);
            let s1 = b.rotate_right(17) ^ b.rotate_right(19) ^ (b >> 10);
            w.push(
                w[i - 16]
                    .wrapping_add(s0)
                    .wrapping_add(w[i - 7])
                    .wrapping_add(s1),
            );
        }
        let mut v = state.clone();
        for i in 0..64 {
            let s1 = v[4].rotate_right(6) ^ v[4].rotate_right(11) ^ v[4].rotate_right(25);
            let choice = (v[4] & v[5]) ^ (!v[4] & v[6]);
            let t1 = [s1, choice, round_words[i], w[i]]
                .into_iter()
                .fold(v[7], u32::wrapping_add);
            let s0 = v[0].rotate_right(2) ^ v[0].rotate_right(13) ^ v[0].rotate_right(22);
            let majority = (v[0] & v[1]) ^ (v[0] & v[2]) ^ (v[1] & v[2]);
            v.rotate_right(1);
            v[4] = v[4].wrapping_add(t1);
            v[0] = t1.wrapping_add(s0).wrapping_add(majority);
        }
        for (old, new) in state.iter_mut().zip(v) {
            *old = old.wrapping_add(new);
        }
    }
    state.iter().map(|word| format!("{word:08x}")).collect()
}

/// The first 32 bits of the fractional part.
fn fraction(x: f64) -> u32 {
    ((x - x.floor()) * 4_294_967_296.0) as u32
}
