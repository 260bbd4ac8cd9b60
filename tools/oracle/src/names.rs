//! Questions on paths and names, answered one by one.

use std::ffi::OsStr;
use std::os::unix::ffi::OsStrExt;
use std::path::{Path, PathBuf};

use bundle_format::forms::{is_identifier, is_path};
use bundle_format::limits;

use crate::driver::DependencyGraph;
use crate::source::CanonPath;
use crate::{from_hex, lexer, resolution, to_hex};

/// A line is a word and its operands in hexadecimal; see docs/ORACLE.md.
pub fn answer(line: &str) -> Option<String> {
    let mut words = line.split(' ');
    let word = words.next()?;
    if word == "unit" {
        let id = words.next()?.parse().ok()?;
        let name = DependencyGraph::unit_name(id).as_str().to_string();
        return Some(name).filter(|_| words.next().is_none());
    }
    let operands: Option<Vec<Vec<u8>>> = words.map(from_hex).collect();
    let operands = operands?;
    let operands: Vec<&[u8]> = operands.iter().map(Vec::as_slice).collect();
    let truth = |truth: bool| u8::from(truth).to_string();
    Some(match (word, &operands[..]) {
        ("keyword", [name]) => truth(std::str::from_utf8(name).is_ok_and(lexer::is_keyword)),
        ("identifier", [name]) => truth(identifier(name)),
        ("path", [path]) => truth(is_path(path)),
        ("prefix", [path, prefix]) => {
            let canon = |path| CanonPath::unverified(as_path(path));
            truth(canon(path).starts_with(&canon(prefix)))
        }
        ("parent", [path]) => match as_path(path).parent() {
            Some(parent) => to_hex(parent.as_os_str().as_bytes()),
            None => "-".to_string(),
        },
        // As `resolve_crate_path` tests it.
        ("in", [path, folder]) => truth(as_path(path).parent() == Some(as_path(folder))),
        ("child", [path, folder, segment]) => {
            truth(joined(folder, segment).as_os_str().as_bytes() == *path)
        }
        // As `build_and_verify_path` names the file.
        ("simf", [path, folder, segment]) => {
            let mut file = joined(folder, segment);
            file.set_extension("simf");
            truth(file.as_os_str().as_bytes() == *path)
        }
        _ => return None,
    })
}

/// The original's form of a remapping name holds no keywords, and no limit: for the keywords, and
/// for what is longer or no UTF-8, the specification's form answers alone.
fn identifier(name: &[u8]) -> bool {
    let form = is_identifier(name);
    let short = Some(name).filter(|name| name.len() <= limits::NAME);
    let text = short.and_then(|name| std::str::from_utf8(name).ok());
    if let Some(text) = text.filter(|text| !lexer::is_keyword(text)) {
        let original = resolution::access::is_valid_dependency_identifier(text);
        assert_eq!(form, original, "the identifier form of {text:?}");
    }
    form
}

fn as_path(bytes: &[u8]) -> &Path {
    Path::new(OsStr::from_bytes(bytes))
}

fn joined(folder: &[u8], segment: &[u8]) -> PathBuf {
    as_path(folder).join(as_path(segment))
}
