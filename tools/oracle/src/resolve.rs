//! `resolve_path_internal` called directly, for an importer and a use of a bundle.

use std::rc::Rc;

use bundle_format::forms::{is_identifier, is_path};
use bundle_format::{limits, Bundle, Refusal};

use crate::error::Span;
use crate::judge::{resolution_number, Judge};
use crate::parse::{use_decl, Visibility};
use crate::resolution::DependencyMap;

const TOO_MANY: u8 = 3;
const BAD_PATH: u8 = 4;
const BAD_NAME: u8 = 5;
const UNKNOWN_UNIT: u8 = 29;

/// The bundle of the calls, or why it is refused.
type Lent = Result<(Rc<Bundle>, DependencyMap), Refusal>;

pub struct Resolver {
    judge: Judge,
    lent: Option<Lent>,
}

/// A path of the bundle, and the segments left as module path.
type Resolved = (Vec<u8>, Vec<String>);

impl Resolver {
    pub fn new(judge: Judge) -> Resolver {
        Resolver { judge, lent: None }
    }

    /// The bundle of the calls that follow.
    pub fn lend(&mut self, bytes: &[u8]) -> Result<(), Refusal> {
        let lent = self.lent.insert(self.judge.unpack(bytes));
        lent.as_ref().map(|_| ()).map_err(|refusal| *refusal)
    }

    /// None where no bundle is lent.
    pub fn resolve(
        &self,
        importer: &[u8],
        segments: &[Vec<u8>],
    ) -> Option<Result<Resolved, Refusal>> {
        let (bundle, map) = match self.lent.as_ref()? {
            Ok(lent) => lent,
            Err(refusal) => return Some(Err(*refusal)),
        };
        let refuse = |number| Some(Err(Refusal { number, place: 0 }));
        if !is_path(importer) {
            return refuse(BAD_PATH);
        }
        if segments.len() > limits::SEGMENTS {
            return refuse(TOO_MANY);
        }
        if !segments.iter().all(|segment| is_identifier(segment)) {
            return refuse(BAD_NAME);
        }
        if !bundle.files.iter().any(|file| file.path == importer) {
            return refuse(UNKNOWN_UNIT);
        }
        let card = self.judge.card();
        let use_decl = use_decl(Visibility::Private, segments, &[], Span::new(0, 0..0));
        match map.resolve_path_internal(&card.canon(importer), &use_decl) {
            Ok(resolved) => {
                let path = card.listed(resolved.path.as_path()).to_vec();
                let mod_path = resolved
                    .mod_path
                    .iter()
                    .map(|name| name.as_str().to_string());
                Some(Ok((path, mod_path.collect())))
            }
            Err(diagnostic) => refuse(resolution_number(&diagnostic.error)),
        }
    }

    /// A line `bundle HEX`, answered `ok` or `no NUMBER PLACE`, or `use IMPORTER SEGMENT::..` with
    /// `-` for no segment, answered `ok PATH MODULE::..` with `-` for no module, or
    /// `no NUMBER PLACE`.
    pub fn answer(&mut self, line: &str) -> Option<String> {
        let words: Vec<&str> = line.split(' ').collect();
        match words[..] {
            ["bundle", bytes] => Some(match self.lend(&crate::from_hex(bytes)?) {
                Ok(()) => "ok".to_string(),
                Err(refusal) => refusal.to_string(),
            }),
            ["use", importer, path] => {
                let segments: Vec<Vec<u8>> = match path {
                    "-" => Vec::new(),
                    path => path.split("::").map(|segment| segment.into()).collect(),
                };
                Some(match self.resolve(importer.as_bytes(), &segments)? {
                    Ok((path, mod_path)) => {
                        let path = String::from_utf8_lossy(&path).into_owned();
                        let mod_path = match mod_path.is_empty() {
                            true => "-".to_string(),
                            false => mod_path.join("::"),
                        };
                        format!("ok {path} {mod_path}")
                    }
                    Err(refusal) => refusal.to_string(),
                })
            }
            _ => None,
        }
    }
}
