//! Numbers 9 to 13: per remapping context, target, name, then 13; then the root.

use std::collections::HashSet;

use crate::forms::{is_identifier, is_keyword};
use crate::{Bundle, Refusal};

const NOWHERE: u8 = 9;
const NO_FOLDER: u8 = 10;
const RESERVED: u8 = 11;
const ODD_NAME: u8 = 12;
const SAME_REMAPPING: u8 = 13;

impl Bundle {
    /// The first of the numbers 9 to 13, if there is one, of a bundle that passed 1 to 8.
    pub fn check(&self) -> Option<Refusal> {
        let mut seen: HashSet<(&[u8], &[u8])> = HashSet::new();
        for remapping in &self.remappings {
            let number = self
                .folder_fault(&remapping.context)
                .map(|number| (number, remapping.context_at))
                .or_else(|| {
                    self.folder_fault(&remapping.target)
                        .map(|number| (number, remapping.target_at))
                })
                .or_else(|| name_fault(&remapping.name).map(|number| (number, remapping.name_at)))
                .or_else(|| {
                    (!seen.insert((&remapping.context, &remapping.name)))
                        .then_some((SAME_REMAPPING, remapping.at))
                });
            if let Some((number, place)) = number {
                return Some(Refusal { number, place });
            }
        }
        self.folder_fault(&self.root).map(|number| Refusal {
            number,
            place: self.root_at,
        })
    }

    /// Why a root, context or target is not a folder.
    fn folder_fault(&self, path: &[u8]) -> Option<u8> {
        if path == b"/" || self.folders.iter().any(|folder| folder == path) {
            None
        } else if self.files.iter().any(|file| file.path == path) {
            Some(NO_FOLDER)
        } else {
            Some(NOWHERE)
        }
    }
}

/// Why a string is no remapping name.
fn name_fault(name: &[u8]) -> Option<u8> {
    if name == b"crate" {
        Some(RESERVED)
    } else if !is_identifier(name) || is_keyword(name) {
        Some(ODD_NAME)
    } else {
        None
    }
}
