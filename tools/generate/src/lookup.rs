//! Steps 1 and 2 of a link over a bundle's lists.

use bundle_format::{forms, Bundle};

/// Whether `prefix` is a prefix of `path` by whole components.
pub fn is_prefix(prefix: &[u8], path: &[u8]) -> bool {
    prefix == b"/"
        || path.starts_with(prefix) && matches!(path.get(prefix.len()), None | Some(b'/'))
}

/// `path` with one more component.
pub fn join(path: &[u8], component: &[u8]) -> Vec<u8> {
    let mut joined = Vec::with_capacity(path.len() + component.len() + 6);
    if path != b"/" {
        joined.extend(path);
    }
    joined.push(b'/');
    joined.extend(component);
    joined
}

/// What a use's segments name.
#[derive(Clone, Debug, PartialEq, Eq)]
pub struct Found {
    pub path: Vec<u8>,
    /// The segments from here on are the module path.
    pub rest: usize,
}

pub struct Lookup<'a> {
    pub bundle: &'a Bundle,
    /// Package roots, longest first.
    roots: Vec<&'a [u8]>,
    /// Remappings, longest context first.
    remappings: Vec<(&'a [u8], &'a [u8], &'a [u8])>,
}

impl<'a> Lookup<'a> {
    pub fn new(bundle: &'a Bundle) -> Self {
        let mut remappings: Vec<_> = bundle
            .remappings
            .iter()
            .map(|r| (&r.context[..], &r.name[..], &r.target[..]))
            .collect();
        remappings.sort_by_key(|(context, ..)| std::cmp::Reverse(context.len()));
        let mut roots: Vec<&[u8]> = vec![&bundle.root];
        roots.extend(remappings.iter().map(|(.., target)| target));
        roots.sort_by_key(|root| std::cmp::Reverse(root.len()));
        Lookup {
            bundle,
            roots,
            remappings,
        }
    }

    fn is_folder(&self, path: &[u8]) -> bool {
        path == b"/" || self.bundle.folders.iter().any(|folder| folder == path)
    }

    pub fn file(&self, path: &[u8]) -> Option<usize> {
        self.bundle.files.iter().position(|file| file.path == path)
    }

    pub fn package_root(&self, path: &[u8]) -> Option<&'a [u8]> {
        self.roots
            .iter()
            .copied()
            .find(|root| is_prefix(root, path))
    }

    /// The first words that a use of `importer` may have, each with the folder it searches.
    pub fn words(&self, importer: &[u8]) -> Vec<(&'a [u8], &'a [u8])> {
        let mut words: Vec<(&[u8], &[u8])> = Vec::new();
        words.extend(
            self.package_root(importer)
                .map(|root| (&b"crate"[..], root)),
        );
        for &(context, name, target) in &self.remappings {
            if is_prefix(context, importer) && words.iter().all(|(word, _)| *word != name) {
                words.push((name, target));
            }
        }
        words
    }

    pub fn resolve(&self, importer: &[u8], segments: &[Vec<u8>]) -> Result<Found, u8> {
        let Some(word) = segments.first() else {
            return Err(20);
        };
        if word == b"crate" {
            let root = self.package_root(importer).ok_or(25)?;
            return match self.search(root, segments) {
                Some(found) => Ok(found),
                None if forms::parent(importer) == root => Ok(Found {
                    path: importer.to_vec(),
                    rest: 1,
                }),
                None => Err(23),
            };
        }
        let (.., target) = self
            .remappings
            .iter()
            .find(|(context, name, _)| is_prefix(context, importer) && name == word)
            .ok_or(21)?;
        let found = self.search(target, segments).ok_or(22)?;
        match (self.package_root(importer), self.package_root(&found.path)) {
            (Some(own), Some(other)) if own == other => Err(24),
            _ => Ok(found),
        }
    }

    /// Enters folders below `base` by the segments after the first, then names the file.
    fn search(&self, base: &[u8], segments: &[Vec<u8>]) -> Option<Found> {
        let mut path = base.to_vec();
        for (index, segment) in segments.iter().enumerate().skip(1) {
            path = join(&path, segment);
            if !self.is_folder(&path) {
                path.extend(b".simf");
                let listed = self.file(&path).is_some() || self.is_folder(&path);
                return listed.then_some(Found {
                    path,
                    rest: index + 1,
                });
            }
        }
        None
    }
}
