//! Numbers 1 to 8: header, then fields in byte order, then the paths among each other.

use std::collections::HashSet;

use crate::forms::{is_identifier, is_path, parent};
use crate::{limits, Body, Bundle, Element, File, Item, Refusal, Remapping};

const CUT: u8 = 1;
const WRONG_VERSION: u8 = 2;
const TOO_MANY: u8 = 3;
const BAD_PATH: u8 = 4;
const BAD_NAME: u8 = 5;
const BAD_KIND: u8 = 6;
const TWICE: u8 = 7;
const ORPHAN: u8 = 8;

fn refuse<T>(number: u8, place: usize) -> Result<T, Refusal> {
    Err(Refusal { number, place })
}

impl Bundle {
    /// The bundle in `bytes`, or the first of the numbers 1 to 8.
    pub fn decode(bytes: &[u8]) -> Result<Bundle, Refusal> {
        let bundle = Bundle::decode_form(bytes)?;
        bundle.check_paths()?;
        Ok(bundle)
    }

    /// The bundle in `bytes`, or the first of the numbers 1 to 6: its paths may be listed twice or have no parent.
    pub fn decode_form(bytes: &[u8]) -> Result<Bundle, Refusal> {
        Reader::new(bytes)?.bundle()
    }

    /// 7 and 8, path by path, folders then files.
    fn check_paths(&self) -> Result<(), Refusal> {
        let mut is_folder: HashSet<&[u8]> = HashSet::from([&b"/"[..]]);
        is_folder.extend(self.folders.iter().map(|path| &path[..]));

        let folders = self.folders.iter().zip(self.folder_at.iter().copied());
        let files = self.files.iter().map(|file| (&file.path, file.path_at));
        let mut seen: HashSet<&[u8]> = HashSet::from([&b"/"[..]]);
        for (path, at) in folders.chain(files) {
            if !seen.insert(path) {
                return refuse(TWICE, at);
            }
            if !is_folder.contains(parent(path)) {
                return refuse(ORPHAN, at);
            }
        }
        Ok(())
    }
}

/// A use by itself in the bundle's form, with up to so many segments, or the first number at its
/// place in `bytes`.
pub fn decode_use(bytes: &[u8], segments: usize) -> Result<Body, Refusal> {
    let mut reader = Reader {
        bytes,
        at: 0,
        items: 0,
        uses: 0,
    };
    let body = reader.use_body(segments, bytes.len())?;
    reader.nothing_left(bytes.len())?;
    Ok(body)
}

/// A position in the bundle and the counts that hold for the whole of it. Each container's end
/// is handed to what is read inside it.
struct Reader<'a> {
    bytes: &'a [u8],
    at: usize,
    items: usize,
    uses: usize,
}

impl<'a> Reader<'a> {
    fn new(bytes: &'a [u8]) -> Result<Self, Refusal> {
        if bytes.len() < limits::HEADER {
            return refuse(CUT, 0);
        }
        if bytes[0] != limits::VERSION {
            return refuse(WRONG_VERSION, 0);
        }
        let end = limits::HEADER + usize::from(u16::from_be_bytes([bytes[1], bytes[2]]));
        if end > bytes.len() {
            return refuse(CUT, 1);
        }
        if end < bytes.len() {
            return refuse(CUT, end);
        }
        Ok(Reader {
            bytes,
            at: limits::HEADER,
            items: 0,
            uses: 0,
        })
    }

    fn byte(&mut self, end: usize) -> Result<u8, Refusal> {
        if self.at >= end {
            return refuse(CUT, self.at);
        }
        self.at += 1;
        Ok(self.bytes[self.at - 1])
    }

    /// A count of one byte, with its place.
    fn count(&mut self, limit: usize, end: usize) -> Result<(usize, usize), Refusal> {
        let at = self.at;
        let count = usize::from(self.byte(end)?);
        if count > limit {
            return refuse(TOO_MANY, at);
        }
        Ok((count, at))
    }

    /// A 2-byte length; the end of what it counts.
    fn length(&mut self, end: usize) -> Result<usize, Refusal> {
        let at = self.at;
        if at + 2 > end {
            return refuse(CUT, at);
        }
        let length = usize::from(u16::from_be_bytes([self.bytes[at], self.bytes[at + 1]]));
        self.at = at + 2;
        if self.at + length > end {
            return refuse(CUT, at);
        }
        Ok(self.at + length)
    }

    /// A string, with its place.
    fn string(&mut self, end: usize) -> Result<(Vec<u8>, usize), Refusal> {
        let at = self.at;
        let length = usize::from(self.byte(end)?);
        if self.at + length > end {
            return refuse(CUT, at);
        }
        self.at += length;
        Ok((self.bytes[at + 1..self.at].to_vec(), at))
    }

    fn path(&mut self, end: usize) -> Result<(Vec<u8>, usize), Refusal> {
        let (path, at) = self.string(end)?;
        if !is_path(&path) {
            return refuse(BAD_PATH, at);
        }
        Ok((path, at))
    }

    fn identifier(&mut self, end: usize) -> Result<Vec<u8>, Refusal> {
        let (name, at) = self.string(end)?;
        if !is_identifier(&name) {
            return refuse(BAD_NAME, at);
        }
        Ok(name)
    }

    fn bundle(mut self) -> Result<Bundle, Refusal> {
        let end = self.bytes.len();
        let mut bundle = Bundle::default();
        (bundle.root, bundle.root_at) = self.path(end)?;

        for _ in 0..self.count(limits::FOLDERS, end)?.0 {
            let (path, at) = self.path(end)?;
            bundle.folders.push(path);
            bundle.folder_at.push(at);
        }

        for _ in 0..self.count(limits::REMAPPINGS, end)?.0 {
            let (context, context_at) = self.path(end)?;
            let (name, name_at) = self.string(end)?;
            let (target, target_at) = self.path(end)?;
            bundle.remappings.push(Remapping {
                context,
                name,
                target,
                at: context_at,
                context_at,
                name_at,
                target_at,
            });
        }

        let (files, at) = self.count(limits::FILES, end)?;
        if files == 0 {
            return refuse(TOO_MANY, at);
        }
        for _ in 0..files {
            let (path, path_at) = self.path(end)?;
            let items_end = self.length(end)?;
            let items = self.items(items_end, 0)?;
            bundle.files.push(File {
                path,
                path_at,
                items,
            });
        }

        self.nothing_left(end)?;
        Ok(bundle)
    }

    fn nothing_left(&self, end: usize) -> Result<(), Refusal> {
        if self.at < end {
            return refuse(CUT, self.at);
        }
        Ok(())
    }

    /// The items up to `end`, below `depth` inline modules.
    fn items(&mut self, end: usize, depth: usize) -> Result<Vec<Item>, Refusal> {
        let mut items = Vec::new();
        while self.at < end {
            items.push(self.item(end, depth)?);
        }
        Ok(items)
    }

    fn item(&mut self, end: usize, depth: usize) -> Result<Item, Refusal> {
        let mark = self.at;
        let end = self.length(end)?;

        let kind_at = self.at;
        let kind = self.byte(end)?;
        if !(1..=6).contains(&kind) {
            return refuse(BAD_KIND, kind_at);
        }
        let visibility_at = self.at;
        let visibility = self.byte(end)?;
        if visibility > 1 {
            return refuse(BAD_KIND, visibility_at);
        }

        self.items += 1;
        self.uses += usize::from(kind == 3);
        let depth = depth + usize::from(kind == 5);
        if self.items > limits::ITEMS || self.uses > limits::USES || depth > limits::DEPTH {
            return refuse(TOO_MANY, mark);
        }

        let body = match kind {
            1 => Body::TypeAlias(self.identifier(end)?),
            2 => Body::Function(self.identifier(end)?),
            3 => self.use_body(limits::SEGMENTS, end)?,
            4 => Body::Enum(self.identifier(end)?),
            5 => Body::Module {
                name: self.identifier(end)?,
                items: self.items(end, depth)?,
            },
            _ => Body::Ignored,
        };
        self.nothing_left(end)?;
        Ok(Item {
            mark,
            public: visibility == 1,
            body,
        })
    }

    fn use_body(&mut self, limit: usize, end: usize) -> Result<Body, Refusal> {
        let mut segments = Vec::new();
        for _ in 0..self.count(limit, end)?.0 {
            segments.push(self.identifier(end)?);
        }
        let mut elements = Vec::new();
        for _ in 0..self.count(limits::ELEMENTS, end)?.0 {
            let name = self.identifier(end)?;
            let (alias, at) = self.string(end)?;
            if !alias.is_empty() && !is_identifier(&alias) {
                return refuse(BAD_NAME, at);
            }
            let alias = (!alias.is_empty()).then_some(alias);
            elements.push(Element { name, alias });
        }
        Ok(Body::Use { segments, elements })
    }
}
