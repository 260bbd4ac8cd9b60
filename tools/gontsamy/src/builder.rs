//! A bundle written from parsed items. Forms and limits are left to the linker's numbers; what has no encoding is an error.

use crate::layout::BUNDLE;
use crate::{remappings, ListRefusal};

/// Writes a bundle into a lent buffer, part after part in the bundle's order: the root, folders, remappings, files, each file with its
/// items. Each item's mark is told, so that a host can map an answer's place back to its own syntax tree. A call that ends in an error
/// leaves what was written before it as it was.
pub struct Builder<'a> {
    out: &'a mut [u8],
    state: State,
}

/// How far a bundle is written.
#[derive(Clone, Copy)]
struct State {
    at: usize,
    list: List,
    /// Where the count of the present list stands, and how many it has.
    count_at: usize,
    count: usize,
    /// Where the length of the present file's items stands, and how many there are, nested ones too.
    file_at: Option<usize>,
    items: usize,
    /// Where the lengths of the open modules stand.
    open: [usize; MODULES],
    depth: usize,
}

/// Modules that may be open at a time; the linker's limit is 8.
const MODULES: usize = 32;

/// The lists of a bundle in their order.
#[derive(Clone, Copy, PartialEq, PartialOrd)]
enum List {
    Folders,
    Remappings,
    Files,
}

/// A part of a bundle; each is counted from 0.
#[derive(Clone, Copy, Debug, PartialEq, Eq)]
pub enum Part {
    /// The package root of the entry.
    Root,
    /// A folder.
    Folder(usize),
    /// A remapping.
    Remapping(usize),
    /// A remapping list.
    RemappingList,
    /// A file: its path, or all of its items.
    File(usize),
    /// An item of a file, nested ones counted too.
    Item {
        /// The file.
        file: usize,
        /// The item among the file's.
        item: usize,
        /// What it is, in a word.
        kind: &'static str,
    },
    /// The bundle as a whole.
    Bundle,
}

/// Why a part can't be encoded.
#[derive(Clone, Copy, Debug, PartialEq, Eq)]
pub enum Reason {
    /// A string of over 255 bytes.
    LongString,
    /// A list of over 255 parts.
    LongList,
    /// Over 65,535 bytes in an item, a file's items or the whole.
    LongBundle,
    /// The lent buffer is full.
    SmallBuffer,
    /// A part that stands earlier in a bundle than those written, or an item outside a file.
    Order,
    /// A module that is closed and was not opened, or one left open, or over 32 open ones.
    Modules,
    /// A remapping list that is refused.
    List(ListRefusal),
}

/// What can't be encoded, and why.
///
/// ```
/// use gontsamy::{Builder, Part, Reason};
///
/// let mut bytes = [0; 512];
/// let mut builder = Builder::new(&mut bytes, b"/").unwrap();
/// builder.file(b"/main.simf").unwrap();
/// builder.function(false, b"main").unwrap();
/// let error = builder.function(false, &[b'f'; 256]).unwrap_err();
/// assert_eq!(error.reason, Reason::LongString);
/// assert_eq!(error.part, Part::Item { file: 0, item: 1, kind: "function" });
/// assert_eq!(error.to_string(), "item 1 of file 0, a function: a string of over 255 bytes");
/// ```
#[derive(Clone, Copy, Debug, PartialEq, Eq)]
pub struct BuildError {
    /// The part.
    pub part: Part,
    /// Why it can't.
    pub reason: Reason,
}

impl core::fmt::Display for Part {
    fn fmt(&self, f: &mut core::fmt::Formatter<'_>) -> core::fmt::Result {
        match self {
            Part::Root => f.write_str("the package root"),
            Part::Folder(index) => write!(f, "folder {index}"),
            Part::Remapping(index) => write!(f, "remapping {index}"),
            Part::RemappingList => f.write_str("the remapping list"),
            Part::File(index) => write!(f, "file {index}"),
            Part::Item { file, item, kind } => {
                let article = match kind.as_bytes().first() {
                    Some(b'a' | b'e' | b'i') => "an",
                    _ => "a",
                };
                write!(f, "item {item} of file {file}, {article} {kind}")
            }
            Part::Bundle => f.write_str("the bundle"),
        }
    }
}

impl core::fmt::Display for Reason {
    fn fmt(&self, f: &mut core::fmt::Formatter<'_>) -> core::fmt::Result {
        f.write_str(match self {
            Reason::LongString => "a string of over 255 bytes",
            Reason::LongList => "a list of over 255 parts",
            Reason::LongBundle => "over 65,535 bytes",
            Reason::SmallBuffer => "the buffer is full",
            Reason::Order => "it does not come here",
            Reason::Modules => "modules are not opened and closed in turn",
            Reason::List(refusal) => return write!(f, "{refusal}"),
        })
    }
}

impl core::fmt::Display for BuildError {
    fn fmt(&self, f: &mut core::fmt::Formatter<'_>) -> core::fmt::Result {
        write!(f, "{}: {}", self.part, self.reason)
    }
}

impl core::error::Error for BuildError {}

impl<'a> Builder<'a> {
    /// A bundle with this package root of its entry.
    pub fn new(out: &'a mut [u8], root: &[u8]) -> Result<Self, BuildError> {
        let mut builder = Builder {
            out,
            state: State {
                at: 0,
                list: List::Folders,
                count_at: 0,
                count: 0,
                file_at: None,
                items: 0,
                open: [0; MODULES],
                depth: 0,
            },
        };
        builder.write(Part::Root, |builder| {
            builder.bytes(&[1, 0, 0])?;
            builder.string(root)?;
            builder.begin(List::Folders)
        })?;
        Ok(builder)
    }

    /// A folder more.
    pub fn folder(&mut self, path: &[u8]) -> Result<(), BuildError> {
        self.write(Part::Folder(self.counted(List::Folders)), |builder| {
            builder.enter(List::Folders)?;
            builder.string(path)?;
            builder.count(1)
        })
    }

    /// A remapping more.
    pub fn remapping(
        &mut self,
        context: &[u8],
        name: &[u8],
        target: &[u8],
    ) -> Result<(), BuildError> {
        self.write(Part::Remapping(self.counted(List::Remappings)), |builder| {
            builder.enter(List::Remappings)?;
            builder.string(context)?;
            builder.string(name)?;
            builder.string(target)?;
            builder.count(1)
        })
    }

    /// The remappings of a list, lines `context:name=target` or `name=target`, in their order.
    ///
    /// ```
    /// use gontsamy::Builder;
    ///
    /// let mut bytes = [0; 64];
    /// let mut builder = Builder::new(&mut bytes, b"/").unwrap();
    /// builder.folder(b"/lib").unwrap();
    /// let error = builder.remapping_list(b"limits=lib/\n").unwrap_err();
    /// assert_eq!(error.to_string(), "the remapping list: line 1, column 8: 4 bad path");
    /// builder.remapping_list(b"limits=/lib/\n").unwrap();
    /// let bundle = builder.finish().unwrap();
    /// assert_eq!(bundle, b"\x01\x00\x18\x01/\x01\x04/lib\x01\x01/\x06limits\x04/lib\x00");
    /// ```
    pub fn remapping_list(&mut self, list: &[u8]) -> Result<(), BuildError> {
        self.write(Part::RemappingList, |builder| {
            builder.enter(List::Remappings)?;
            builder.section(list)
        })
    }

    /// A file more, whose items follow. The first is the entry.
    pub fn file(&mut self, path: &[u8]) -> Result<(), BuildError> {
        self.end_file()?;
        self.write(Part::File(self.counted(List::Files)), |builder| {
            builder.enter(List::Files)?;
            builder.string(path)?;
            builder.state.file_at = Some(builder.state.at);
            builder.state.items = 0;
            builder.bytes(&[0, 0])?;
            builder.count(1)
        })
    }

    /// A type alias; its mark.
    pub fn type_alias(&mut self, public: bool, name: &[u8]) -> Result<usize, BuildError> {
        self.named(1, "type alias", public, name)
    }

    /// A function; its mark.
    pub fn function(&mut self, public: bool, name: &[u8]) -> Result<usize, BuildError> {
        self.named(2, "function", public, name)
    }

    /// An enum; its mark.
    pub fn enumeration(&mut self, public: bool, name: &[u8]) -> Result<usize, BuildError> {
        self.named(4, "enum", public, name)
    }

    /// A use with the segments of its path and its elements, each with its alias where one is written; its mark.
    pub fn use_item(
        &mut self,
        public: bool,
        segments: &[&[u8]],
        elements: &[(&[u8], Option<&[u8]>)],
    ) -> Result<usize, BuildError> {
        self.item(3, "use", public, |builder, _| {
            builder.length_byte(segments.len())?;
            for segment in segments {
                builder.string(segment)?;
            }
            builder.length_byte(elements.len())?;
            for (name, alias) in elements {
                builder.string(name)?;
                builder.string(alias.unwrap_or_default())?;
            }
            Ok(())
        })
    }

    /// An item that the linker ignores; its mark.
    pub fn ignored(&mut self, public: bool) -> Result<usize, BuildError> {
        self.item(6, "ignored item", public, |_, _| Ok(()))
    }

    /// A module, whose items follow until it is closed; its mark.
    pub fn open_module(&mut self, public: bool, name: &[u8]) -> Result<usize, BuildError> {
        self.item(5, "module", public, |builder, mark| {
            builder.string(name)?;
            let State { open, depth, .. } = &mut builder.state;
            *open.get_mut(*depth).ok_or(Reason::Modules)? = mark;
            *depth += 1;
            Ok(())
        })
    }

    /// The end of the module that was opened last.
    pub fn close_module(&mut self) -> Result<(), BuildError> {
        self.write(Part::File(self.present()), |builder| {
            let depth = builder.state.depth.checked_sub(1).ok_or(Reason::Modules)?;
            builder.state.depth = depth;
            builder.set_length(builder.state.open[depth])
        })
    }

    /// The bundle.
    pub fn finish(mut self) -> Result<&'a [u8], BuildError> {
        self.end_file()?;
        self.write(Part::Bundle, |builder| {
            builder.enter(List::Files)?;
            builder.set_length(1)
        })?;
        Ok(&self.out[..self.state.at])
    }

    /// What a call writes; after an error the bundle is as it was before the call.
    fn write<T>(
        &mut self,
        part: Part,
        parts: impl FnOnce(&mut Self) -> Result<T, Reason>,
    ) -> Result<T, BuildError> {
        let before = self.state;
        parts(self).map_err(|reason| {
            self.state = before;
            BuildError { part, reason }
        })
    }

    /// How many of a list are written.
    fn counted(&self, list: List) -> usize {
        if self.state.list == list {
            self.state.count
        } else {
            0
        }
    }

    /// The present file.
    fn present(&self) -> usize {
        self.counted(List::Files).saturating_sub(1)
    }

    fn bytes(&mut self, bytes: &[u8]) -> Result<(), Reason> {
        let end = self.state.at + bytes.len();
        if end > BUNDLE {
            return Err(Reason::LongBundle);
        }
        self.out
            .get_mut(self.state.at..end)
            .ok_or(Reason::SmallBuffer)?
            .copy_from_slice(bytes);
        self.state.at = end;
        Ok(())
    }

    fn length_byte(&mut self, length: usize) -> Result<(), Reason> {
        let byte = u8::try_from(length).map_err(|_| Reason::LongList)?;
        self.bytes(&[byte])
    }

    fn string(&mut self, text: &[u8]) -> Result<(), Reason> {
        let byte = u8::try_from(text.len()).map_err(|_| Reason::LongString)?;
        self.bytes(&[byte])?;
        self.bytes(text)
    }

    /// The 2-byte length at a place, of what follows it.
    fn set_length(&mut self, at: usize) -> Result<(), Reason> {
        let length = u16::try_from(self.state.at - at - 2).map_err(|_| Reason::LongBundle)?;
        self.out[at..at + 2].copy_from_slice(&length.to_be_bytes());
        Ok(())
    }

    fn begin(&mut self, list: List) -> Result<(), Reason> {
        self.state.list = list;
        self.state.count_at = self.state.at;
        self.state.count = 0;
        self.bytes(&[0])
    }

    /// Goes on to a list; an earlier one is not taken.
    fn enter(&mut self, list: List) -> Result<(), Reason> {
        if list < self.state.list {
            return Err(Reason::Order);
        }
        while self.state.list != list {
            self.begin(match self.state.list {
                List::Folders => List::Remappings,
                _ => List::Files,
            })?;
        }
        Ok(())
    }

    /// So many more of the present list.
    fn count(&mut self, added: usize) -> Result<(), Reason> {
        let count = self.state.count + added;
        self.out[self.state.count_at] = u8::try_from(count).map_err(|_| Reason::LongList)?;
        self.state.count = count;
        Ok(())
    }

    /// The remappings of a list behind those written. The section is put one byte ahead of where its strings belong: its count stands
    /// in the last byte written, which then gets back what it held.
    fn section(&mut self, list: &[u8]) -> Result<(), Reason> {
        let start = self.state.at - 1;
        let end = self.out.len().min(BUNDLE);
        let held = self.out[start];
        let length = match remappings(list, &mut self.out[start..end]) {
            Ok(section) => section.bytes().len(),
            Err(refusal) if refusal.number.0 != 14 => return Err(Reason::List(refusal)),
            Err(_) if end < BUNDLE => return Err(Reason::SmallBuffer),
            Err(_) => return Err(Reason::LongBundle),
        };
        let added = core::mem::replace(&mut self.out[start], held);
        self.state.at = start + length;
        self.count(usize::from(added))
    }

    /// The length of the present file's items, where there is a file.
    fn end_file(&mut self) -> Result<(), BuildError> {
        self.write(Part::File(self.present()), |builder| {
            if builder.state.depth != 0 {
                return Err(Reason::Modules);
            }
            builder
                .state
                .file_at
                .map_or(Ok(()), |at| builder.set_length(at))
        })
    }

    /// An item of a kind, with what follows its visibility, which is told its mark; its mark.
    fn item(
        &mut self,
        code: u8,
        kind: &'static str,
        public: bool,
        fields: impl FnOnce(&mut Self, usize) -> Result<(), Reason>,
    ) -> Result<usize, BuildError> {
        let part = Part::Item {
            file: self.present(),
            item: self.state.items,
            kind,
        };
        self.write(part, |builder| {
            if builder.state.file_at.is_none() {
                return Err(Reason::Order);
            }
            let mark = builder.state.at;
            builder.bytes(&[0, 0, code, u8::from(public)])?;
            fields(builder, mark)?;
            builder.set_length(mark)?;
            builder.state.items += 1;
            Ok(mark)
        })
    }

    fn named(
        &mut self,
        code: u8,
        kind: &'static str,
        public: bool,
        name: &[u8],
    ) -> Result<usize, BuildError> {
        self.item(code, kind, public, |builder, _| builder.string(name))
    }
}
