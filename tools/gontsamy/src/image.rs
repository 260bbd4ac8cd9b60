//! The items of an image, read where they stand.

/// Items one after another; an image's are its units.
#[derive(Clone, Copy, Debug, PartialEq, Eq)]
pub struct Items<'a> {
    bytes: &'a [u8],
}

/// An item of an image.
#[derive(Clone, Copy, Debug, PartialEq, Eq)]
pub struct Item<'a> {
    /// Whether it is public.
    pub public: bool,
    /// What it is.
    pub body: Body<'a>,
}

/// What an item is.
#[derive(Clone, Copy, Debug, PartialEq, Eq)]
pub enum Body<'a> {
    /// A type alias of this name.
    TypeAlias(&'a [u8]),
    /// A function of this name.
    Function(&'a [u8]),
    /// A use: the segments of its path and its elements.
    Use(Strings<'a>, Elements<'a>),
    /// An enum of this name.
    Enum(&'a [u8]),
    /// A module of this name and its items.
    Module(&'a [u8], Items<'a>),
}

/// Strings one after another.
#[derive(Clone, Copy, Debug, PartialEq, Eq)]
pub struct Strings<'a> {
    left: usize,
    bytes: &'a [u8],
}

/// Elements of a use, one after another.
#[derive(Clone, Copy, Debug, PartialEq, Eq)]
pub struct Elements<'a> {
    strings: Strings<'a>,
}

/// An element of a use.
#[derive(Clone, Copy, Debug, PartialEq, Eq)]
pub struct Element<'a> {
    /// The name that it imports.
    pub name: &'a [u8],
    /// The name that it imports it under, where it is written.
    pub alias: Option<&'a [u8]>,
}

fn split_string(bytes: &[u8]) -> Option<(&[u8], &[u8])> {
    let (&length, rest) = bytes.split_first()?;
    rest.split_at_checked(usize::from(length))
}

impl<'a> Items<'a> {
    /// The items of an image: what follows its header.
    pub fn of_image(image: &'a [u8]) -> Self {
        Items {
            bytes: image.get(3..).unwrap_or_default(),
        }
    }
}

impl<'a> Iterator for Items<'a> {
    type Item = Item<'a>;

    fn next(&mut self) -> Option<Item<'a>> {
        let (&length, rest) = self.bytes.split_first_chunk::<2>()?;
        let (item, rest) = rest.split_at_checked(usize::from(u16::from_be_bytes(length)))?;
        self.bytes = rest;
        let (&[kind, visibility], fields) = item.split_first_chunk::<2>()?;
        let name = || split_string(fields);
        let body = match kind {
            1 => Body::TypeAlias(name()?.0),
            2 => Body::Function(name()?.0),
            3 => use_body(fields)?,
            4 => Body::Enum(name()?.0),
            5 => {
                let (name, bytes) = name()?;
                Body::Module(name, Items { bytes })
            }
            _ => return None,
        };
        Some(Item {
            public: visibility == 1,
            body,
        })
    }
}

fn use_body(fields: &[u8]) -> Option<Body<'_>> {
    let (&segments, bytes) = fields.split_first()?;
    let path = Strings {
        left: usize::from(segments),
        bytes,
    };
    let mut rest = path;
    for _ in 0..segments {
        rest.next()?;
    }
    let (&elements, bytes) = rest.bytes.split_first()?;
    let strings = Strings {
        left: 2 * usize::from(elements),
        bytes,
    };
    Some(Body::Use(path, Elements { strings }))
}

impl<'a> Strings<'a> {
    pub(crate) fn new(left: usize, bytes: &'a [u8]) -> Self {
        Strings { left, bytes }
    }
}

impl<'a> Iterator for Strings<'a> {
    type Item = &'a [u8];

    fn next(&mut self) -> Option<&'a [u8]> {
        self.left = self.left.checked_sub(1)?;
        let (string, rest) = split_string(self.bytes)?;
        self.bytes = rest;
        Some(string)
    }
}

impl<'a> Iterator for Elements<'a> {
    type Item = Element<'a>;

    fn next(&mut self) -> Option<Element<'a>> {
        let name = self.strings.next()?;
        let alias = self.strings.next()?;
        Some(Element {
            name,
            alias: (!alias.is_empty()).then_some(alias),
        })
    }
}
