//! A remapping list read into the remapping section of a bundle.

use crate::{exports, Number, Strings};

/// A remapping: for files below the context, the library of that name is the folder of the target.
#[derive(Clone, Copy, Debug, PartialEq, Eq)]
pub struct Remapping<'a> {
    /// The folder whose files it applies to.
    pub context: &'a [u8],
    /// The library's name; any bytes, which a bundle's test refuses by 11 or 12 where they are no name.
    pub name: &'a [u8],
    /// The library's folder.
    pub target: &'a [u8],
}

/// The remapping section of a bundle: a count, then of each remapping its context, name and target as strings.
#[derive(Clone, Copy, Debug, PartialEq, Eq)]
pub struct RemappingSection<'a> {
    bytes: &'a [u8],
}

impl<'a> RemappingSection<'a> {
    /// Its bytes, as they stand in a bundle.
    pub fn bytes(&self) -> &'a [u8] {
        self.bytes
    }

    /// Its remappings: one for each line with content, in their order.
    pub fn remappings(&self) -> impl Iterator<Item = Remapping<'a>> + 'a {
        let (count, bytes) = match self.bytes.split_first() {
            Some((&count, bytes)) => (usize::from(count), bytes),
            None => (0, self.bytes),
        };
        let mut strings = Strings::new(3 * count, bytes);
        core::iter::from_fn(move || {
            Some(Remapping {
                context: strings.next()?,
                name: strings.next()?,
                target: strings.next()?,
            })
        })
    }
}

/// Why a remapping list is refused, and where.
#[derive(Clone, Copy, Debug, PartialEq, Eq)]
pub struct ListRefusal {
    /// 3, 4, 12, 14 or 52.
    pub number: Number,
    /// The offset in the list; 0 of 14, which is about no line.
    pub place: usize,
    /// The line of the place, from 1.
    pub line: usize,
    /// Its column, from 1, in bytes.
    pub column: usize,
}

impl ListRefusal {
    fn new(number: u8, place: usize, list: &[u8]) -> Self {
        let before = list.get(..place).unwrap_or(list);
        let start = before.iter().rposition(|&byte| byte == b'\n');
        ListRefusal {
            number: Number(number),
            place,
            line: before.iter().filter(|&&byte| byte == b'\n').count() + 1,
            column: before.len() - start.map_or(0, |at| at + 1) + 1,
        }
    }
}

impl core::fmt::Display for ListRefusal {
    fn fmt(&self, f: &mut core::fmt::Formatter<'_>) -> core::fmt::Result {
        let ListRefusal {
            number,
            line,
            column,
            ..
        } = self;
        match number.0 {
            14 => write!(f, "{number}"),
            _ => write!(f, "line {line}, column {column}: {number}"),
        }
    }
}

impl core::error::Error for ListRefusal {}

/// Reads a remapping list, lines `context:name=target` or `name=target`, into a lent buffer, of which [`layout::REMAPPINGS`] bytes
/// always suffice. A refused list leaves the buffer as it was.
///
/// ```
/// use gontsamy::{layout, remappings, Number, Remapping};
///
/// let mut buffer = [0; layout::REMAPPINGS];
/// let section = remappings(b"/src/pay:limits/=/lib/limits/\n", &mut buffer).unwrap();
/// let only = Remapping { context: b"/src/pay", name: b"limits", target: b"/lib/limits" };
/// assert!(section.remappings().eq([only]));
///
/// let refusal = remappings(b"daily=/lib/daily\nlimits=lib/limits\n", &mut buffer).unwrap_err();
/// assert_eq!((refusal.number, refusal.place), (Number(4), 24));
/// assert_eq!(refusal.to_string(), "line 2, column 8: 4 bad path");
/// ```
///
/// [`layout::REMAPPINGS`]: crate::layout::REMAPPINGS
pub fn remappings<'a>(
    list: &[u8],
    buffer: &'a mut [u8],
) -> Result<RemappingSection<'a>, ListRefusal> {
    let mut told = 0;
    match exports::remappings(list, buffer, &mut told) {
        0 => Ok(RemappingSection {
            bytes: buffer.get(..told).unwrap_or_default(),
        }),
        number => Err(ListRefusal::new(number, told, list)),
    }
}
