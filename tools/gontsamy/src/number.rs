//! The numbers that a refusal tells, each with its word, when it is given, what its place is, and what to do.

/// A number that the linker refuses a bundle or a call by.
#[derive(Clone, Copy, Debug, PartialEq, Eq, PartialOrd, Ord, Hash)]
pub struct Number(pub u8);

/// What is said of a number.
#[derive(Clone, Copy, Debug, PartialEq, Eq)]
pub struct Meaning {
    /// The number.
    pub number: u8,
    /// Its name in one or two words.
    pub word: &'static str,
    /// When it is given.
    pub when: &'static str,
    /// What its place points at.
    pub place: &'static str,
    /// What to do.
    pub help: &'static str,
}

impl Number {
    /// What is said of it, of every number that the linker gives.
    pub fn meaning(self) -> Option<&'static Meaning> {
        MEANINGS.iter().find(|meaning| meaning.number == self.0)
    }

    /// Its word, or `unknown`.
    pub fn word(self) -> &'static str {
        self.meaning().map_or("unknown", |meaning| meaning.word)
    }
}

impl core::fmt::Display for Number {
    fn fmt(&self, f: &mut core::fmt::Formatter<'_>) -> core::fmt::Result {
        write!(f, "{} {}", self.0, self.word())
    }
}

const FIELD: &str = "the first byte of the faulty field";
const USE: &str = "the mark of the use; 0 in a resolution call";
const ITEM: &str = "the mark of the item; 0 outside a bundle";

const fn of(
    number: u8,
    word: &'static str,
    when: &'static str,
    place: &'static str,
    help: &'static str,
) -> Meaning {
    Meaning {
        number,
        word,
        when,
        place,
        help,
    }
}

/// Every number, in rising order.
pub const MEANINGS: &[Meaning] = &[
    of(
        1,
        "cut",
        "a length passes the end of what holds it, or bytes are left over",
        "the length, the end where a field is missing, or the first byte left over",
        "the bundle was cut off or is not one: pack it again",
    ),
    of(
        2,
        "version",
        "byte 0 is no version of the bundle format",
        "0",
        "pack the bundle with a tool of this version",
    ),
    of(
        3,
        "too many",
        "a count or a depth is over its limit, there is no file or unit, or a remapping list has over 32 lines with content",
        "the count, or the start of the item or line that is one too many",
        "split the card, or leave out what is not used",
    ),
    of(
        4,
        "bad path",
        "a path is not `/` or components of 1 to 32 printable bytes, each led by `/` and none `.` or `..`, or has over 16 of them or 255 bytes",
        "the first byte of the faulty field; in a list of the context or the target",
        "rename the folder or file, or mend the path",
    ),
    of(
        5,
        "bad name",
        "a name is not 1 to 32 ASCII letters, digits or `_`, or begins with a digit",
        FIELD,
        "rename it",
    ),
    of(
        6,
        "bad kind",
        "an item's kind is not 1 to 6, or its visibility is over 1",
        FIELD,
        "the bundle is damaged: pack it again",
    ),
    of(
        7,
        "twice",
        "a folder or file path was listed before",
        "the later path",
        "list it once",
    ),
    of(
        8,
        "orphan",
        "the parent of a listed path is not `/` or a listed folder",
        "the path",
        "list the parent among the folders",
    ),
    of(
        9,
        "nowhere",
        "the root, a context or a target is not listed",
        FIELD,
        "list the folder, or mend the path",
    ),
    of(
        10,
        "no folder",
        "the root, a context or a target is a file",
        FIELD,
        "name the folder that holds it",
    ),
    of(
        11,
        "reserved",
        "a remapping's name is `crate`",
        "the name",
        "give the library another name",
    ),
    of(
        12,
        "odd name",
        "a remapping's name is no identifier or is a reserved word, or in a list has over 255 bytes",
        "the name",
        "give the library another name",
    ),
    of(
        13,
        "same remapping",
        "an earlier remapping has the same context and name",
        "the later remapping",
        "leave one of the two out",
    ),
    of(
        14,
        "small buffer",
        "the report, the image or the remapping section is longer than the buffer lent for it",
        "0",
        "lend a longer buffer: 4,096 bytes hold every report, 65,538 every image, 24,577 every remapping section",
    ),
    of(
        15,
        "long image",
        "the image has over 65,535 bytes after its header",
        "0",
        "split the program",
    ),
    of(
        20,
        "empty use",
        "a use has no segment",
        USE,
        "begin the path with `crate` or a library's name",
    ),
    of(
        21,
        "unknown library",
        "no remapping of that name has a context that the importing file lies below",
        USE,
        "add a remapping whose context is a folder of the importing file",
    ),
    of(
        22,
        "no library file",
        "the path leads to no file of the library",
        USE,
        "mend the path, or list the file",
    ),
    of(
        23,
        "no file",
        "the path leads to no file of the package, or to a folder",
        USE,
        "mend the path, or list the file",
    ),
    of(
        24,
        "own file",
        "a library path leads to a file of the importer's own package",
        USE,
        "begin the path with `crate`",
    ),
    of(
        25,
        "no root",
        "a path begins with `crate`, and the importing file lies below no package root",
        USE,
        "move the file below a package root, or remap a library to its folder",
    ),
    of(
        26,
        "ring",
        "two or more files import each other",
        "0; the ids of the files follow",
        "move what they share into a file of its own",
    ),
    of(
        27,
        "no main",
        "the entry has no top-level function `main`",
        "0",
        "write one, or make another file the entry",
    ),
    of(
        28,
        "foreign enum",
        "a file other than the entry declares an enum",
        "the mark of the enum",
        "move it into the entry, or use a type alias",
    ),
    of(
        29,
        "unknown unit",
        "a graph names a unit that is not there, or a resolution call an importer that is no listed file",
        "0",
        "hand over a listed file, or an id below the number of units",
    ),
    of(
        40,
        "no crate word",
        "the path of a tree use does not begin with `crate`",
        "0",
        "only a direct call can do this: begin the path with `crate`",
    ),
    of(
        41,
        "no module",
        "a segment of the path names no module",
        ITEM,
        "mend the path, or declare the module before it is used",
    ),
    of(
        42,
        "private module",
        "a segment of the path names a private module of another",
        ITEM,
        "make the module public",
    ),
    of(
        43,
        "no item",
        "the module has no type, function or module of the element's name",
        ITEM,
        "mend the name, or declare the item before it is used",
    ),
    of(
        44,
        "private item",
        "the item that the element names is private",
        ITEM,
        "make the item public",
    ),
    of(
        45,
        "clash",
        "the module or an earlier element holds the local name in that kind",
        ITEM,
        "import it under another name with `as`",
    ),
    of(
        46,
        "alias main",
        "an element is renamed `main`",
        ITEM,
        "choose another name",
    ),
    of(
        47,
        "module twice",
        "the module holds a module of that name",
        ITEM,
        "rename one of the two",
    ),
    of(
        48,
        "type twice",
        "the module holds a type of that name",
        ITEM,
        "rename one of the two",
    ),
    of(
        49,
        "function twice",
        "the module holds a function of that name",
        ITEM,
        "rename one of the two",
    ),
    of(
        50,
        "not inside",
        "an exit where no module is open",
        "0",
        "only a direct call can do this: leave as many modules as were entered",
    ),
    of(
        51,
        "tree full",
        "the call, otherwise good, would pass 1,024 entries or 9 open modules",
        ITEM,
        "split the program, or import fewer names",
    ),
    of(
        52,
        "bad line",
        "a line of a remapping list has no `=`",
        "the first byte of the line",
        "write it as `context:name=target` or `name=target`, or leave it out",
    ),
];
