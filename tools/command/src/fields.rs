//! The bytes of a bundle field by field, as far as they can be read; forms and limits are not tested.

/// A field: its offset, how deep it stands, and what it says.
pub struct Field {
    pub offset: usize,
    pub depth: usize,
    pub text: String,
}

/// The fields of `bytes`, up to where one is cut.
pub fn fields(bytes: &[u8]) -> Vec<Field> {
    let mut reader = Reader {
        bytes,
        at: 0,
        fields: Vec::new(),
    };
    // Where a field is cut the reading ends; what was read is shown.
    let _ = reader.bundle();
    reader.fields
}

struct Reader<'a> {
    bytes: &'a [u8],
    at: usize,
    fields: Vec<Field>,
}

/// Text as it stands where it is printable, else with escapes.
pub fn quoted(bytes: &[u8]) -> String {
    let plain = !bytes.is_empty() && bytes.iter().all(u8::is_ascii_graphic);
    if plain {
        return String::from_utf8_lossy(bytes).into_owned();
    }
    format!("\"{}\"", bytes.escape_ascii())
}

impl Reader<'_> {
    fn say(&mut self, offset: usize, depth: usize, text: String) {
        self.fields.push(Field {
            offset,
            depth,
            text,
        });
    }

    fn byte(&mut self, depth: usize, what: &str) -> Option<usize> {
        let at = self.at;
        let byte = usize::from(*self.bytes.get(at)?);
        self.at += 1;
        self.say(at, depth, format!("{what} {byte}"));
        Some(byte)
    }

    fn word(&mut self, depth: usize, what: &str) -> Option<usize> {
        let at = self.at;
        let &[high, low] = self.bytes.get(at..at + 2)? else {
            return None;
        };
        self.at += 2;
        let number = usize::from(u16::from_be_bytes([high, low]));
        self.say(at, depth, format!("{what} {number}"));
        Some(number)
    }

    fn string(&mut self, depth: usize, what: &str) -> Option<()> {
        let at = self.at;
        let length = usize::from(*self.bytes.get(at)?);
        let Some(text) = self.bytes.get(at + 1..at + 1 + length) else {
            self.say(at, depth, format!("{what} of {length} bytes, cut"));
            return None;
        };
        let text = format!("{what} {}", quoted(text));
        self.say(at, depth, text);
        self.at += 1 + length;
        Some(())
    }

    fn bundle(&mut self) -> Option<()> {
        self.byte(0, "version")?;
        self.word(0, "length")?;
        self.string(0, "root")?;
        for _ in 0..self.byte(0, "folders")? {
            self.string(1, "folder")?;
        }
        for _ in 0..self.byte(0, "remappings")? {
            self.string(1, "context")?;
            self.string(1, "name")?;
            self.string(1, "target")?;
        }
        for _ in 0..self.byte(0, "files")? {
            self.string(1, "file")?;
            let length = self.word(2, "items of bytes")?;
            self.items(2, self.at + length)?;
        }
        if self.at < self.bytes.len() {
            let left = self.bytes.len() - self.at;
            self.say(self.at, 0, format!("{left} bytes left over"));
        }
        Some(())
    }

    fn items(&mut self, depth: usize, end: usize) -> Option<()> {
        while self.at < end {
            let length = self.word(depth, "item of bytes")?;
            let end = self.at + length;
            let kind = self.byte(depth + 1, "kind")?;
            self.byte(depth + 1, "visibility")?;
            match kind {
                1 | 2 | 4 => self.string(depth + 1, "name")?,
                3 => {
                    for _ in 0..self.byte(depth + 1, "segments")? {
                        self.string(depth + 2, "segment")?;
                    }
                    for _ in 0..self.byte(depth + 1, "elements")? {
                        self.string(depth + 2, "element")?;
                        self.string(depth + 2, "alias")?;
                    }
                }
                5 => {
                    self.string(depth + 1, "name")?;
                    self.items(depth + 1, end)?;
                }
                6 => {}
                _ => return None,
            }
        }
        Some(())
    }
}
