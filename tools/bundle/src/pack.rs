//! Text into a bundle. The syntax is tested here, not what the bundle says: a quoted string may
//! break the form of its field, counts may pass their limits, and the linker refuses that.

use std::ops::Range;

use bundle_format::forms::{is_identifier, is_path};
use bundle_format::{
    encode_file, encode_item, limits, Body, Bundle, Element, File, Item, Remapping,
};

use crate::lexer::{Lexer, Position, Token};
use crate::TextError;

/// Modules may be nested this deep in a text.
const NESTING: usize = 64;
/// The most that a count or a string's length can say.
const BYTE: usize = u8::MAX as usize;

/// A packed text: the bytes of the bundle, and of each field its offset in the bundle and its range in the text.
#[derive(Clone, Debug, PartialEq, Eq)]
pub struct Packed {
    pub bytes: Vec<u8>,
    pub fields: Vec<(usize, Range<usize>)>,
}

/// The bytes of the bundle that `text` describes.
pub fn pack(text: &[u8]) -> Result<Vec<u8>, TextError> {
    Ok(pack_with_fields(text)?.bytes)
}

/// The same, with the place of every field in the text.
pub fn pack_with_fields(text: &[u8]) -> Result<Packed, TextError> {
    let mut parser = Parser::new(text)?;
    let bundle = parser.bundle()?;
    // Strings, counts, items and files fit, so this is about the length of the whole.
    let (bytes, offsets) = fits(parser.position, bundle.encode_with_fields())?;
    let fields = offsets.into_iter().zip(parser.fields).collect();
    Ok(Packed { bytes, fields })
}

fn fits<T>(position: Position, result: Result<T, String>) -> Result<T, TextError> {
    result.or_else(|message| position.error(message))
}

struct Parser<'a> {
    lexer: Lexer<'a>,
    token: Token,
    position: Position,
    /// Where the token ends, and the one before it.
    end: usize,
    end_before: usize,
    /// The ranges of strings and items, in the order of the bundle's fields.
    fields: Vec<Range<usize>>,
}

impl<'a> Parser<'a> {
    fn new(text: &'a [u8]) -> Result<Self, TextError> {
        let mut lexer = Lexer::new(text);
        let (token, position) = lexer.next()?;
        let end = lexer.at();
        Ok(Parser {
            lexer,
            token,
            position,
            end,
            end_before: 0,
            fields: Vec::new(),
        })
    }

    fn advance(&mut self) -> Result<Token, TextError> {
        let (token, position) = self.lexer.next()?;
        self.position = position;
        self.end_before = std::mem::replace(&mut self.end, self.lexer.at());
        Ok(std::mem::replace(&mut self.token, token))
    }

    fn expected<T>(&self, what: &str) -> Result<T, TextError> {
        let found = self.token.describe();
        self.position
            .error(format!("expected {what}, found {found}"))
    }

    fn is_word(&self, word: &str) -> bool {
        matches!(&self.token, Token::Word(bytes) if bytes == word.as_bytes())
    }

    /// Passes `word` where it is next.
    fn take_word(&mut self, word: &str) -> Result<bool, TextError> {
        let found = self.is_word(word);
        if found {
            self.advance()?;
        }
        Ok(found)
    }

    fn take_sign(&mut self, sign: &'static str) -> Result<bool, TextError> {
        let found = self.token == Token::Sign(sign);
        if found {
            self.advance()?;
        }
        Ok(found)
    }

    fn sign(&mut self, sign: &'static str) -> Result<(), TextError> {
        if self.take_sign(sign)? {
            return Ok(());
        }
        self.expected(&format!("`{sign}`"))
    }

    /// A path as it stands, in the form of paths, or any string in quotes.
    fn path(&mut self) -> Result<Vec<u8>, TextError> {
        match &self.token {
            Token::Path(path) if is_path(path) => {}
            Token::Path(path) => {
                let path = String::from_utf8_lossy(path).into_owned();
                return self.position.error(format!(
                    "`{path}` is not in the form of a path (quote it to write it all the same)"
                ));
            }
            Token::Quoted(_) => {}
            _ => return self.expected("a path"),
        }
        self.string()
    }

    /// A name as it stands, in the form of identifiers, or any string in quotes.
    fn name(&mut self, what: &str) -> Result<Vec<u8>, TextError> {
        match &self.token {
            Token::Word(word) if is_identifier(word) => {}
            Token::Word(word) => {
                let word = String::from_utf8_lossy(word).into_owned();
                return self.position.error(format!(
                    "`{word}` is not in the form of a name (quote it to write it all the same)"
                ));
            }
            Token::Quoted(_) => {}
            _ => return self.expected(what),
        }
        self.string()
    }

    /// The bytes of the token, which has some, if its length fits a byte.
    fn string(&mut self) -> Result<Vec<u8>, TextError> {
        let position = self.position;
        self.fields.push(position.offset..self.end);
        match self.advance()? {
            Token::Word(bytes) | Token::Path(bytes) | Token::Quoted(bytes)
                if bytes.len() <= BYTE =>
            {
                Ok(bytes)
            }
            _ => position.error(format!("a string of over {BYTE} bytes")),
        }
    }

    /// Whether one more than `count` fits a count of one byte.
    fn room(&self, count: usize, what: &str) -> Result<(), TextError> {
        if count < BYTE {
            return Ok(());
        }
        self.position.error(format!("over {BYTE} {what}"))
    }

    fn bundle(&mut self) -> Result<Bundle, TextError> {
        let version = limits::VERSION.to_string();
        if !self.take_word("bundle")? {
            return self.expected("`bundle`");
        }
        if !self.take_word(&version)? {
            return self.expected(&format!("the version `{version}`"));
        }
        if !self.take_word("root")? {
            return self.expected("`root`");
        }
        let mut bundle = Bundle {
            root: self.path()?,
            ..Bundle::default()
        };

        while self.is_word("folder") {
            self.room(bundle.folders.len(), "folders")?;
            self.advance()?;
            bundle.folders.push(self.path()?);
        }
        while self.is_word("remap") {
            self.room(bundle.remappings.len(), "remappings")?;
            self.advance()?;
            let context = self.path()?;
            let name = self.name("the name of a library")?;
            self.sign("=")?;
            let target = self.path()?;
            bundle.remappings.push(Remapping {
                context,
                name,
                target,
                ..Remapping::default()
            });
        }
        while self.is_word("file") {
            self.room(bundle.files.len(), "files")?;
            bundle.files.push(self.file()?);
        }

        if self.token == Token::End {
            return Ok(bundle);
        }
        let next = if !bundle.files.is_empty() {
            "`file` or the end of the text"
        } else if !bundle.remappings.is_empty() {
            "`remap` or `file`"
        } else {
            "`folder`, `remap` or `file`"
        };
        self.expected(next)
    }

    fn file(&mut self) -> Result<File, TextError> {
        let position = self.position;
        self.advance()?;
        let path = self.path()?;
        let items = self.items(0)?;
        let file = File {
            path,
            items,
            ..File::default()
        };
        fits(position, encode_file(&file, &mut Vec::new()))?;
        Ok(file)
    }

    /// Items in braces, below `depth` modules.
    fn items(&mut self, depth: usize) -> Result<Vec<Item>, TextError> {
        self.sign("{")?;
        let mut items = Vec::new();
        while !self.take_sign("}")? {
            items.push(self.item(depth)?);
        }
        Ok(items)
    }

    fn item(&mut self, depth: usize) -> Result<Item, TextError> {
        let position = self.position;
        let field = self.fields.len();
        self.fields.push(position.offset..self.end);
        let public = self.take_word("pub")?;
        let body = if self.take_word("type")? {
            Body::TypeAlias(self.name("the name of a type")?)
        } else if self.take_word("fn")? {
            Body::Function(self.name("the name of a function")?)
        } else if self.take_word("enum")? {
            Body::Enum(self.name("the name of an enum")?)
        } else if self.take_word("use")? {
            self.use_body()?
        } else if self.is_word("mod") {
            if depth == NESTING {
                return self
                    .position
                    .error(format!("modules nested over {NESTING} deep"));
            }
            self.advance()?;
            Body::Module {
                name: self.name("the name of a module")?,
                items: self.items(depth + 1)?,
            }
        } else if self.take_word("ignored")? {
            Body::Ignored
        } else {
            let end = if public { "" } else { ", `}`" };
            return self.expected(&format!(
                "`type`, `fn`, `enum`, `use`, `mod`, `ignored`{end}"
            ));
        };
        let item = Item {
            mark: 0,
            public,
            body,
        };
        // A module's range ends with its name.
        self.fields[field].end = match item.body {
            Body::Module { .. } => self.fields[field + 1].end,
            _ => self.end_before,
        };
        fits(position, encode_item(&item, &mut Vec::new()))?;
        Ok(item)
    }

    fn use_body(&mut self) -> Result<Body, TextError> {
        let mut segments = Vec::new();
        while self.token != Token::Sign("{") {
            self.room(segments.len(), "segments")?;
            segments.push(self.name("a segment or `{`")?);
            self.sign("::")?;
        }
        self.sign("{")?;

        let mut elements = Vec::new();
        while !self.take_sign("}")? {
            self.room(elements.len(), "elements")?;
            elements.push(self.element()?);
            if !self.take_sign(",")? && self.token != Token::Sign("}") {
                return self.expected("`,` or `}`");
            }
        }
        Ok(Body::Use { segments, elements })
    }

    fn element(&mut self) -> Result<Element, TextError> {
        let name = self.name("an element or `}`")?;
        if !self.take_word("as")? {
            // An alias that isn't written has its field all the same.
            self.fields.extend(self.fields.last().cloned());
            return Ok(Element { name, alias: None });
        }
        if self.token == Token::Quoted(Vec::new()) {
            return self.position.error("an alias is not empty");
        }
        let alias = Some(self.name("an alias")?);
        Ok(Element { name, alias })
    }
}
