//! Text into tokens.

use crate::TextError;

/// Where a token starts.
#[derive(Clone, Copy, Debug)]
pub(crate) struct Position {
    line: usize,
    column: usize,
    pub(crate) offset: usize,
}

impl Position {
    pub(crate) fn error<T>(self, message: impl Into<String>) -> Result<T, TextError> {
        Err(TextError {
            line: self.line,
            column: self.column,
            message: message.into(),
        })
    }
}

#[derive(Clone, Debug, PartialEq, Eq)]
pub(crate) enum Token {
    /// Letters, digits and `_`.
    Word(Vec<u8>),
    /// From `/` to the next white space.
    Path(Vec<u8>),
    /// The bytes that a quoted string stands for.
    Quoted(Vec<u8>),
    /// One of `{`, `}`, `,`, `=`, `::`.
    Sign(&'static str),
    End,
}

impl Token {
    pub(crate) fn describe(&self) -> String {
        let text = |bytes: &[u8]| String::from_utf8_lossy(bytes).into_owned();
        match self {
            Token::Word(bytes) | Token::Path(bytes) => format!("`{}`", text(bytes)),
            Token::Quoted(_) => "a quoted string".to_string(),
            Token::Sign(sign) => format!("`{sign}`"),
            Token::End => "the end of the text".to_string(),
        }
    }
}

pub(crate) struct Lexer<'a> {
    text: &'a [u8],
    at: usize,
    line: usize,
    line_start: usize,
}

fn is_white(byte: u8) -> bool {
    matches!(byte, b' ' | b'\t' | b'\r' | b'\n')
}

impl<'a> Lexer<'a> {
    pub(crate) fn new(text: &'a [u8]) -> Self {
        Lexer {
            text,
            at: 0,
            line: 1,
            line_start: 0,
        }
    }

    /// The offset after what was read.
    pub(crate) fn at(&self) -> usize {
        self.at
    }

    fn position(&self) -> Position {
        Position {
            line: self.line,
            column: self.at - self.line_start + 1,
            offset: self.at,
        }
    }

    fn peek(&self) -> Option<u8> {
        self.text.get(self.at).copied()
    }

    /// Passes white space and comments.
    fn skip(&mut self) {
        while let Some(byte) = self.peek() {
            if byte == b'#' {
                self.run(|byte| byte != b'\n');
            } else if is_white(byte) {
                self.at += 1;
                if byte == b'\n' {
                    self.line += 1;
                    self.line_start = self.at;
                }
            } else {
                return;
            }
        }
    }

    /// Passes the bytes that `belongs` takes.
    fn run(&mut self, belongs: impl Fn(u8) -> bool) -> &'a [u8] {
        let rest = &self.text[self.at..];
        let length = rest
            .iter()
            .position(|&byte| !belongs(byte))
            .unwrap_or(rest.len());
        self.at += length;
        &rest[..length]
    }

    pub(crate) fn next(&mut self) -> Result<(Token, Position), TextError> {
        self.skip();
        let position = self.position();
        let Some(byte) = self.peek() else {
            return Ok((Token::End, position));
        };
        let token = match byte {
            b'/' => Token::Path(self.run(|byte| !is_white(byte)).to_vec()),
            b'"' => Token::Quoted(self.quoted(position)?),
            b'{' => self.sign("{"),
            b'}' => self.sign("}"),
            b',' => self.sign(","),
            b'=' => self.sign("="),
            b':' if self.text[self.at..].starts_with(b"::") => self.sign("::"),
            _ => {
                let word = self.run(|byte| byte.is_ascii_alphanumeric() || byte == b'_');
                if word.is_empty() {
                    return position.error(format!("{} does not belong here", show_byte(byte)));
                }
                Token::Word(word.to_vec())
            }
        };
        Ok((token, position))
    }

    fn sign(&mut self, sign: &'static str) -> Token {
        self.at += sign.len();
        Token::Sign(sign)
    }

    /// The string after a `"`, up to the next.
    fn quoted(&mut self, start: Position) -> Result<Vec<u8>, TextError> {
        self.at += 1;
        let mut bytes = Vec::new();
        loop {
            let position = self.position();
            let Some(byte) = self.peek() else {
                return start.error("a string that is not closed");
            };
            match byte {
                b'"' => {
                    self.at += 1;
                    return Ok(bytes);
                }
                b'\\' => {
                    let (escaped, length) = match self.text[self.at..] {
                        [_, byte @ (b'"' | b'\\'), ..] => (byte, 2),
                        [_, b'x', high, low, ..] => match (digit(high), digit(low)) {
                            (Some(high), Some(low)) => (high * 16 + low, 4),
                            _ => return position.error("`\\x` wants two hexadecimal digits"),
                        },
                        _ => return position.error("an escape is `\\\"`, `\\\\` or `\\xHH`"),
                    };
                    bytes.push(escaped);
                    self.at += length;
                }
                b' '..=b'~' => {
                    bytes.push(byte);
                    self.at += 1;
                }
                b'\n' => return start.error("a string that is not closed on its line"),
                _ => {
                    let byte = show_byte(byte);
                    return position.error(format!("{byte} in a string must be written `\\xHH`"));
                }
            }
        }
    }
}

fn digit(byte: u8) -> Option<u8> {
    char::from(byte).to_digit(16).map(|digit| digit as u8)
}

fn show_byte(byte: u8) -> String {
    if byte.is_ascii_graphic() {
        format!("`{}`", char::from(byte))
    } else {
        format!("the byte {byte:02X}")
    }
}
