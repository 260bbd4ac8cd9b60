//! Tokens into items.

use bundle_format::forms::is_keyword;

use crate::lexer::{lex, Token};
use crate::{Name, SourceBody, SourceElement, SourceError, SourceItem, Span};

/// Modules may be nested this deep in a file.
const NESTING: usize = 64;

/// The items of a file, in their order.
pub fn read(text: &str) -> Result<Vec<SourceItem>, SourceError> {
    let mut parser = Parser {
        tokens: lex(text)?,
        at: 0,
    };
    parser.version()?;
    let items = parser.items(0)?;
    match parser.token() {
        Token::End => Ok(items),
        _ => parser.expected("`use`, `type`, `fn`, `enum`, `mod` or the end of the file"),
    }
}

struct Parser<'a> {
    tokens: Vec<(Token<'a>, Span)>,
    at: usize,
}

impl<'a> Parser<'a> {
    fn token(&self) -> Token<'a> {
        self.tokens[self.at].0
    }

    fn span(&self) -> Span {
        self.tokens[self.at].1
    }

    /// Passes a token; the end stays.
    fn advance(&mut self) -> Span {
        let span = self.span();
        if self.at + 1 < self.tokens.len() {
            self.at += 1;
        }
        span
    }

    fn error<T>(&self, span: Span, message: impl Into<String>) -> Result<T, SourceError> {
        Err(SourceError {
            span,
            message: message.into(),
        })
    }

    fn expected<T>(&self, what: &str) -> Result<T, SourceError> {
        let found = match self.token() {
            Token::Word(word) => format!("`{word}`"),
            Token::Literal => "a literal".to_string(),
            Token::Sign(sign) => format!("`{sign}`"),
            Token::End => "the end of the file".to_string(),
        };
        self.error(self.span(), format!("expected {what}, found {found}"))
    }

    fn take(&mut self, token: Token<'static>) -> bool {
        let found = self.token() == token;
        if found {
            self.advance();
        }
        found
    }

    fn sign(&mut self, sign: &'static str) -> Result<Span, SourceError> {
        if self.token() == Token::Sign(sign) {
            return Ok(self.advance());
        }
        self.expected(&format!("`{sign}`"))
    }

    fn name(&mut self, what: &str) -> Result<Name, SourceError> {
        match self.token() {
            Token::Word(word) if !is_keyword(word.as_bytes()) => self.word(),
            _ => self.expected(what),
        }
    }

    /// A word of any kind, as a segment of a use.
    fn word(&mut self) -> Result<Name, SourceError> {
        match self.token() {
            Token::Word(word) => Ok(Name {
                text: word.to_string(),
                span: self.advance(),
            }),
            _ => self.expected("a name"),
        }
    }

    /// The compiler version directive that a file may begin with.
    fn version(&mut self) -> Result<(), SourceError> {
        if self.take(Token::Word("simc")) {
            self.skip_to(";")?;
        }
        Ok(())
    }

    fn items(&mut self, depth: usize) -> Result<Vec<SourceItem>, SourceError> {
        let mut items = Vec::new();
        loop {
            self.attributes()?;
            match self.token() {
                Token::Word("pub" | "use" | "type" | "fn" | "enum" | "mod") => {
                    items.push(self.item(depth)?);
                }
                _ => return Ok(items),
            }
        }
    }

    /// `#[..]` before an item says nothing to the linker.
    fn attributes(&mut self) -> Result<(), SourceError> {
        while self.take(Token::Sign("#")) {
            self.take(Token::Sign("!"));
            if self.token() != Token::Sign("[") {
                return self.expected("`[`");
            }
            self.brackets()?;
        }
        Ok(())
    }

    fn item(&mut self, depth: usize) -> Result<SourceItem, SourceError> {
        let start = self.span().start;
        let public = self.take(Token::Word("pub"));
        let (body, end) = match self.token() {
            Token::Word("use") => self.use_item()?,
            Token::Word("type") => {
                self.advance();
                let name = self.name("the name of a type")?;
                self.sign("=")?;
                self.skip_to(";")?;
                let end = name.span.end;
                (SourceBody::TypeAlias(name), end)
            }
            Token::Word("fn") => {
                self.advance();
                let name = self.name("the name of a function")?;
                if self.token() != Token::Sign("(") {
                    return self.expected("`(`");
                }
                self.brackets()?;
                self.skip_before("{")?;
                self.brackets()?;
                let end = name.span.end;
                (SourceBody::Function(name), end)
            }
            Token::Word("enum") => {
                self.advance();
                let name = self.name("the name of an enum")?;
                if self.token() != Token::Sign("{") {
                    return self.expected("`{`");
                }
                self.brackets()?;
                let end = name.span.end;
                (SourceBody::Enum(name), end)
            }
            Token::Word("mod") => {
                let word = self.advance();
                if depth == NESTING {
                    return self.error(word, format!("modules nested over {NESTING} deep"));
                }
                let name = self.name("the name of a module")?;
                self.sign("{")?;
                let items = self.items(depth + 1)?;
                self.sign("}")?;
                let end = name.span.end;
                (SourceBody::Module { name, items }, end)
            }
            _ => return self.expected("`use`, `type`, `fn`, `enum` or `mod`"),
        };
        Ok(SourceItem {
            public,
            span: Span { start, end },
            body,
        })
    }

    /// `use a::b::c;`, `use a::b::c as d;` or `use a::b::{c, d as e};`.
    fn use_item(&mut self) -> Result<(SourceBody, usize), SourceError> {
        self.advance();
        let mut path = vec![self.word()?];
        let mut elements = Vec::new();
        loop {
            if !self.take(Token::Sign("::")) {
                let name = path.pop().expect("a path has a word");
                elements.push(self.element(name)?);
                break;
            }
            if self.take(Token::Sign("{")) {
                while self.token() != Token::Sign("}") {
                    let name = self.name("an element or `}`")?;
                    elements.push(self.element(name)?);
                    if !self.take(Token::Sign(",")) && self.token() != Token::Sign("}") {
                        return self.expected("`,` or `}`");
                    }
                }
                self.advance();
                break;
            }
            path.push(self.word()?);
        }
        let end = self.sign(";")?.end;
        Ok((
            SourceBody::Use {
                segments: path,
                elements,
            },
            end,
        ))
    }

    fn element(&mut self, name: Name) -> Result<SourceElement, SourceError> {
        let alias = match self.take(Token::Word("as")) {
            true => Some(self.name("an alias")?),
            false => None,
        };
        Ok(SourceElement { name, alias })
    }

    /// Passes everything up to and with a sign outside brackets.
    fn skip_to(&mut self, sign: &'static str) -> Result<(), SourceError> {
        self.skip_before(sign)?;
        self.advance();
        Ok(())
    }

    fn skip_before(&mut self, sign: &'static str) -> Result<(), SourceError> {
        while self.token() != Token::Sign(sign) {
            match self.token() {
                Token::Sign("(" | "[" | "{") => self.brackets()?,
                Token::Sign(")" | "]" | "}") | Token::End => {
                    return self.expected(&format!("`{sign}`"))
                }
                _ => {
                    self.advance();
                }
            }
        }
        Ok(())
    }

    /// Passes a bracket that is next, to the one that closes it.
    fn brackets(&mut self) -> Result<(), SourceError> {
        let mut open = Vec::new();
        let first = self.span();
        loop {
            match self.token() {
                Token::Sign("(") => open.push(")"),
                Token::Sign("[") => open.push("]"),
                Token::Sign("{") => open.push("}"),
                Token::Sign(sign @ (")" | "]" | "}")) if open.pop() != Some(sign) => {
                    return self.error(self.span(), format!("`{sign}` closes no bracket"));
                }
                Token::End => return self.error(first, "a bracket that is not closed"),
                _ => {}
            }
            self.advance();
            if open.is_empty() {
                return Ok(());
            }
        }
    }
}
