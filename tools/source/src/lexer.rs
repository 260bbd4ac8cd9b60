//! A source file into tokens, as the original's lexer has them; comments and white space are passed over.

use crate::{SourceError, Span};

#[derive(Clone, Copy, Debug, PartialEq, Eq)]
pub(crate) enum Token<'a> {
    /// An identifier or a keyword.
    Word(&'a str),
    /// A number, or text in quotes.
    Literal,
    Sign(&'static str),
    End,
}

const SIGNS: [&str; 17] = [
    "->", "=>", "::", "=", ":", ";", ",", "(", ")", "[", "]", "{", "}", "<", ">", "#", "!",
];

pub(crate) fn lex(text: &str) -> Result<Vec<(Token<'_>, Span)>, SourceError> {
    let mut tokens = Vec::new();
    let mut at = 0;
    loop {
        at = trivia(text, at)?;
        let rest = &text[at..];
        let Some(first) = rest.chars().next() else {
            tokens.push((Token::End, Span { start: at, end: at }));
            return Ok(tokens);
        };
        let (token, length) = if first.is_ascii_digit() {
            (
                Token::Literal,
                run(rest, |c| c.is_ascii_alphanumeric() || c == '_'),
            )
        } else if first == '"' {
            (Token::Literal, quoted(rest, at)?)
        } else if first == '_' || first.is_alphabetic() {
            let length = run(rest, |c| c == '_' || c.is_alphanumeric());
            (Token::Word(&rest[..length]), length)
        } else if let Some(sign) = SIGNS.iter().find(|sign| rest.starts_with(**sign)) {
            (Token::Sign(sign), sign.len())
        } else {
            return Err(SourceError {
                span: Span {
                    start: at,
                    end: at + first.len_utf8(),
                },
                message: format!("`{}` does not belong here", first.escape_default()),
            });
        };
        tokens.push((
            token,
            Span {
                start: at,
                end: at + length,
            },
        ));
        at += length;
    }
}

fn run(rest: &str, belongs: impl Fn(char) -> bool) -> usize {
    rest.find(|c| !belongs(c)).unwrap_or(rest.len())
}

/// Text in quotes, as after `simc`, on one line.
fn quoted(rest: &str, at: usize) -> Result<usize, SourceError> {
    match rest[1..].find(['"', '\n']) {
        Some(end) if rest.as_bytes()[end + 1] == b'"' => Ok(end + 2),
        _ => Err(SourceError {
            span: Span {
                start: at,
                end: at + 1,
            },
            message: "a text that is not closed on its line".to_string(),
        }),
    }
}

/// Passes white space, line comments and nested block comments.
fn trivia(text: &str, mut at: usize) -> Result<usize, SourceError> {
    loop {
        let rest = &text[at..];
        if rest.starts_with("//") {
            at += rest.find(['\n', '\r']).unwrap_or(rest.len());
        } else if rest.starts_with("/*") {
            at += block_comment(rest).ok_or(SourceError {
                span: Span {
                    start: at,
                    end: at + 2,
                },
                message: "a comment that is not closed".to_string(),
            })?;
        } else {
            let white = run(rest, char::is_whitespace);
            if white == 0 {
                return Ok(at);
            }
            at += white;
        }
    }
}

fn block_comment(rest: &str) -> Option<usize> {
    let mut depth = 0;
    let mut at = 0;
    while at < rest.len() {
        if rest[at..].starts_with("/*") {
            depth += 1;
            at += 2;
        } else if rest[at..].starts_with("*/") {
            depth -= 1;
            at += 2;
            if depth == 0 {
                return Some(at);
            }
        } else {
            at += rest[at..].chars().next().map_or(1, char::len_utf8);
        }
    }
    None
}
