//! Lists of calls on the original's module tree.

use bundle_format::forms::is_identifier;
use bundle_format::{decode_use, limits, Body, Element};

use crate::ast::scope::{Fault, Tree};
use crate::error::Span;
use crate::parse::{use_decl, visibility_of, UseDecl, Visibility};
use crate::str::{AliasName, FunctionName, ModuleName};
use crate::types::AliasedType;

const TOO_MANY: u8 = 3;
const BAD_NAME: u8 = 5;
const BAD_KIND: u8 = 6;

/// A call as a line, and its answer: `ok`, `ok MARK`, `no NUMBER` or `large`. `-` stands for the
/// empty name, path or list.
pub fn answer(tree: &mut Tree, line: &str) -> Option<String> {
    let words: Vec<&str> = line.split(' ').collect();
    let done = match words[..] {
        ["enter", name, visibility, mark] => {
            let mark = mark.parse().ok()?;
            declared(visibility, name)?.and_then(|(visibility, name)| {
                tree.enter(ModuleName::from_str_unchecked(name), visibility, mark)
            })
        }
        ["exit"] => tree.exit(),
        ["alias", name, visibility, mark] => {
            let ty = AliasedType {
                mark: mark.parse().ok()?,
            };
            declared(visibility, name)?.and_then(|(visibility, name)| {
                tree.type_alias(&AliasName::from_str_unchecked(name), visibility, &ty)
            })
        }
        ["enum", name, visibility, mark] => {
            let mark = mark.parse().ok()?;
            declared(visibility, name)?.and_then(|(visibility, name)| {
                tree.enumeration(&AliasName::from_str_unchecked(name), visibility, mark)
            })
        }
        ["function", name, visibility, mark] => {
            let mark = mark.parse().ok()?;
            declared(visibility, name)?.and_then(|(visibility, name)| {
                tree.function(&FunctionName::from_str_unchecked(name), visibility, mark)
            })
        }
        ["use", visibility, path, elements] => resolve_use(tree, visibility, path, elements)?,
        ["use_form", visibility, bytes] => {
            let bytes = crate::from_hex(bytes)?;
            visible(visibility)?.and_then(|visibility| {
                tree.resolve_use(&decoded(visibility, &bytes).map_err(Fault::Number)?)
            })
        }
        ["get_alias", name] => {
            let mark =
                named(name).and_then(|name| tree.get_alias(&AliasName::from_str_unchecked(name)));
            return Some(match mark {
                Ok(mark) => format!("ok {mark}"),
                Err(fault) => refused(fault),
            });
        }
        ["get_function", name] => {
            let mark = named(name)
                .and_then(|name| tree.get_function(&FunctionName::from_str_unchecked(name)));
            return Some(match mark {
                Ok(mark) => format!("ok {mark}"),
                Err(fault) => refused(fault),
            });
        }
        _ => return None,
    };
    Some(done.map_or_else(refused, |()| "ok".to_string()))
}

fn refused(fault: Fault) -> String {
    match fault {
        Fault::Number(number) => format!("no {number}"),
        Fault::Large => "large".to_string(),
    }
}

/// A declaration's visibility and name, in the order of the bundle. None where the visibility is
/// no number.
fn declared<'a>(visibility: &str, name: &'a str) -> Option<Result<(Visibility, &'a str), Fault>> {
    let visibility = visible(visibility)?;
    Some(visibility.and_then(|visibility| Ok((visibility, named(name)?))))
}

fn visible(visibility: &str) -> Option<Result<Visibility, Fault>> {
    let visibility: u8 = visibility.parse().ok()?;
    Some(match visibility {
        0 | 1 => Ok(visibility_of(visibility == 1)),
        _ => Err(Fault::Number(BAD_KIND)),
    })
}

fn named(name: &str) -> Result<&str, Fault> {
    match is_identifier(name.as_bytes()) {
        true => Ok(name),
        false => Err(Fault::Number(BAD_NAME)),
    }
}

/// A use by its bytes, or the number of the first that is wrong with them.
fn decoded(visibility: Visibility, bytes: &[u8]) -> Result<UseDecl, u8> {
    match decode_use(bytes, limits::TREE_SEGMENTS) {
        Ok(Body::Use { segments, elements }) => Ok(use_decl(
            visibility,
            &segments,
            &elements,
            Span::new(0, 0..0),
        )),
        Ok(_) => unreachable!("a use"),
        Err(refusal) => Err(refusal.number),
    }
}

fn resolve_use(
    tree: &mut Tree,
    visibility: &str,
    path: &str,
    elements: &str,
) -> Option<Result<(), Fault>> {
    let visibility = visible(visibility)?;
    let list = |text: &str, by: &str| match text {
        "-" => Vec::new(),
        text => text.split(by).map(str::to_string).collect::<Vec<String>>(),
    };
    let segments = list(path, "::");
    let elements: Vec<(String, Option<String>)> = list(elements, ",")
        .iter()
        .map(|element| match element.split_once('=') {
            Some((name, alias)) => (name.to_string(), Some(alias.to_string())),
            None => (element.clone(), None),
        })
        .collect();

    let tested = || {
        let visibility = visibility?;
        if segments.len() > limits::TREE_SEGMENTS {
            return Err(Fault::Number(TOO_MANY));
        }
        let bytes = |name: &String| named(name).map(|name| name.as_bytes().to_vec());
        let segments: Vec<Vec<u8>> = segments.iter().map(bytes).collect::<Result<_, _>>()?;
        if elements.len() > limits::ELEMENTS {
            return Err(Fault::Number(TOO_MANY));
        }
        let elements: Vec<Element> = elements
            .iter()
            .map(|(name, alias)| {
                Ok(Element {
                    name: bytes(name)?,
                    alias: alias.as_ref().map(bytes).transpose()?,
                })
            })
            .collect::<Result<_, _>>()?;
        Ok(use_decl(
            visibility,
            &segments,
            &elements,
            Span::new(0, 0..0),
        ))
    };
    Some(tested().and_then(|use_decl| tree.resolve_use(&use_decl)))
}
