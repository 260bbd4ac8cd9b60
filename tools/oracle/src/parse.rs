//! Stands in for src/parse: the data types are the original's, the items come from the bundle.
//!
//! An item's span starts at its mark. A module's span has its mark as `file_id` too, which is all
//! of it that `assemble_program` keeps.

use std::cell::RefCell;
use std::path::PathBuf;
use std::rc::Rc;
use std::sync::Arc;

use bundle_format::{Body, Bundle, Element};

use crate::error::{Diagnostic, DiagnosticManager, Error, Span};
use crate::str::{AliasName, FunctionName, Identifier, ModuleName, SymbolName};
use crate::types::AliasedType;
use crate::unstable::UnstableFeatures;

macro_rules! impl_eq_hash {
    ($ty: ident; $($member: ident),*) => {
        impl PartialEq for $ty {
            fn eq(&self, other: &Self) -> bool {
                true $(&& self.$member() == other.$member())*
            }
        }

        impl Eq for $ty {}

        impl std::hash::Hash for $ty {
            fn hash<H: std::hash::Hasher>(&self, state: &mut H) {
                $(self.$member().hash(state);)*
            }
        }
    };
}

include!(concat!(env!("OUT_DIR"), "/parse_items.rs"));

/// Stands in for a function's body.
#[derive(Clone, Debug, Eq, PartialEq, Hash)]
pub struct Expression;

thread_local! {
    static BUNDLE: RefCell<Rc<Bundle>> = RefCell::default();
}

/// From here on the text of a file is its path in this bundle.
pub fn parse_from(bundle: Rc<Bundle>) {
    BUNDLE.set(bundle);
}

pub trait ParseFromStrWithErrors: Sized {
    fn parse_from_str_with_errors(
        file_id: usize,
        text: &str,
        unstable_features: &UnstableFeatures,
        diagnostics: &mut DiagnosticManager,
    ) -> Option<Self>;
}

impl ParseFromStrWithErrors for Program {
    fn parse_from_str_with_errors(
        file_id: usize,
        text: &str,
        _unstable_features: &UnstableFeatures,
        _diagnostics: &mut DiagnosticManager,
    ) -> Option<Self> {
        let bundle = BUNDLE.with_borrow(Rc::clone);
        let file = bundle
            .files
            .iter()
            .find(|file| file.path == text.as_bytes());
        let file = file.expect("only listed files are read");
        Some(Program::new(
            &items_of(file_id, &file.items),
            Span::new(file_id, 0..0),
        ))
    }
}

fn items_of(file_id: usize, items: &[bundle_format::Item]) -> Vec<Item> {
    items.iter().map(|item| item_of(file_id, item)).collect()
}

fn item_of(file_id: usize, item: &bundle_format::Item) -> Item {
    let visibility = visibility_of(item.public);
    let mark = item.mark;
    let span = Span::new(file_id, mark..mark);
    match &item.body {
        Body::TypeAlias(name) => Item::TypeAlias(TypeAlias {
            visibility,
            name: AliasName::from_str_unchecked(ascii(name)),
            ty: AliasedType { mark },
            span,
        }),
        Body::Function(name) => Item::Function(Function {
            visibility,
            name: FunctionName::from_str_unchecked(ascii(name)),
            params: Arc::new([]),
            ret: None,
            body: Expression,
            span,
        }),
        Body::Use { segments, elements } => {
            Item::Use(use_decl(visibility, segments, elements, span))
        }
        Body::Enum(name) => Item::EnumDeclaration(EnumDeclaration {
            visibility,
            name: AliasName::from_str_unchecked(ascii(name)),
            variants: Arc::new([]),
            span,
        }),
        Body::Module { name, items } => Item::Module(Module {
            visibility,
            name: ModuleName::from_str_unchecked(ascii(name)),
            items: items_of(file_id, items).into(),
            span: Span::new(mark, mark..mark),
        }),
        Body::Ignored => Item::Ignored,
    }
}

/// The mark of an item, before and after assembly.
pub fn mark(item: &Item) -> Option<usize> {
    match item {
        Item::Module(module) => Some(module.span().file_id),
        item => item.span().map(|span| span.start),
    }
}

pub fn visibility_of(public: bool) -> Visibility {
    match public {
        true => Visibility::Public,
        false => Visibility::Private,
    }
}

pub fn use_decl(
    visibility: Visibility,
    segments: &[Vec<u8>],
    elements: &[Element],
    span: Span,
) -> UseDecl {
    let symbol = |name: &Vec<u8>| SymbolName::from_str_unchecked(ascii(name));
    let mut elements: Vec<AliasedSymbolName> = elements
        .iter()
        .map(|element| (symbol(&element.name), element.alias.as_ref().map(symbol)))
        .collect();
    UseDecl {
        visibility,
        path: segments
            .iter()
            .map(|segment| Identifier::from_str_unchecked(ascii(segment)))
            .collect(),
        items: match elements.len() {
            1 => UseItems::Single(elements.remove(0)),
            _ => UseItems::List(elements),
        },
        span,
    }
}

/// The text of a name that passed its form.
fn ascii(name: &[u8]) -> &str {
    std::str::from_utf8(name).expect("an identifier is ASCII")
}

/// An item of the assembled program in the bundle's form, without marks.
pub fn to_format(item: &Item) -> bundle_format::Item {
    let bytes = |name: &str| name.as_bytes().to_vec();
    let (visibility, body) = match item {
        Item::TypeAlias(alias) => (
            alias.visibility(),
            Body::TypeAlias(bytes(alias.name().as_str())),
        ),
        Item::Function(function) => (
            function.visibility(),
            Body::Function(bytes(function.name().as_str())),
        ),
        Item::Use(use_decl) => {
            let elements: &[AliasedSymbolName] = match use_decl.items() {
                UseItems::Single(element) => std::slice::from_ref(element),
                UseItems::List(elements) => elements,
            };
            let body = Body::Use {
                segments: use_decl
                    .path()
                    .iter()
                    .map(|name| bytes(name.as_str()))
                    .collect(),
                elements: elements
                    .iter()
                    .map(|(name, alias)| Element {
                        name: bytes(name.as_str()),
                        alias: alias.as_ref().map(|alias| bytes(alias.as_str())),
                    })
                    .collect(),
            };
            (use_decl.visibility(), body)
        }
        Item::EnumDeclaration(decl) => (decl.visibility(), Body::Enum(bytes(decl.name().as_str()))),
        Item::Module(module) => {
            let body = Body::Module {
                name: bytes(module.name().as_str()),
                items: module.items().iter().map(to_format).collect(),
            };
            (module.visibility(), body)
        }
        Item::Ignored => (&Visibility::Private, Body::Ignored),
    };
    bundle_format::Item {
        mark: 0,
        public: matches!(visibility, Visibility::Public),
        body,
    }
}
