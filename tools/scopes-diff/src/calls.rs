//! Calls on a tree: as bytes for the port (crates/scopes_c) and as lines for the oracle.

use bundle_format::{decode_use, limits, Body};

/// A name and an alias, which is empty for none.
pub type Element = (String, String);

#[derive(Clone, Debug)]
pub enum Call {
    Enter(String, bool, u16),
    Exit,
    Alias(String, bool, u16),
    Enum(String, bool, u16),
    Function(String, bool, u16),
    Use(bool, Vec<String>, Vec<Element>),
    /// A use by its bytes, which need not be the form of one.
    Form(bool, Vec<u8>),
    GetAlias(String),
    GetFunction(String),
}

fn string(out: &mut Vec<u8>, text: &str) {
    out.push(u8::try_from(text.len()).expect("a name of a length byte"));
    out.extend(text.as_bytes());
}

/// A use in the bundle's form.
pub fn form(path: &[String], elements: &[Element]) -> Vec<u8> {
    let mut out = vec![path.len() as u8];
    for segment in path {
        string(&mut out, segment);
    }
    out.push(elements.len() as u8);
    for (name, alias) in elements {
        string(&mut out, name);
        string(&mut out, alias);
    }
    out
}

/// The path and the elements of bytes that are the form of a use.
pub fn read_form(bytes: &[u8]) -> Option<(Vec<String>, Vec<Element>)> {
    let Ok(Body::Use { segments, elements }) = decode_use(bytes, limits::TREE_SEGMENTS) else {
        return None;
    };
    let text = |name: Vec<u8>| String::from_utf8(name).expect("an identifier is ASCII");
    let elements = elements.into_iter().map(|element| {
        (
            text(element.name),
            element.alias.map(text).unwrap_or_default(),
        )
    });
    Some((segments.into_iter().map(text).collect(), elements.collect()))
}

impl Call {
    /// Adds the call as crates/scopes_c reads it.
    pub fn bytes(&self, out: &mut Vec<u8>) {
        let mut named = |op: u8, name: &str, tail: Option<(bool, u16)>| {
            out.push(op);
            string(out, name);
            if let Some((visible, mark)) = tail {
                out.push(visible.into());
                out.extend(mark.to_be_bytes());
            }
        };
        let (visible, decl) = match self {
            Call::Enter(name, visible, mark) => return named(1, name, Some((*visible, *mark))),
            Call::Alias(name, visible, mark) => return named(3, name, Some((*visible, *mark))),
            Call::Enum(name, visible, mark) => return named(4, name, Some((*visible, *mark))),
            Call::Function(name, visible, mark) => return named(5, name, Some((*visible, *mark))),
            Call::GetAlias(name) => return named(7, name, None),
            Call::GetFunction(name) => return named(8, name, None),
            Call::Exit => return out.push(2),
            Call::Use(visible, path, elements) => (*visible, form(path, elements)),
            Call::Form(visible, decl) => (*visible, decl.clone()),
        };
        out.push(6);
        out.extend((decl.len() as u16).to_be_bytes());
        out.extend(decl);
        out.push(visible.into());
    }

    /// The call as `oracle --tree` reads it.
    pub fn line(&self) -> String {
        let named = |word: &str, name: &str, visible: bool, mark: u16| {
            format!("{word} {name} {} {mark}", u8::from(visible))
        };
        match self {
            Call::Enter(name, visible, mark) => named("enter", name, *visible, *mark),
            Call::Alias(name, visible, mark) => named("alias", name, *visible, *mark),
            Call::Enum(name, visible, mark) => named("enum", name, *visible, *mark),
            Call::Function(name, visible, mark) => named("function", name, *visible, *mark),
            Call::Exit => "exit".to_string(),
            Call::GetAlias(name) => format!("get_alias {name}"),
            Call::GetFunction(name) => format!("get_function {name}"),
            Call::Form(visible, decl) => {
                let hex: String = decl.iter().map(|byte| format!("{byte:02x}")).collect();
                format!("use_form {} {hex}", u8::from(*visible))
            }
            Call::Use(visible, path, elements) => {
                let segments = path.join("::");
                let list: Vec<String> = elements
                    .iter()
                    .map(|(name, alias)| match alias.as_str() {
                        "" => name.clone(),
                        alias => format!("{name}={alias}"),
                    })
                    .collect();
                let list = list.join(",");
                // `-` is for none, not for one empty name.
                if segments.is_empty() != path.is_empty() || list.is_empty() != elements.is_empty()
                {
                    return Call::Form(*visible, form(path, elements)).line();
                }
                let or_none = |text: String| match text.as_str() {
                    "" => "-".to_string(),
                    _ => text,
                };
                format!(
                    "use {} {} {}",
                    u8::from(*visible),
                    or_none(segments),
                    or_none(list)
                )
            }
        }
    }
}
