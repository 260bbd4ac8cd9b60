//! Bundles in few words.

use bundle_format::{Body, Bundle, Element, File, Remapping};
use oracle::judge::Judge;

pub use bundle_format::Item;

fn item(body: Body) -> Item {
    Item {
        mark: 0,
        public: false,
        body,
    }
}

pub fn public(mut item: Item) -> Item {
    item.public = true;
    item
}

pub fn type_(name: &str) -> Item {
    item(Body::TypeAlias(name.into()))
}

pub fn enum_(name: &str) -> Item {
    item(Body::Enum(name.into()))
}

pub fn function(name: &str) -> Item {
    item(Body::Function(name.into()))
}

pub fn module(name: &str, items: impl IntoIterator<Item = Item>) -> Item {
    item(Body::Module {
        name: name.into(),
        items: items.into_iter().collect(),
    })
}

/// A path `a::b` and elements `f,g=h`, where `g=h` is `g as h`.
pub fn use_(path: &str, elements: &str) -> Item {
    let parts = |text: &'_ str, by| -> Vec<String> {
        let parts = text.split(by).filter(|part| !part.is_empty());
        parts.map(str::to_string).collect()
    };
    let element = |element: String| match element.split_once('=') {
        Some((name, alias)) => Element {
            name: name.into(),
            alias: Some(alias.into()),
        },
        None => Element {
            name: element.into(),
            alias: None,
        },
    };
    item(Body::Use {
        segments: parts(path, "::")
            .into_iter()
            .map(String::into_bytes)
            .collect(),
        elements: parts(elements, ",").into_iter().map(element).collect(),
    })
}

pub fn file(path: &str, items: impl IntoIterator<Item = Item>) -> File {
    File {
        path: path.into(),
        path_at: 0,
        items: items.into_iter().collect(),
    }
}

/// A bundle and its bytes.
pub struct Packed {
    bundle: Bundle,
    pub bytes: Vec<u8>,
}

pub fn bundle(
    root: &str,
    folders: impl IntoIterator<Item = &'static str>,
    remappings: impl IntoIterator<Item = (&'static str, &'static str, &'static str)>,
    files: impl IntoIterator<Item = File>,
) -> Packed {
    let bundle = Bundle {
        root: root.into(),
        folders: folders.into_iter().map(Vec::from).collect(),
        remappings: remappings
            .into_iter()
            .map(|(context, name, target)| Remapping {
                context: context.into(),
                name: name.into(),
                target: target.into(),
                ..Remapping::default()
            })
            .collect(),
        files: files.into_iter().collect(),
        ..Bundle::default()
    };
    let bytes = bundle.encode().expect("it fits");
    Packed { bundle, bytes }
}

impl Packed {
    pub fn folder(&mut self, path: &str) {
        self.bundle.folders.push(path.into());
        self.bytes = self.bundle.encode().expect("it fits");
    }

    pub fn decoded(&self) -> Bundle {
        Bundle::decode(&self.bytes).expect("it passes 1 to 8")
    }

    /// The mark of the item of this index, in byte order, nested ones included.
    pub fn mark(&self, index: usize) -> usize {
        fn collect(items: &[Item], marks: &mut Vec<usize>) {
            for item in items {
                marks.push(item.mark);
                if let Body::Module { items, .. } = &item.body {
                    collect(items, marks);
                }
            }
        }
        let mut marks = Vec::new();
        for file in self.decoded().files {
            collect(&file.items, &mut marks);
        }
        marks[index]
    }

    pub fn answer(&self) -> String {
        Judge::new().unwrap().judge(&self.bytes).print(false)
    }

    pub fn answer_with_image(&self) -> String {
        Judge::new().unwrap().judge(&self.bytes).print(true)
    }

    pub fn line(&self, index: usize) -> String {
        let answer = self.answer();
        let line = answer.lines().nth(index);
        line.unwrap_or_else(|| panic!("no line {index}: {answer}"))
            .to_string()
    }
}

pub fn hex(text: &str) -> String {
    oracle::to_hex(text.as_bytes())
}

pub fn names(question: &str) -> String {
    oracle::names::answer(question).expect("a question")
}
