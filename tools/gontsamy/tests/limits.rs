//! The builder's errors: what can't be encoded is named, and what was written before stays.

use gontsamy::layout::BUNDLE;
use gontsamy::{check, BuildError, Builder, Part, Reason};

fn error<T>(part: Part, reason: Reason) -> Result<T, BuildError> {
    Err(BuildError { part, reason })
}

#[test]
fn what_cannot_be_encoded() {
    let mut bytes = vec![0; BUNDLE];
    assert_eq!(
        Builder::new(&mut bytes, &[b'a'; 256]).map(drop),
        error(Part::Root, Reason::LongString)
    );
    let mut builder = Builder::new(&mut bytes, b"/").unwrap();
    let item = |item: usize, kind: &'static str| Part::Item {
        file: 0,
        item,
        kind,
    };
    let long = [b'f'; 256];
    assert_eq!(
        builder.function(true, b"f"),
        error(item(0, "function"), Reason::Order)
    );
    builder.folder(b"/a").unwrap();
    assert_eq!(
        builder.folder(&long),
        error(Part::Folder(1), Reason::LongString)
    );
    assert_eq!(
        builder.remapping(b"/", &long, b"/"),
        error(Part::Remapping(0), Reason::LongString)
    );
    builder.file(b"/m").unwrap();
    assert_eq!(builder.folder(b"/b"), error(Part::Folder(0), Reason::Order));
    builder.function(true, b"f").unwrap();
    let segments = vec![&b"a"[..]; 256];
    assert_eq!(
        builder.use_item(false, &segments, &[]),
        error(item(1, "use"), Reason::LongList)
    );
    assert_eq!(
        builder.close_module(),
        error(Part::File(0), Reason::Modules)
    );
    builder.open_module(true, b"m").unwrap();
    assert_eq!(builder.file(b"/n"), error(Part::File(0), Reason::Modules));
    assert_eq!(
        builder.enumeration(true, &long),
        error(item(2, "enum"), Reason::LongString)
    );
    builder.close_module().unwrap();
    assert_eq!(
        builder.file(&long),
        error(Part::File(1), Reason::LongString)
    );
    // What was refused left no byte: the bundle is one folder and one file with two items.
    let bundle = builder.finish().unwrap();
    assert_eq!(check(bundle), Ok(()));
    assert_eq!(
        bundle,
        b"\x01\x00\x19\x01/\x01\x02/a\x00\x01\x02/m\x00\x0c\x00\x04\x02\x01\x01f\x00\x04\x05\x01\x01m"
    );
}

#[test]
fn buffers_and_sizes() {
    let mut bytes = [0; 12];
    let mut builder = Builder::new(&mut bytes, b"/").unwrap();
    assert_eq!(
        builder.file(b"/main.simf"),
        error(Part::File(0), Reason::SmallBuffer)
    );
    let mut bytes = vec![0; BUNDLE + 1];
    let mut builder = Builder::new(&mut bytes, b"/").unwrap();
    builder.file(b"/m").unwrap();
    let (mut items, mut told) = (0, None);
    while told.is_none() {
        told = builder.type_alias(false, &[b't'; 255]).err();
        items += usize::from(told.is_none());
    }
    let part = Part::Item {
        file: 0,
        item: items,
        kind: "type alias",
    };
    let reason = Reason::LongBundle;
    assert_eq!(told, Some(BuildError { part, reason }));
    assert_eq!(items, (BUNDLE - 12) / 260);
    assert!(builder.finish().is_ok());
}
