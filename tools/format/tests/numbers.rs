//! Numbers 1 to 13 with their places, case by case.

use bundle_format::{limits, Body, Bundle, Element, File, Item, Refusal, Remapping};

fn no(number: u8, place: usize) -> Result<Bundle, Refusal> {
    Err(Refusal { number, place })
}

/// `fields` under a good header.
fn with_header(fields: &[u8]) -> Vec<u8> {
    let length = u16::try_from(fields.len()).unwrap();
    let mut bytes = vec![limits::VERSION];
    bytes.extend(length.to_be_bytes());
    bytes.extend(fields);
    bytes
}

/// Root `/`, no folder, no remapping, one file `/m` with the given item bytes from offset 13 on.
fn with_items(items: &[u8]) -> Vec<u8> {
    let mut fields = vec![1, b'/', 0, 0, 1, 2, b'/', b'm'];
    fields.extend(u16::try_from(items.len()).unwrap().to_be_bytes());
    fields.extend(items);
    with_header(&fields)
}
const ITEMS: usize = 13;

fn item(body: Body) -> Item {
    Item {
        mark: 0,
        public: false,
        body,
    }
}

fn function(name: &[u8]) -> Item {
    item(Body::Function(name.to_vec()))
}

fn module(name: &[u8], items: Vec<Item>) -> Item {
    item(Body::Module {
        name: name.to_vec(),
        items,
    })
}

fn file(path: &[u8], items: Vec<Item>) -> File {
    File {
        path: path.to_vec(),
        items,
        ..File::default()
    }
}

fn remapping(context: &[u8], name: &[u8], target: &[u8]) -> Remapping {
    Remapping {
        context: context.to_vec(),
        name: name.to_vec(),
        target: target.to_vec(),
        ..Remapping::default()
    }
}

/// Root `/r`, folder `/r`, the entry `/r/main.simf`.
fn small(items: Vec<Item>) -> Bundle {
    Bundle {
        root: b"/r".to_vec(),
        folders: vec![b"/r".to_vec()],
        files: vec![file(b"/r/main.simf", items)],
        ..Bundle::default()
    }
}

fn decode(bundle: &Bundle) -> Result<Bundle, Refusal> {
    Bundle::decode(&bundle.encode().unwrap())
}

fn check(bundle: &Bundle) -> Option<(u8, usize)> {
    let decoded = decode(bundle).unwrap();
    decoded
        .check()
        .map(|refusal| (refusal.number, refusal.place))
}

fn printed() -> Bundle {
    let element = Element {
        name: b"f".to_vec(),
        alias: None,
    };
    let import = item(Body::Use {
        segments: vec![b"crate".to_vec(), b"a".to_vec()],
        elements: vec![element],
    });
    let mut bundle = small(vec![import, function(b"main")]);
    let mut f = function(b"f");
    f.public = true;
    bundle.files.push(file(b"/r/a.simf", vec![f]));
    bundle
}

#[test]
fn printed_case() {
    let bytes = printed().encode().unwrap();
    assert_eq!(bytes.len(), 71);
    let decoded = Bundle::decode(&bytes).unwrap();
    let marks: Vec<usize> = decoded
        .files
        .iter()
        .flat_map(|file| file.items.iter().map(|item| item.mark))
        .collect();
    assert_eq!(marks, [27, 44, 65]);
    assert_eq!((decoded.root_at, decoded.folder_at.clone()), (3, vec![7]));
    assert_eq!(decoded.files[0].path_at, 12);
    assert_eq!(decoded.check(), None);
    assert_eq!(decoded.encode().unwrap(), bytes);
}

#[test]
fn image_of_the_printed_case() {
    let mut bundle = printed();
    let a = std::mem::take(&mut bundle.files[1].items);
    let mut main = std::mem::take(&mut bundle.files[0].items);
    if let Body::Use { segments, .. } = &mut main[0].body {
        segments[1] = b"unit_1".to_vec();
    }
    let image = bundle_format::image(&[module(b"unit_1", a), module(b"unit_0", main)]).unwrap();
    let hex: String = image.iter().map(|byte| format!("{byte:02x}")).collect();
    assert_eq!(
        hex,
        "01003b000f050006756e69745f310004020101660028050006756e69745f30\
         001403000205637261746506756e69745f310101660000070200046d61696e"
    );
}

#[test]
fn header() {
    for bytes in [&[][..], &[1], &[1, 0], &[2], &[2, 0]] {
        assert_eq!(Bundle::decode(bytes), no(1, 0));
    }
    assert_eq!(Bundle::decode(&[2, 0, 0]), no(2, 0));
    assert_eq!(Bundle::decode(&[0, 0xff, 0xff, 1]), no(2, 0));
    assert_eq!(Bundle::decode(&[1, 0, 1]), no(1, 1));
    assert_eq!(Bundle::decode(&[1, 0, 1, 0, 0xff]), no(1, 4));
    assert_eq!(Bundle::decode(&[1, 0, 0]), no(1, 3));
    assert_eq!(Bundle::decode(&[1, 0, 0, 0]), no(1, 3));
}

#[test]
fn a_place_can_pass_65535() {
    let mut bytes = with_header(&[0; 65_535]);
    bytes.push(0);
    assert_eq!(Bundle::decode(&bytes), no(1, 65_538));
}

#[test]
fn cut_fields() {
    // Every cut of the printed case whose header follows the cut is 1 at the start of the field
    // that lost its end.
    let bytes = printed().encode().unwrap();
    let place = |length: usize| {
        Bundle::decode(&with_header(&bytes[3..length])).map_err(|refusal| {
            assert_eq!(refusal.number, 1);
            refusal.place
        })
    };
    let table: [(usize, usize); 12] = [
        (3, 3),   // the root
        (4, 3),   // its bytes
        (6, 6),   // the folder count
        (7, 7),   // the folder
        (10, 10), // the remapping count
        (11, 11), // the file count
        (12, 12), // the first file
        (25, 25), // the length of its items
        (26, 25),
        (27, 25), // the items
        (63, 63), // the second file's item length
        (70, 63),
    ];
    for (length, expected) in table {
        assert_eq!(place(length), Err(expected), "{length} bytes");
    }
    assert!(place(71).is_ok());
}

#[test]
fn items_cut_and_left_over() {
    let cases: &[(&[u8], u8, usize)] = &[
        (&[0], 1, 0),                                  // half a length
        (&[0, 1], 1, 0),                               // passes the items' end
        (&[0, 0], 1, 2),                               // no kind
        (&[0, 1, 9], 6, 2),                            // bad kind before the missing visibility
        (&[0, 1, 1], 1, 3),                            // no visibility
        (&[0, 2, 1, 2], 6, 3),                         // bad visibility
        (&[0, 2, 0, 0], 6, 2),                         //
        (&[0, 2, 7, 9], 6, 2),                         //
        (&[0, 2, 2, 0], 1, 4),                         // no name
        (&[0, 3, 2, 0, 0], 5, 4),                      // empty name
        (&[0, 3, 2, 0, 1], 1, 4),                      // the name passes the item's end
        (&[0, 3, 2, 0, 1, b'f'], 1, 4),                // also where the file goes on
        (&[0, 5, 2, 0, 1, b'f', 0], 1, 6),             // left over
        (&[0, 3, 6, 1, 0], 1, 4),                      // left over in an ignored item
        (&[0, 2, 3, 0], 1, 4),                         // no segment count
        (&[0, 3, 3, 0, 0], 1, 5),                      // no element count
        (&[0, 3, 3, 0, 17], 3, 4),                     // 17 segments
        (&[0, 4, 3, 0, 0, 33], 3, 5),                  // 33 elements
        (&[0, 6, 3, 0, 0, 1, 1, b'f'], 1, 8),          // no alias
        (&[0, 8, 3, 0, 0, 1, 1, b'f', 1, b'9'], 5, 8), // bad alias
        (&[0, 8, 3, 0, 0, 1, 1, b'f', 0, b'9'], 1, 9), // left over after no alias
        (&[0, 6, 5, 0, 1, b'm', 0, 0], 1, 8),          // an item without kind, in a module
        (&[0, 5, 5, 0, 1, b'm', 0], 1, 6),             // half a length, in a module
        (&[0, 6, 5, 0, 1, b'm', 0, 1, 6], 1, 6),       // passes the module's end
    ];
    for &(items, number, place) in cases {
        assert_eq!(
            Bundle::decode(&with_items(items)),
            no(number, ITEMS + place),
            "{items:?}"
        );
    }
    assert!(Bundle::decode(&with_items(&[0, 4, 3, 0, 0, 0, 0, 2, 6, 1])).is_ok());
}

#[test]
fn left_over_after_the_last_file() {
    let mut fields = printed().encode().unwrap()[3..].to_vec();
    fields.push(0);
    assert_eq!(Bundle::decode(&with_header(&fields)), no(1, 71));
}

#[test]
fn counts() {
    let mut bundle = small(vec![]);
    bundle.folders = (0..65).map(|i| format!("/{i}").into_bytes()).collect();
    assert_eq!(decode(&bundle), no(3, 6));
    bundle.folders.pop();
    bundle.files[0].path = b"/m".to_vec();
    assert!(decode(&bundle).is_ok());

    let mut bundle = small(vec![]);
    bundle.remappings = vec![remapping(b"/", b"", b"/"); 33];
    assert_eq!(decode(&bundle), no(3, 10));
    bundle.remappings.pop();
    assert!(decode(&bundle).is_ok());

    let mut bundle = small(vec![]);
    bundle.files.clear();
    assert_eq!(decode(&bundle), no(3, 11));
    bundle.files = (0..65)
        .map(|i| file(format!("/r/{i}").as_bytes(), vec![]))
        .collect();
    assert_eq!(decode(&bundle), no(3, 11));
    bundle.files.pop();
    assert!(decode(&bundle).is_ok());
}

#[test]
fn items_uses_depth() {
    // The 1,025th item, nested and ignored ones counted, over two files.
    let mut bundle = printed();
    bundle.files[1].items = vec![item(Body::Ignored); 1_021];
    bundle.files[1].items.push(module(b"m", vec![]));
    assert!(decode(&bundle).is_ok());
    bundle.files[1].items.pop();
    bundle.files[1]
        .items
        .push(module(b"m", vec![function(b"f")]));
    let bytes = bundle.encode().unwrap();
    assert_eq!(Bundle::decode(&bytes), no(3, bytes.len() - 6));
    // The limit comes after visibility and before the name.
    let mut odd = bytes.clone();
    odd[bytes.len() - 2] = 0;
    assert_eq!(Bundle::decode(&odd), no(3, bytes.len() - 6));
    odd[bytes.len() - 3] = 2;
    assert_eq!(Bundle::decode(&odd), no(6, bytes.len() - 3));

    let empty_use = item(Body::Use {
        segments: vec![],
        elements: vec![],
    });
    let mut bundle = small(vec![empty_use.clone(); 256]);
    assert!(decode(&bundle).is_ok());
    bundle.files[0].items.push(empty_use);
    let bytes = bundle.encode().unwrap();
    assert_eq!(Bundle::decode(&bytes), no(3, bytes.len() - 6));

    let mut items = vec![];
    for _ in 0..8 {
        items = vec![module(b"m", items)];
    }
    let bundle = small(items);
    assert!(decode(&bundle).is_ok());
    let bundle = small(vec![module(b"m", bundle.files[0].items.clone())]);
    let bytes = bundle.encode().unwrap();
    assert_eq!(Bundle::decode(&bytes), no(3, bytes.len() - 6));
}

#[test]
fn path_forms() {
    let component = [b'a'; 32];
    let long = [&b"/"[..], &component].concat();
    let longer = [&long[..], b"a"].concat();
    let good: &[&[u8]] = &[b"/", b"/a", b"/...", b"/!~", b"/a/b.simf", &long];
    let bad: &[&[u8]] = &[
        b"", b"a", b"//", b"/a/", b"/a//b", b"/.", b"/..", b"/a/./b", b"/a b", b"/\x7f", b"/\x80",
        &longer,
    ];
    let with_root = |root: &[u8]| {
        let mut bundle = small(vec![]);
        bundle.root = root.to_vec();
        decode(&bundle)
    };
    for path in good {
        assert!(with_root(path).is_ok(), "{path:?}");
    }
    for path in bad {
        assert_eq!(with_root(path), no(4, 3), "{path:?}");
    }
    assert!(with_root(&b"/a".repeat(16)).is_ok());
    assert_eq!(with_root(&b"/a".repeat(17)), no(4, 3));
    // Seven components of 33 bytes and one of 24: 255 in all.
    assert!(with_root(&[long.repeat(7), long[..24].to_vec()].concat()).is_ok());
}

#[test]
fn name_forms() {
    let with_name = |name: &[u8]| decode(&small(vec![function(name)]));
    for name in [
        &b"a"[..],
        b"_",
        b"A9",
        b"fn",
        b"crate",
        b"main",
        &[b'z'; 32],
    ] {
        assert!(with_name(name).is_ok(), "{name:?}");
    }
    for name in [&b""[..], b"9", b"a-b", b"a b", b"\xc3\xa9", &[b'z'; 33]] {
        assert_eq!(with_name(name), no(5, 31), "{name:?}");
    }
}

#[test]
fn twice_and_orphan() {
    let with_paths = |folders: &[&[u8]], files: &[&[u8]]| {
        let bundle = Bundle {
            root: b"/".to_vec(),
            folders: folders.iter().map(|path| path.to_vec()).collect(),
            files: files.iter().map(|path| file(path, vec![])).collect(),
            ..Bundle::default()
        };
        decode(&bundle).map(|_| ())
    };
    let no = |number, place| Err(Refusal { number, place });
    // The first folder's path is at 6; `/x` takes three bytes, a file `/x` five.
    assert_eq!(with_paths(&[b"/a", b"/b"], &[b"/m"]), Ok(()));
    assert_eq!(with_paths(&[b"/a", b"/a"], &[b"/m"]), no(7, 9));
    assert_eq!(with_paths(&[b"/"], &[b"/m"]), no(7, 6));
    assert_eq!(with_paths(&[], &[b"/"]), no(7, 8));
    assert_eq!(with_paths(&[b"/m"], &[b"/m"]), no(7, 11));
    assert_eq!(with_paths(&[], &[b"/m", b"/m"]), no(7, 13));
    assert_eq!(with_paths(&[b"/a/b"], &[b"/m"]), no(8, 6));
    assert_eq!(with_paths(&[b"/a/b", b"/a"], &[b"/m"]), Ok(()));
    assert_eq!(with_paths(&[], &[b"/m", b"/m/n"]), no(8, 13));
    // Path by path, 7 first.
    assert_eq!(with_paths(&[b"/a/b", b"/c", b"/c"], &[b"/m"]), no(8, 6));
    assert_eq!(with_paths(&[b"/c", b"/c", b"/a/b"], &[b"/m"]), no(7, 9));
}

#[test]
fn remappings() {
    let with = |remappings: Vec<Remapping>| {
        let mut bundle = printed();
        bundle.remappings = remappings;
        check(&bundle)
    };
    // The first remapping is at 11.
    assert_eq!(with(vec![remapping(b"/", b"a", b"/r")]), None);
    assert_eq!(with(vec![remapping(b"/x", b"crate", b"/x")]), Some((9, 11)));
    assert_eq!(with(vec![remapping(b"/", b"crate", b"/x")]), Some((9, 19)));
    assert_eq!(
        with(vec![remapping(b"/r/a.simf", b"crate", b"/x")]),
        Some((10, 11))
    );
    assert_eq!(
        with(vec![remapping(b"/", b"", b"/r/main.simf")]),
        Some((10, 14))
    );
    assert_eq!(with(vec![remapping(b"/", b"crate", b"/")]), Some((11, 13)));
    for name in [
        &b""[..],
        b"9",
        b"simc",
        b"true",
        b"use",
        b"\xff",
        &[b'z'; 33],
        &[b'z'; 255],
    ] {
        assert_eq!(with(vec![remapping(b"/", name, b"/")]), Some((12, 13)));
    }
    let a = remapping(b"/", b"a", b"/r");
    let b = remapping(b"/r", b"a", b"/");
    assert_eq!(with(vec![a.clone(), b.clone()]), None);
    assert_eq!(with(vec![a.clone(), b.clone(), a.clone()]), Some((13, 25)));
    // Remapping by remapping; the root comes last.
    let mut bundle = printed();
    bundle.root = b"/x".to_vec();
    assert_eq!(check(&bundle), Some((9, 3)));
    bundle.root = b"/r/main.simf".to_vec();
    assert_eq!(check(&bundle), Some((10, 3)));
    bundle.remappings = vec![a.clone(), a];
    assert_eq!(check(&bundle), Some((13, 28)));
}

#[test]
fn lengths_that_do_not_fit() {
    assert!(small(vec![function(&[b'a'; 256])]).encode().is_err());
    let mut bundle = small(vec![]);
    bundle.folders = vec![b"/r".to_vec(); 256];
    assert!(bundle.encode().is_err());
    // 258 bytes each, so 254 functions are 65,532 bytes.
    let many = vec![function(&[b'a'; 253]); 254];
    assert!(bundle_format::image(&many).is_ok());
    assert!(bundle_format::image(&[&many[..], &[item(Body::Ignored)]].concat()).is_err());
}
