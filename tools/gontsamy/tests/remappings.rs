//! Remapping lists through the crate: what a list means, its refusals with number and place, the lent buffer, and the builder.

use gontsamy::layout::{BUNDLE, REMAPPINGS};
use gontsamy::{
    check, exports, link, remappings, Buffers, BuildError, Builder, ListRefusal, Number, Part,
    Reason, Refusal, Remapping,
};

/// What a list means, or its number and place.
fn read(list: &[u8]) -> Result<Vec<[Vec<u8>; 3]>, (u8, usize)> {
    let mut buffer = vec![0; REMAPPINGS];
    let section =
        remappings(list, &mut buffer).map_err(|refusal| (refusal.number.0, refusal.place))?;
    let fields = |r: Remapping| [r.context, r.name, r.target].map(<[u8]>::to_vec);
    Ok(section.remappings().map(fields).collect())
}

#[track_caller]
fn means(list: &[u8], expected: &[[&[u8]; 3]]) {
    let expected: Vec<_> = expected
        .iter()
        .map(|fields| fields.map(<[u8]>::to_vec))
        .collect();
    assert_eq!(read(list), Ok(expected), "{}", list.escape_ascii());
}

#[track_caller]
fn refused(list: &[u8], number: u8, place: usize) {
    assert_eq!(read(list), Err((number, place)), "{}", list.escape_ascii());
}

#[test]
fn lines() {
    means(b"", &[]);
    means(b"\n\n", &[]);
    means(b"lib=/l", &[[b"/", b"lib", b"/l"]]);
    means(b"\n\nlib=/l\n\n", &[[b"/", b"lib", b"/l"]]);
    means(
        b"a=/b\n/r:c=/d",
        &[[b"/", b"a", b"/b"], [b"/r", b"c", b"/d"]],
    );
    refused(b"\r\n", 52, 0);
    refused(b" ", 52, 0);
    refused(b"\0", 52, 0);
    refused(b"# a comment", 52, 0);
    refused(b"a=/b\r\n", 4, 2);
    refused(b"a=/b ", 4, 2);
    refused(b"a=/b\nc", 52, 5);
}

#[test]
fn splitting() {
    means(b"a=/b:c", &[[b"/", b"a", b"/b:c"]]);
    means(b"a=/b=c", &[[b"/", b"a", b"/b=c"]]);
    means(b"/x:b:c=/d", &[[b"/x", b"b:c", b"/d"]]);
    means(b" a\t\r\0\xff=/b", &[[b"/", b" a\t\r\0\xff", b"/b"]]);
    refused(b"/a=b:c=/d", 4, 3);
    refused(b"/r/:a=/b", 4, 0);
    refused(b":a=/b", 4, 0);
    refused(b"r:a=/b", 4, 0);
    means(b"/:a=/b", &[[b"/", b"a", b"/b"]]);
}

#[test]
fn slashes() {
    means(b"lib/=/l/", &[[b"/", b"lib", b"/l"]]);
    means(b"lib//=/l", &[[b"/", b"lib/", b"/l"]]);
    refused(b"lib=/l//", 4, 4);
    means(b"lib=/", &[[b"/", b"lib", b"/"]]);
    means(b"lib=//", &[[b"/", b"lib", b"/"]]);
    refused(b"lib=///", 4, 4);
    means(b"/=/b", &[[b"/", b"", b"/b"]]);
    means(b"=/b", &[[b"/", b"", b"/b"]]);
    means(b"//=/b", &[[b"/", b"/", b"/b"]]);
}

#[test]
fn places() {
    refused(b"=", 4, 1);
    refused(b"a=/b\n=", 4, 6);
    refused(b"a=/b\n/r:c=d", 4, 10);
    // Context, then target, then name.
    let long = [b'n'; 257];
    refused(&[b"r:", &long[..], b"=t"].concat(), 4, 0);
    refused(&[b"/r:", &long[..], b"=t"].concat(), 4, 261);
    refused(&[b"/r:", &long[..], b"=/t"].concat(), 12, 3);
    refused(&[&long[..], b"=/t"].concat(), 12, 0);
}

#[test]
fn lengths() {
    let letters = |count: usize| vec![b'n'; count];
    let list = |name: &[u8]| [name, b"=/t"].concat();
    for name in [letters(33), letters(255)] {
        means(&list(&name), &[[b"/", &name, b"/t"]]);
        means(&list(&[&name[..], b"/"].concat()), &[[b"/", &name, b"/t"]]);
    }
    refused(&list(&letters(256)), 12, 0);
    refused(&list(&[&letters(255)[..], b"//"].concat()), 12, 0);

    // Paths of 16 components, of 32 bytes in one, and of 255 in all; one `/` may follow.
    let path = |count: usize, length: usize| -> Vec<u8> {
        let component = [&b"/"[..], &vec![b'p'; length]].concat();
        component.repeat(count)
    };
    let mut whole = path(7, 32);
    whole.extend(path(1, 23));
    assert_eq!(whole.len(), 255);
    for target in [path(16, 1), path(1, 32), whole.clone()] {
        means(&[b"a=", &target[..]].concat(), &[[b"/", b"a", &target]]);
        means(
            &[b"a=", &target[..], b"/"].concat(),
            &[[b"/", b"a", &target]],
        );
        means(&[&target[..], b":a=/t"].concat(), &[[&target, b"a", b"/t"]]);
        refused(&[&target[..], b"/:a=/t"].concat(), 4, 0);
    }
    whole.push(b'p');
    for target in [path(17, 1), path(1, 33), whole] {
        refused(&[b"a=", &target[..]].concat(), 4, 2);
        refused(&[&target[..], b":a=/t"].concat(), 4, 0);
    }
    for target in [
        &b"/."[..],
        b"/..",
        b"/a/../b",
        b"/a//b",
        b"/\x7f",
        b"/\xc3\xa9",
    ] {
        refused(&[b"a=", target].concat(), 4, 2);
    }
}

/// 32 lines with content, then one more; lines without any are not counted.
#[test]
fn count() {
    let good = b"a=/b\n\n".repeat(32);
    assert_eq!(read(&good).map(|all| all.len()), Ok(32));
    for line in [&b"c=/d"[..], b"x", b"=", b" "] {
        refused(&[&good[..], line].concat(), 3, good.len());
    }
    let list = [&b"a=/b\n".repeat(31)[..], b"x\nc=/d\ne=/f\n"].concat();
    refused(&list, 52, 31 * 5);
}

/// What a bundle refuses by 11 to 13, and what it doesn't list, is written.
#[test]
fn left_to_the_bundle() {
    means(
        b"crate=/b\nuse=/b\n@a/b=/nowhere\ncrate=/b",
        &[
            [b"/", b"crate", b"/b"],
            [b"/", b"use", b"/b"],
            [b"/", b"@a/b", b"/nowhere"],
            [b"/", b"crate", b"/b"],
        ],
    );
    for (list, number) in [
        (&b"crate=/"[..], 11),
        (b"use=/", 12),
        (b"a-b=/", 12),
        (b"/=/", 12),
        (b"a=/\na/=/", 13),
        (b"a=/nowhere", 9),
        (b"a=/m", 10),
    ] {
        let mut bytes = [0; 64];
        let mut builder = Builder::new(&mut bytes, b"/").unwrap();
        builder.remapping_list(list).unwrap();
        builder.file(b"/m").unwrap();
        let bundle = builder.finish().unwrap();
        assert_eq!(check(bundle).unwrap_err().0, Number(number));
    }
}

/// The export itself: a refusal leaves the whole buffer, a section the bytes past it.
#[test]
fn buffer() {
    let call = |list: &[u8], length: usize| {
        let (mut out, mut told) = (vec![0xaa; length], 77);
        let number = exports::remappings(list, &mut out, &mut told);
        (number, told, out)
    };
    assert_eq!(
        call(b"lib=/l", 12),
        (0, 10, b"\x01\x01/\x03lib\x02/l\xaa\xaa".to_vec())
    );
    assert_eq!(
        call(b"lib=/l", 10),
        (0, 10, b"\x01\x01/\x03lib\x02/l".to_vec())
    );
    assert_eq!(call(b"lib=/l", 9), (14, 0, vec![0xaa; 9]));
    assert_eq!(call(b"", 1), (0, 1, vec![0]));
    assert_eq!(call(b"\n\n", 2), (0, 1, vec![0, 0xaa]));
    assert_eq!(call(b"", 0), (14, 0, vec![]));
    // A bad line is told before a short buffer, wherever it stands.
    assert_eq!(call(b"lib=/l\nx", 0), (52, 7, vec![]));
    assert_eq!(call(b"lib=/l\nx", 64), (52, 7, vec![0xaa; 64]));
    assert_eq!(
        remappings(b"lib=/l\n", &mut [0; 9]).map(drop),
        Err(ListRefusal {
            number: Number(14),
            place: 0,
            line: 1,
            column: 1
        })
    );
}

/// The longest section: 32 remappings of 255 bytes in each field.
#[test]
fn longest() {
    let path = [
        b"/ppppppppppppppppppppppppppppppp".repeat(7),
        vec![b'/'; 1],
        vec![b'p'; 30],
    ]
    .concat();
    assert_eq!(path.len(), 255);
    let line = [&path[..], b":", &[b'n'; 255], b"/=", &path[..], b"/\n"].concat();
    let list = line.repeat(32);
    let mut buffer = vec![0; REMAPPINGS];
    let section = remappings(&list, &mut buffer).unwrap();
    assert_eq!(section.bytes().len(), REMAPPINGS);
    assert_eq!(section.remappings().count(), 32);
    let refusal = remappings(&list, &mut buffer[..REMAPPINGS - 1]).unwrap_err();
    assert_eq!((refusal.number, refusal.place), (Number(14), 0));
    assert_eq!(refusal.to_string(), "14 small buffer");
}

/// A small program whose one library is remapped by `remap`.
fn program(
    bytes: &mut [u8],
    remap: impl FnOnce(&mut Builder) -> Result<(), BuildError>,
) -> Result<&[u8], BuildError> {
    let mut builder = Builder::new(bytes, b"/r")?;
    builder.folder(b"/r")?;
    builder.folder(b"/l")?;
    remap(&mut builder)?;
    builder.file(b"/r/main.simf")?;
    builder.use_item(false, &[b"lib", b"a"], &[(b"f", None)])?;
    builder.function(false, b"main")?;
    builder.file(b"/l/a.simf")?;
    builder.function(true, b"f")?;
    builder.finish()
}

/// A list in a bundle is the remappings that it means, alone, and before and behind others.
#[test]
fn built() {
    let (mut one, mut two) = (vec![0; BUNDLE], vec![0; BUNDLE]);
    let listed = program(&mut one, |builder| {
        builder.remapping(b"/", b"first", b"/l")?;
        builder.remapping_list(b"/r:lib/=/l/\n\nlib=/\n")?;
        builder.remapping_list(b"\n")?;
        builder.remapping(b"/", b"last", b"/r")
    });
    let written = program(&mut two, |builder| {
        builder.remapping(b"/", b"first", b"/l")?;
        builder.remapping(b"/r", b"lib", b"/l")?;
        builder.remapping(b"/", b"lib", b"/")?;
        builder.remapping(b"/", b"last", b"/r")
    });
    assert_eq!(listed, written);
    let mut buffers = Box::new(Buffers::new());
    let linked = link(listed.unwrap(), &mut buffers).unwrap();
    assert!(linked
        .units()
        .map(|unit| unit.path)
        .eq([&b"/l/a.simf"[..], b"/r/main.simf"]));

    // The list alone, and one without any remapping, for which the use is refused.
    let listed = program(&mut one, |builder| builder.remapping_list(b"lib=/l"));
    let written = program(&mut two, |builder| builder.remapping(b"/", b"lib", b"/l"));
    assert_eq!(listed, written);
    let none = program(&mut one, |builder| builder.remapping_list(b""));
    assert_eq!(none, program(&mut two, |_| Ok(())));
    let Err(Refusal::Report(mut records)) = link(none.unwrap(), &mut buffers) else {
        panic!("a report");
    };
    assert_eq!(records.next().map(|record| record.number), Some(Number(21)));
}

#[test]
fn builder_errors() {
    let error = |reason| {
        Err(BuildError {
            part: Part::RemappingList,
            reason,
        })
    };
    let mut bytes = vec![0; BUNDLE];
    let mut builder = Builder::new(&mut bytes, b"/").unwrap();
    builder.remapping(b"/", b"a", b"/").unwrap();
    let refusal = ListRefusal {
        number: Number(52),
        place: 6,
        line: 3,
        column: 1,
    };
    assert_eq!(
        builder.remapping_list(b"b=/l\n\nlib\n"),
        error(Reason::List(refusal))
    );
    // 255 remappings have a count, whatever the linker says of them.
    let many = b"a=/\n".repeat(32);
    for _ in 0..7 {
        builder.remapping_list(&many).unwrap();
    }
    assert_eq!(builder.remapping_list(&many), error(Reason::LongList));
    builder.remapping_list(&many[..30 * 4]).unwrap();
    assert_eq!(builder.remapping_list(b"a=/"), error(Reason::LongList));
    builder.file(b"/m").unwrap();
    assert_eq!(builder.remapping_list(b"a=/"), error(Reason::Order));
    let bundle = builder.finish().unwrap();
    assert_eq!(bundle[6], 255);
    assert_eq!(bundle.len(), 7 + 255 * 6 + 6);
    assert_eq!(check(bundle), Err((Number(3), 6)));

    // A lent buffer that is just long enough, and one byte less.
    for (length, told) in [(16, Ok(())), (15, error(Reason::SmallBuffer))] {
        let mut bytes = vec![0; length];
        let mut builder = Builder::new(&mut bytes, b"/").unwrap();
        assert_eq!(builder.remapping_list(b"lib=/l\n"), told);
    }
    // The longest bundle is full before its buffer.
    let mut bytes = vec![0; BUNDLE + 100];
    let mut builder = Builder::new(&mut bytes, b"/").unwrap();
    let long = [b'p'; 255];
    for _ in 0..85 {
        builder.remapping(&long, &long, &long).unwrap();
    }
    assert_eq!(BUNDLE - (7 + 85 * 768), 251);
    let name = [&[b'n'; 247][..], b"=/"].concat();
    assert_eq!(builder.remapping_list(&name), error(Reason::LongBundle));
    assert_eq!(builder.remapping_list(&name[1..]), Ok(()));
}
