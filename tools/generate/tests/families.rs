//! The generated stream: the same each time, with every number and every limit in it, and no tree
//! that the original could not write out.

use std::collections::BTreeMap;

use bundle_format::{limits, Body, Bundle, Item};
use bundle_generate::{bundle, far_bundle, link, stats, Family, Reach, FAMILIES, FAR, LARGEST};

fn family(name: &str) -> &'static Family {
    FAMILIES.iter().find(|family| family.name == name).unwrap()
}

#[test]
fn deterministic() {
    for index in 0..200 {
        assert_eq!(bundle(7, index, None), bundle(7, index, None));
    }
    let differ = |index| bundle(7, index, None) != bundle(8, index, None);
    assert!((0..200).filter(|&index| differ(index)).count() > 190);
}

#[test]
fn every_number_often() {
    let mut answers = String::new();
    for index in 0..60_000 {
        answers += &link::run(&bundle(1, index, None), LARGEST).text;
        answers += "--\n";
    }
    let table = stats(answers.as_bytes()).unwrap();
    for row in table.lines().skip(2).take_while(|row| !row.is_empty()) {
        let cells: Vec<&str> = row.split('|').map(str::trim).collect();
        let share: f64 = cells[4].parse().unwrap_or(f64::MAX);
        assert!(share <= 2_000.0 && !row.contains("not expected"), "{row}");
    }
    assert!(table.contains("60000 answers, 0 large, 0 panics, 0 lines of another form"));
}

#[test]
fn no_tree_too_large() {
    for family in FAMILIES.iter().chain(FAR) {
        for index in 0..400 {
            let run = link::run(&bundle(3, index, Some(family)), LARGEST);
            assert!(!run.too_large, "{} {index}", family.name);
        }
    }
}

/// Rings of up to 64 files, over 900 entries, 32 elements, many folders named `x.simf`, and copies of copies: every range of sizes.
#[test]
fn far_reaches() {
    let mut reach = Reach::default();
    for index in 0..3_000 {
        reach.note(&far_bundle(2, index));
    }
    let table = reach.table();
    for row in table.lines().skip(4) {
        let ranges = row.split('|').skip(2).take(4);
        for range in ranges {
            let count: u64 = range.split(": ").nth(1).unwrap().trim().parse().unwrap();
            assert!(count >= 15, "{row}");
        }
    }
}

/// The most of each thing that a limit is about.
fn measure(bytes: &[u8], bundle: &Bundle, most: &mut BTreeMap<&'static str, usize>) {
    let mut note = |what, count: usize| {
        let entry = most.entry(what).or_default();
        *entry = count.max(*entry);
    };
    note("total", bytes.len() - limits::HEADER);
    note("folders", bundle.folders.len());
    note("remappings", bundle.remappings.len());
    note("files", bundle.files.len());
    let paths = bundle
        .folders
        .iter()
        .chain(bundle.files.iter().map(|file| &file.path));
    for path in paths {
        note("path", path.len());
        let components = path[1..].split(|&byte| byte == b'/');
        note("components", components.clone().count());
        note("component", components.map(<[u8]>::len).max().unwrap());
    }
    let (mut items, mut uses) = (0, 0);
    fn each(items: &[Item], depth: usize, visit: &mut impl FnMut(&Item, usize)) {
        for item in items {
            visit(item, depth);
            if let Body::Module { items, .. } = &item.body {
                each(items, depth + 1, visit);
            }
        }
    }
    for file in &bundle.files {
        each(&file.items, 0, &mut |item, depth| {
            items += 1;
            match &item.body {
                Body::TypeAlias(name) => note("type", name.len()),
                Body::Function(name) => note("function", name.len()),
                Body::Enum(name) => note("enum", name.len()),
                Body::Module { name, .. } => {
                    note("module", name.len());
                    note("depth", depth + 1);
                }
                Body::Use { segments, elements } => {
                    uses += 1;
                    note("segments", segments.len());
                    note("elements", elements.len());
                    for segment in segments {
                        note("segment", segment.len());
                    }
                    for element in elements {
                        note("element", element.name.len());
                        note("alias", element.alias.as_ref().map_or(0, Vec::len));
                    }
                }
                Body::Ignored => {}
            }
        });
    }
    note("items", items);
    note("uses", uses);
}

#[test]
fn every_limit_met_and_passed() {
    let mut most = BTreeMap::new();
    // Refusals by the number, and by what stands at the place.
    let mut passed: BTreeMap<(u8, u8), usize> = BTreeMap::new();
    for (name, count) in [
        ("count-limits", 3_000),
        ("length-limits", 3_000),
        ("total-limit", 100),
        ("image-limit", 200),
        ("tree-limit", 300),
        ("deep-paths", 500),
        ("longest", 1_000),
    ] {
        for index in 0..count {
            let bytes = bundle(4, index, Some(family(name)));
            let run = link::run(&bytes, LARGEST);
            match Bundle::decode(&bytes) {
                Ok(decoded) => {
                    let lines = |word| {
                        run.text
                            .lines()
                            .filter(|line| line.starts_with(word))
                            .count()
                    };
                    if let Some(image) = run.image {
                        measure(&bytes, &decoded, &mut most);
                        let entries = lines("unit ") + lines("has ");
                        for (what, count) in [
                            ("entries", entries),
                            ("image", image.len() - limits::HEADER),
                        ] {
                            let entry = most.entry(what).or_default();
                            *entry = count.max(*entry);
                        }
                    } else {
                        let number = run.text.split(' ').nth(1).unwrap().parse().unwrap();
                        *passed.entry((number, 0)).or_default() += 1;
                    }
                }
                Err(refusal) => {
                    // An item's limit is told at its length, two bytes ahead of its kind.
                    let at = if bytes.get(refusal.place) == Some(&0) && refusal.number == 3 {
                        refusal.place + 2
                    } else {
                        refusal.place
                    };
                    let found = bytes.get(at).copied().unwrap_or_default();
                    *passed.entry((refusal.number, found)).or_default() += 1;
                }
            }
        }
    }
    let expected = BTreeMap::from([
        ("folders", limits::FOLDERS),
        ("remappings", limits::REMAPPINGS),
        ("files", limits::FILES),
        ("items", limits::ITEMS),
        ("uses", limits::USES),
        ("segments", limits::SEGMENTS),
        ("elements", limits::ELEMENTS),
        ("depth", limits::DEPTH),
        ("components", limits::COMPONENTS),
        ("path", limits::PATH),
        ("component", limits::NAME),
        ("type", limits::NAME),
        ("function", limits::NAME),
        ("enum", limits::NAME),
        ("module", limits::NAME),
        ("segment", limits::NAME),
        ("element", limits::NAME),
        ("alias", limits::NAME),
        ("total", limits::LENGTH),
        ("entries", limits::ENTRIES),
        ("image", limits::LENGTH),
    ]);
    assert_eq!(most, expected);
    for (number, found, what) in [
        (3, 65, "65 folders or files"),
        (3, 33, "33 remappings or elements"),
        (3, 17, "17 segments"),
        (3, 3, "257 uses"),
        (3, 5, "depth 9"),
        (3, 6, "1,025 items"),
        (5, 33, "a name of 33 bytes"),
        (4, 34, "17 components"),
        (4, 36, "a component of 33 bytes"),
        (15, 0, "a long image"),
        (51, 0, "a full tree"),
    ] {
        assert!(
            passed.get(&(number, found)) > Some(&10),
            "{what}: {passed:?}"
        );
    }
}

#[test]
fn table_of_answers() {
    let answers =
        "ok 1\nunit 0 /m\n--\nno 23 5\nno 23 9\nno 21 7\n--\nno 26 0\nring 0 1\n--\nlarge\n--\n";
    let table = stats(answers.as_bytes()).unwrap();
    for row in [
        "| ok | linked | 1 | 4.0 | |",
        "| 23 | no file | 1 | 4.0 | 2 |",
        "| 21 | unknown library | 1 | 4.0 | 1 |",
        "| 26 | ring | 1 | 4.0 | 1 |",
        "| 51 | tree full | 0 | never | 0 |",
        "4 answers, 1 large, 0 panics, 0 lines of another form",
    ] {
        assert!(table.lines().any(|line| line == row), "{row}\n{table}");
    }
}
