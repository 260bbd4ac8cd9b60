//! The generated remapping lists: the same each time, with every number and every limit in them.

use std::collections::{BTreeMap, BTreeSet};

use bundle_format::limits;
use bundle_format::remapping_lines::{read, section};
use bundle_generate::lines::{list, short};

const LISTS: u64 = 60_000;

#[test]
fn deterministic() {
    for index in 0..200 {
        assert_eq!(list(7, index), list(7, index));
    }
    let differ = |index| list(7, index) != list(8, index);
    assert!((0..200).filter(|&index| differ(index)).count() > 180);
}

#[test]
fn every_number_often() {
    let mut numbers: BTreeMap<&str, u64> = BTreeMap::new();
    for index in 0..LISTS {
        let list = list(1, index);
        let number = match read(&list) {
            Ok(remappings) if remappings.is_empty() => "no remapping",
            Ok(_) => "remappings",
            Err((number, place)) => {
                let first = place == 0 || list[place - 1] == b'\n';
                let line = list[place..].split(|&byte| byte == b'\n').next();
                let equals = line.is_some_and(|line| line.contains(&b'='));
                match (number, first, equals) {
                    (3, true, true) => "3",
                    (3, true, false) => "3, no `=`",
                    (4, true, _) => "4, context",
                    (4, false, _) => "4, target",
                    (12, true, true) => "12, no context",
                    (12, false, true) => "12",
                    (52, true, false) => "52",
                    _ => panic!("{number} {place}: {}", list.escape_ascii()),
                }
            }
        };
        *numbers.entry(number).or_default() += 1;
    }
    assert!(numbers["remappings"] > LISTS / 3, "{numbers:?}");
    assert_eq!(numbers.len(), 9, "{numbers:?}");
    assert!(numbers.values().all(|&count| count > 50), "{numbers:?}");
}

/// The most of each thing that a limit is about, among the lists that are read.
#[test]
fn every_limit_met() {
    let mut most: BTreeMap<&str, usize> = BTreeMap::new();
    let mut note = |what, count: usize| {
        let entry = most.entry(what).or_default();
        *entry = count.max(*entry);
    };
    for index in 0..LISTS {
        let Ok(remappings) = read(&list(2, index)) else {
            continue;
        };
        note("remappings", remappings.len());
        note("section", section(&remappings).len());
        for remapping in &remappings {
            note("name", remapping.name.len());
            for path in [&remapping.context, &remapping.target] {
                let components = path[1..].split(|&byte| byte == b'/');
                note("path", path.len());
                note("components", components.clone().count());
                note("component", components.map(<[u8]>::len).max().unwrap());
            }
        }
    }
    let expected = BTreeMap::from([
        ("remappings", limits::REMAPPINGS),
        ("section", limits::SECTION),
        ("name", limits::STRING),
        ("path", limits::PATH),
        ("components", limits::COMPONENTS),
        ("component", limits::NAME),
    ]);
    assert_eq!(most, expected);
}

#[test]
fn every_short_list() {
    let lists: BTreeSet<Vec<u8>> = short().collect();
    assert_eq!(short().count(), lists.len());
    assert_eq!(lists.len(), (0..=6).map(|length| 5usize.pow(length)).sum());
    let bytes = b"/:=a\n";
    let small = |list: &Vec<u8>| list.len() <= 6 && list.iter().all(|byte| bytes.contains(byte));
    assert!(lists.iter().all(small));
}
