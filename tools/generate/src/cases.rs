//! Bundles for measuring a whole link: six shapes that programs have, and the worst that are known. Each
//! of them links.

use bundle_format::{limits, Body, Bundle, File, Item};

use crate::project::{element, file, function, import, item, module, remapping};

/// Their names, each with what it is.
pub const CASES: [(&str, &str); 11] = [
    ("tiny", "the printed case of the README"),
    ("office", "12 files, remapped libraries"),
    ("wide", "64 files, 256 uses"),
    ("deep", "paths of 16 components"),
    ("names", "1,024 items of long names"),
    ("scopes", "1,004 entries"),
    (
        "siblings",
        "256 uses down eight folders below a root of 231 bytes, 49 folders and 64 files beside each other",
    ),
    ("below", "64 files below a folder of 231 bytes"),
    (
        "alike",
        "57 folders and 64 files with a common prefix of 231 bytes",
    ),
    ("one-hash", "1,000 names of one hash of the tree's index"),
    (
        "one-walk",
        "1,000 names whose walks in the tree's index part as late as names of 24 equal bytes can",
    ),
];

/// The case of a name, encoded.
pub fn case(name: &str) -> Option<Vec<u8>> {
    let bundle = match name {
        "tiny" => tiny(),
        "office" => office(),
        "wide" => wide(),
        "deep" => deep(),
        "names" => names(),
        "scopes" => scopes(),
        "siblings" => siblings(),
        "below" => below(),
        "alike" => alike(),
        "one-hash" => one_hash(),
        "one-walk" => one_walk(),
        _ => return None,
    };
    bundle.encode().ok()
}

fn main() -> Item {
    function(false, b"main")
}

fn alias(public: bool, name: &str) -> Item {
    item(public, Body::TypeAlias(name.as_bytes().to_vec()))
}

/// A private use of one function under a new name.
fn renamed(segments: &str, name: &str, new: &str) -> Item {
    let new = Some(new.as_bytes());
    import(false, segments, vec![element(name.as_bytes(), new)])
}

fn listed(paths: &[&str]) -> Vec<Vec<u8>> {
    paths.iter().map(|path| path.as_bytes().to_vec()).collect()
}

fn tiny() -> Bundle {
    let entry = vec![import(false, "crate::a", vec![element(b"f", None)]), main()];
    Bundle {
        root: b"/r".to_vec(),
        folders: listed(&["/r"]),
        files: vec![
            file("/r/main.simf", entry),
            file("/r/a.simf", vec![function(true, b"f")]),
        ],
        ..Bundle::default()
    }
}

/// A payroll program of four files with four libraries of two files; two of the libraries stand on the
/// other two, by names that mean another folder for the program.
fn office() -> Bundle {
    let library = |name: &str, uses: Vec<Item>| -> [File; 2] {
        let mut items = uses;
        items.push(import(
            true,
            "crate::rules",
            vec![element(b"rate", None), element(b"Money", None)],
        ));
        for at in 0..6 {
            items.push(function(true, format!("{name}_{at}").as_bytes()));
        }
        items.push(module(
            true,
            b"report",
            vec![function(true, b"total"), alias(true, "Line")],
        ));
        let rules = vec![
            alias(true, "Money"),
            alias(false, "Cents"),
            function(true, b"rate"),
            function(false, b"rounded"),
            item(false, Body::Ignored),
        ];
        [
            file(format!("/office/lib/{name}/{name}.simf"), items),
            file(format!("/office/lib/{name}/rules.simf"), rules),
        ]
    };
    let total = |path: &str, new: &str| renamed(&format!("{path}::report"), "total", new);
    let mut files = vec![
        file(
            "/office/app/payroll.simf",
            vec![
                import(
                    false,
                    "pay::pay",
                    vec![element(b"pay_0", None), element(b"Money", None)],
                ),
                import(
                    false,
                    "crate::staff::people",
                    vec![element(b"first", None), element(b"all", None)],
                ),
                import(false, "crate::staff::hours", vec![element(b"sum", None)]),
                total("pay::pay", "paid"),
                total("tax::tax", "taxed"),
                function(false, b"monthly"),
                function(false, b"yearly"),
                main(),
            ],
        ),
        file(
            "/office/app/staff/people.simf",
            vec![
                import(false, "crate::staff::hours", vec![element(b"sum", None)]),
                import(false, "tax::tax", vec![element(b"tax_1", None)]),
                alias(true, "Person"),
                function(true, b"first"),
                function(true, b"all"),
            ],
        ),
        file(
            "/office/app/staff/hours.simf",
            vec![
                import(false, "crate::dates", vec![element(b"Day", None)]),
                alias(true, "Hours"),
                function(true, b"sum"),
            ],
        ),
        file(
            "/office/app/dates.simf",
            vec![alias(true, "Day"), alias(true, "Month")],
        ),
    ];
    files.extend(library("pay", vec![total("base::ledger", "booked")]));
    files.extend(library("tax", vec![total("base::table", "looked_up")]));
    files.extend(library("ledger", Vec::new()));
    files.extend(library("table", Vec::new()));
    Bundle {
        root: b"/office/app".to_vec(),
        folders: listed(&[
            "/office",
            "/office/app",
            "/office/app/staff",
            "/office/lib",
            "/office/lib/pay",
            "/office/lib/tax",
            "/office/lib/ledger",
            "/office/lib/table",
        ]),
        remappings: vec![
            remapping(b"/office/app", b"pay", b"/office/lib/pay"),
            remapping(b"/office/app", b"tax", b"/office/lib/tax"),
            remapping(b"/office/lib/pay", b"base", b"/office/lib/ledger"),
            remapping(b"/office/lib/tax", b"base", b"/office/lib/table"),
        ],
        files,
        ..Bundle::default()
    }
}

/// Eight folders of eight files, each with four functions; each imports from the next four.
fn wide() -> Bundle {
    let path = |at: usize| format!("team_{}::file_{at}", at / 8);
    let mut files = Vec::new();
    let mut uses = 0;
    for at in 0..limits::FILES {
        // The last three import fewer, the entry so many more.
        let last = if at == 0 { 14 } else { at + 4 };
        let mut items = Vec::new();
        for next in at + 1..=last.min(limits::FILES - 1) {
            uses += 1;
            let path = format!("crate::{}", path(next));
            items.push(renamed(&path, "f0", &format!("from_{next}")));
        }
        for number in 0..4 {
            items.push(function(true, format!("f{number}").as_bytes()));
        }
        if at == 0 {
            items.push(main());
        }
        let path = format!("/r/{}.simf", path(at).replace("::", "/"));
        files.push(file(path, items));
    }
    assert_eq!(uses, limits::USES);
    let mut folders = listed(&["/r"]);
    folders.extend((0..8).map(|at| format!("/r/team_{at}").into_bytes()));
    Bundle {
        root: b"/r".to_vec(),
        folders,
        files,
        ..Bundle::default()
    }
}

/// Fifteen nested folders with four files each, below the root; each file imports from the next four.
fn deep() -> Bundle {
    let mut folders = Vec::new();
    let mut names = Vec::new();
    for at in 0..limits::COMPONENTS - 1 {
        names.push(format!("level_{at:02}"));
        folders.push(format!("/{}", names.join("/")).into_bytes());
    }
    let place = |at: usize| (14 - at / 4, format!("file_{at:02}"));
    let count = 60;
    let files = (0..count).map(|at| {
        let mut items: Vec<Item> = (at + 1..count.min(at + 5))
            .map(|next| {
                let (depth, name) = place(next);
                let mut segments = vec!["crate".to_string()];
                segments.extend_from_slice(&names[1..=depth]);
                segments.push(name);
                renamed(&segments.join("::"), "f", &format!("from_{next}"))
            })
            .collect();
        items.push(function(true, b"f"));
        if at == 0 {
            items.push(main());
        }
        let (depth, name) = place(at);
        file(format!("/{}/{name}.simf", names[..=depth].join("/")), items)
    });
    Bundle {
        root: folders[0].clone(),
        files: files.collect(),
        folders,
        ..Bundle::default()
    }
}

/// Sixteen files of 64 items, names of 32 bytes that differ in their last three.
fn names() -> Bundle {
    let name = |at: usize, number: usize| format!("a_long_name_that_people_write{at:x}{number:02}");
    let path = |at: usize| format!("a_module_of_the_program_{at:02}");
    let files = (0..16).map(|at| {
        let mut items: Vec<Item> = (at + 1..16.min(at + 3))
            .map(|next| {
                let element = element(name(next, 0).as_bytes(), None);
                import(false, &format!("crate::{}", path(next)), vec![element])
            })
            .collect();
        items.push(item(false, Body::Ignored));
        items.push(item(false, Body::Ignored));
        if at == 0 {
            items.push(main());
        }
        for number in 0.. {
            if items.len() == 64 {
                break;
            }
            let name = name(at, number).into_bytes();
            items.push(item(
                true,
                match number % 3 {
                    1 => Body::TypeAlias(name),
                    _ => Body::Function(name),
                },
            ));
        }
        file(format!("/r/{}.simf", path(at)), items)
    });
    Bundle {
        root: b"/r".to_vec(),
        folders: listed(&["/r"]),
        files: files.collect(),
        ..Bundle::default()
    }
}

/// A file of 32 names, each a type, a function and a module; nine modules of the entry that import all of
/// them.
fn scopes() -> Bundle {
    let names: Vec<String> = (0..limits::ELEMENTS)
        .map(|at| format!("name_{at}"))
        .collect();
    let mut items = Vec::new();
    for name in &names {
        items.push(alias(true, name));
        items.push(function(true, name.as_bytes()));
        items.push(module(true, name.as_bytes(), Vec::new()));
    }
    let elements = || names.iter().map(|name| element(name.as_bytes(), None));
    let mut entry: Vec<Item> = (0..9)
        .map(|at| {
            let all = import(false, "crate::all", elements().collect());
            module(false, format!("part_{at}").as_bytes(), vec![all])
        })
        .collect();
    for at in 0..32 {
        entry.push(function(false, format!("own_{at}").as_bytes()));
    }
    entry.push(main());
    Bundle {
        root: b"/r".to_vec(),
        folders: listed(&["/r"]),
        files: vec![file("/r/main.simf", entry), file("/r/all.simf", items)],
        ..Bundle::default()
    }
}

/// Seven nested folders whose last has a path of 231 bytes, each before the next.
fn long_folders() -> Vec<Vec<u8>> {
    let mut folders: Vec<Vec<u8>> = Vec::new();
    for at in 0..7u8 {
        let mut folder = folders.last().cloned().unwrap_or_default();
        folder.push(b'/');
        folder.extend([b'a' + at; limits::NAME]);
        folders.push(folder);
    }
    folders
}

/// Two letters for each number.
fn letters(at: usize) -> String {
    let letter = |at: usize| char::from(b'a' + at as u8);
    [letter(at / 26), letter(at % 26)].iter().collect()
}

/// The files of these names in a folder below the root: the first imports from the others by the segments
/// ahead of the name, so many times, each time under a new name.
fn importing(folder: &[u8], names: &[String], ahead: &str, uses: usize) -> Vec<File> {
    let others = names.len() - 1;
    names
        .iter()
        .enumerate()
        .map(|(at, name)| {
            let mut items = Vec::new();
            if at == 0 {
                for number in 0..uses {
                    let path = format!("{ahead}::{}", names[1 + number % others]);
                    items.push(renamed(&path, "f", &format!("f{number}")));
                }
                items.push(main());
            }
            items.push(function(true, b"f"));
            let mut path = folder.to_vec();
            path.extend(format!("/{name}.simf").bytes());
            file(path, items)
        })
        .collect()
}

fn siblings() -> Bundle {
    let mut folders = long_folders();
    let root = folders[6].clone();
    let mut ahead = "crate".to_string();
    let mut bottom = root.clone();
    for letter in 'a'..='h' {
        bottom.extend([b'/', letter as u8]);
        folders.push(bottom.clone());
        ahead.push_str("::");
        ahead.push(letter);
    }
    for at in 0..49 {
        let mut folder = bottom.clone();
        folder.extend(format!("/{}", letters(26 * 10 + at)).bytes());
        folders.push(folder);
    }
    // The worst order for what looks for a folder among those listed.
    folders.reverse();
    let names: Vec<String> = (0..limits::FILES).map(letters).collect();
    Bundle {
        files: importing(&bottom, &names, &ahead, limits::USES),
        root,
        folders,
        ..Bundle::default()
    }
}

fn below() -> Bundle {
    let mut folders = long_folders();
    let root = folders[6].clone();
    folders.reverse();
    let names: Vec<String> = (0..limits::FILES)
        .map(|at| format!("a_file_of_it_{at:03}"))
        .collect();
    Bundle {
        files: importing(&root, &names, "crate", limits::FILES - 1),
        root,
        folders,
        ..Bundle::default()
    }
}

fn alike() -> Bundle {
    let mut folders = long_folders();
    let root = folders[6].clone();
    for at in 0..57 {
        let mut folder = root.clone();
        folder.extend(format!("/a_folder_of_it_{at:03}").bytes());
        folders.push(folder);
    }
    folders.reverse();
    let names: Vec<String> = (0..limits::FILES)
        .map(|at| format!("a_folder_of_{at:03}"))
        .collect();
    Bundle {
        files: importing(&root, &names, "crate", limits::FILES - 1),
        root,
        folders,
        ..Bundle::default()
    }
}

/// What the index of the tree mixes of a public function's name directly in the entry: 36 bits, of which the
/// lowest ten are the hash.
fn mix(name: &[u8]) -> u64 {
    let mut bytes = [0; limits::NAME];
    bytes[..name.len()].copy_from_slice(name);
    let word = |at: usize| {
        let word = bytes[8 * at..8 * at + 8].try_into().expect("eight bytes");
        u64::from_be_bytes(word)
    };
    let high: [u64; 4] = [165902239, 232471937, 176714393, 150740719];
    let low: [u64; 4] = [189812533, 220889051, 215493451, 182388329];
    let words: u64 = (0..4)
        .map(|at| (word(at) >> 32) * high[at] + (word(at) & 0xffff_ffff) * low[at])
        .sum();
    (words + 7000208109065 + 2 * 3387945472435) >> 28
}

/// Public functions of these names, and `main`, in one file.
fn declaring(names: impl Iterator<Item = String>) -> Bundle {
    let mut items: Vec<Item> = names
        .take(1_000)
        .map(|name| function(true, name.as_bytes()))
        .collect();
    items.push(main());
    Bundle {
        root: b"/r".to_vec(),
        folders: listed(&["/r"]),
        files: vec![file("/r/main.simf", items)],
        ..Bundle::default()
    }
}

fn one_hash() -> Bundle {
    let names = (0..).map(|at| format!("f{at}"));
    declaring(names.filter(|name| mix(name.as_bytes()).is_multiple_of(1_024)))
}

/// Names of 32 bytes that agree in all 36 bits of the mix and in their first 24 bytes: for each choice of four
/// letters there are one or two numbers for the last four bytes, some of which are letters.
fn one_walk() -> Bundle {
    let letters: Vec<u8> = (b'A'..=b'Z').chain(b'a'..=b'z').collect();
    let ahead = "a".repeat(24);
    let target = mix(format!("{ahead}mmmmmmmm").as_bytes());
    let mut names = Vec::new();
    for at in 0.. {
        let mut rest = at;
        let mut four = String::new();
        for _ in 0..4 {
            four.push(letters[rest % letters.len()] as char);
            rest /= letters.len();
        }
        if rest > 0 {
            break;
        }
        // The mix rises with the last four bytes: the first number that reaches the target, and the next.
        let reaches = |last: u32| -> bool {
            let mut bytes = format!("{ahead}{four}").into_bytes();
            bytes.extend(last.to_be_bytes());
            mix(&bytes) >= target
        };
        let (mut under, mut over) = (0u32, u32::MAX);
        if !reaches(over) || reaches(under) {
            continue;
        }
        while over - under > 1 {
            let middle = under + (over - under) / 2;
            match reaches(middle) {
                true => over = middle,
                false => under = middle,
            }
        }
        for last in over..over.saturating_add(3) {
            let bytes = last.to_be_bytes();
            if !bytes.iter().all(|byte| letters.contains(byte)) {
                continue;
            }
            let name = format!("{ahead}{four}{}", String::from_utf8_lossy(&bytes));
            if mix(name.as_bytes()) == target {
                names.push(name);
            }
        }
        if names.len() >= 1_000 {
            break;
        }
    }
    declaring(names.into_iter())
}
