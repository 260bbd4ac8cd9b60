//! The library through the crate on generated bundles: units, order, entries, image and refusals are those of the model of
//! tools/generate, and those of the proved printing program.

use std::process::{Command, Stdio};

use bundle_generate::link::run;
use gontsamy::{link, Buffers, Kind, Refusal};

/// The printed lines of an answer.
fn lines(bundle: &[u8], buffers: &mut Buffers) -> (String, Option<Vec<u8>>) {
    match link(bundle, buffers) {
        Err(Refusal::At(number, place)) => (format!("no {} {place}\n", number.0), None),
        Err(Refusal::Report(records)) => {
            let mut text = String::new();
            for record in records {
                text += &format!("no {} {}\n", record.number.0, record.place);
                if record.number.0 == 26 {
                    let ids: String = record.ring.iter().map(|id| format!(" {id}")).collect();
                    text += &format!("ring{ids}\n");
                }
            }
            (text, None)
        }
        Ok(linked) => {
            let mut text = format!("ok {}\n", linked.units().count());
            for unit in linked.units() {
                text += &format!("unit {} {}\n", unit.id, String::from_utf8_lossy(unit.path));
            }
            let entries: Vec<_> = linked.entries().collect();
            for entry in entries.iter().filter(|entry| entry.scope.is_some()) {
                let mut path = Vec::new();
                let mut scope = entry.scope;
                while let Some(module) = scope {
                    path.push(String::from_utf8_lossy(entries[module].name()).into_owned());
                    scope = entries[module].scope;
                }
                path.push("crate".to_string());
                path.reverse();
                let kind = match entry.kind {
                    Kind::Type => 1,
                    Kind::Function => 2,
                    Kind::Module => 3,
                };
                let name = String::from_utf8_lossy(entry.name()).into_owned();
                text += &format!("has {} {kind} {name} {}\n", path.join("::"), entry.mark);
            }
            (text, Some(linked.image().to_vec()))
        }
    }
}

fn count() -> u64 {
    let count = std::env::var("GONTSAMY_BUNDLES").ok();
    count.and_then(|count| count.parse().ok()).unwrap_or(3_000)
}

/// Bundles of all families, and as many that reach to the limits.
fn bundles(seed: u64, count: u64) -> impl Iterator<Item = Vec<u8>> {
    (0..count).flat_map(move |index| {
        let near = bundle_generate::bundle(seed, index, None);
        [near, bundle_generate::far_bundle(seed, index)]
    })
}

#[test]
fn generated_bundles() {
    let count = count();
    let mut buffers = Box::new(Buffers::new());
    let mut linked = 0;
    for bundle in bundles(5, count) {
        let expected = run(&bundle, 100_000);
        if expected.too_large {
            continue;
        }
        let (text, image) = lines(&bundle, &mut buffers);
        assert_eq!(text, expected.text);
        assert_eq!(image, expected.image);
        linked += u64::from(image.is_some());
    }
    assert!(linked > count / 2);
}

/// The printing program on a stream of bundles, with the image of each that links (crates/link_vectors).
fn printed(bundles: &[Vec<u8>]) -> String {
    let path = std::env::temp_dir().join(format!("gontsamy-stream-{}", std::process::id()));
    let mut stream = Vec::new();
    for bundle in bundles {
        stream.extend((bundle.len() as u32).to_be_bytes());
        stream.extend(bundle);
    }
    std::fs::write(&path, &stream).unwrap();
    let program = concat!(env!("CARGO_MANIFEST_DIR"), "/../../crates/link_vectors/out/link_vectors");
    let output = Command::new(program)
        .stdin(Stdio::from(std::fs::File::open(&path).unwrap()))
        .output()
        .unwrap();
    std::fs::remove_file(&path).unwrap();
    String::from_utf8(output.stdout).unwrap()
}

#[test]
#[cfg_attr(
    not(printing),
    ignore = "crates/link_vectors/out/link_vectors is not there: `rt run` in crates/link_vectors makes it"
)]
fn printing_program() {
    let mut buffers = Box::new(Buffers::new());
    let all: Vec<Vec<u8>> = bundles(6, count()).collect();
    for some in all.chunks(1_000) {
        let mut expected = String::new();
        for bundle in some {
            let (text, image) = lines(bundle, &mut buffers);
            expected += &text;
            if let Some(image) = image {
                let digits: String = image.iter().map(|byte| format!("{byte:02x}")).collect();
                expected += &format!("image {digits}\n");
            }
            expected += "--\n";
        }
        assert!(printed(some) == expected, "the lines differ");
    }
}
