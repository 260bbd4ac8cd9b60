//! The examples: their marks, and their expected output by the generator's model.

use bundle_format::Bundle;
use bundle_generate::link;
use bundle_text::{pack, show};

macro_rules! example {
    ($name:literal) => {
        (
            $name,
            include_str!(concat!("../../../examples/", $name, ".bundle.txt")),
            include_str!(concat!("../../../examples/", $name, ".stdout")),
        )
    };
}

const EXAMPLES: [(&str, &str, &str); 5] = [
    example!("printed"),
    example!("missing-file"),
    example!("private-import"),
    example!("right-remapping"),
    example!("wrong-remapping"),
];

#[test]
fn examples() {
    for (name, text, expected) in EXAMPLES {
        let bytes = pack(text.as_bytes()).unwrap_or_else(|error| panic!("{name}: {error}"));
        assert_eq!(link::run(&bytes, 1_000).text, expected, "{name}");
        let shown = show(&Bundle::decode(&bytes).unwrap());
        let (_, without_comment) = text.split_once("bundle 1\n").unwrap();
        assert_eq!(shown, format!("bundle 1\n{without_comment}"), "{name}");
    }
}
