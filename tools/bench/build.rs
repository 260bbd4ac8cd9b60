//! Whether the original is there; the proved code comes with the crate gontsamy.

include!("../archive.rs");

fn main() {
    tell_original();
}
