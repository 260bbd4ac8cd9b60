//! Links the proved crate `host`.

include!("../archive.rs");

fn main() {
    link_archive("host");
}
