//! Links the proved crate `scopes_c`.

include!("../archive.rs");

fn main() {
    link_archive("scopes_c");
    tell_original();
}
