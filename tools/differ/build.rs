//! Links the proved crate `steps_c`; the library comes with the crate gontsamy.

include!("../archive.rs");

fn main() {
    link_archive("steps_c");
    tell_original();
}
