//! The cfg `printing`, where the proved printing program for streams of bundles is built.

fn main() {
    let program =
        std::path::Path::new(env!("CARGO_MANIFEST_DIR")).join("../../crates/link_vectors/out/link_vectors");
    println!("cargo:rerun-if-changed={}", program.display());
    println!("cargo:rustc-check-cfg=cfg(printing)");
    if program.exists() {
        println!("cargo:rustc-cfg=printing");
    }
}
