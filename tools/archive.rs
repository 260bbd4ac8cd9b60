// For the build scripts of the tools that link proved crates.

/// Links the archive of a proved crate. Where it is missing the build says in one line how to make it.
#[allow(dead_code)]
fn link_archive(name: &str) {
    let folder = std::path::Path::new(env!("CARGO_MANIFEST_DIR")).join("../../target/staticlib");
    let archive = folder.join(format!("lib{name}.a"));
    println!("cargo:rerun-if-changed={}", archive.display());
    if !archive.exists() {
        println!("cargo:warning=the proved library is missing: run `tools/archives.sh {name}`");
        std::process::exit(1);
    }
    println!("cargo:rustc-link-search=native={}", folder.display());
    println!("cargo:rustc-link-lib=static={name}");
}

/// The cfg `original`, where the build of oracle found the original's sources.
#[allow(dead_code)]
fn tell_original() {
    println!("cargo:rustc-check-cfg=cfg(original)");
    if std::env::var_os("DEP_SIMPLICITYHL_FOUND").is_some() {
        println!("cargo:rustc-cfg=original");
    }
}
