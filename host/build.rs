//! Tells the tests which archive the library was linked from, so that they link programs of C with the same.

fn main() {
    println!("cargo::rerun-if-env-changed=DEP_GIRDERBASIL_ARCHIVE");
    let archive = std::env::var("DEP_GIRDERBASIL_ARCHIVE");
    let archive = archive.expect("the package girderbasil says which archive it links");
    println!("cargo::rustc-env=GIRDERBASIL_ARCHIVE={archive}");
}
