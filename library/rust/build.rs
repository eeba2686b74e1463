//! Links the archive that `library/build` makes.

use std::path::Path;

fn main() {
    let root = std::env::var("CARGO_MANIFEST_DIR").expect("set by cargo");
    let built = Path::new(&root).join("../built");
    let archive = built.join("libramdulsi.a");
    println!("cargo::rerun-if-changed={}", archive.display());
    if !archive.is_file() {
        // the linker would name the archive alone, and not what makes it
        println!(
            "cargo::error=library/built/libramdulsi.a is not there: run library/build first, which proves the library and puts it there"
        );
        return;
    }
    println!("cargo::rustc-link-search=native={}", built.display());
    println!("cargo::rustc-link-lib=static=ramdulsi");
}
