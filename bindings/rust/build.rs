//! Links the proved calls: `commands/build epm_c` writes the library.

use std::path::Path;

fn main() {
    let folder = Path::new(env!("CARGO_MANIFEST_DIR")).join("../../target/staticlib");
    let library = folder.join("libepm_c.a");
    println!("cargo:rerun-if-changed={}", library.display());
    assert!(
        library.exists(),
        "{} is missing: run `commands/build epm_c` first, or ./test, which does",
        library.display()
    );
    println!("cargo:rustc-link-search=native={}", folder.display());
    println!("cargo:rustc-link-lib=static=epm_c");
}
