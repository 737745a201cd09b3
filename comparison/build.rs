//! Links the proved libraries, which `bash staticlib` writes.

fn main() {
    let folder = std::path::Path::new(&std::env::var("CARGO_MANIFEST_DIR").unwrap())
        .join("../target/staticlib");
    println!("cargo:rustc-link-search=native={}", folder.display());
    for library in ["unit", "phases"] {
        println!("cargo:rustc-link-lib=static={library}");
        let archive = folder.join(format!("lib{library}.a"));
        println!("cargo:rerun-if-changed={}", archive.display());
    }
}
