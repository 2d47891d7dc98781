use std::env;
use std::path::Path;

fn main() {
    let package = env::var("CARGO_MANIFEST_DIR").expect("cargo sets CARGO_MANIFEST_DIR");
    let directory = Path::new(&package).join("../target/staticlib");
    let library = directory.join("libllamput.a");
    println!("cargo::rerun-if-changed={}", library.display());
    if !library.is_file() {
        let remedy = "run tools/archive at the repository's root";
        println!("cargo::error=target/staticlib/libllamput.a is absent: {remedy}");
        return;
    }
    println!("cargo::rustc-link-search=native={}", directory.display());
    println!("cargo::rustc-link-lib=static=llamput");
}
