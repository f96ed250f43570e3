// Links libgemtweed.a, from GEMTWEED_LIB_DIR or from ../target/staticlib, where `build_library` writes it.

use std::path::PathBuf;

fn main() {
    println!("cargo:rerun-if-env-changed=GEMTWEED_LIB_DIR");
    let own = PathBuf::from(std::env::var_os("CARGO_MANIFEST_DIR").expect("set by cargo"));
    let folder = match std::env::var_os("GEMTWEED_LIB_DIR") {
        Some(given) => PathBuf::from(given),
        None => own.join("../target/staticlib"),
    };
    let library = folder.join("libgemtweed.a");
    if !library.is_file() {
        eprintln!("no {}: run `build_library` at the top of the repository, or set GEMTWEED_LIB_DIR", library.display());
        std::process::exit(1);
    }
    println!("cargo:rerun-if-changed={}", library.display());
    println!("cargo:rustc-link-search=native={}", folder.display());
    println!("cargo:rustc-link-lib=static=gemtweed");
}
