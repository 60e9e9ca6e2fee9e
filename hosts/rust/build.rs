// Links the proved engine, the archives that `hosts/build` makes. SEGMENT_LIB_DIR names the folder they are in; without it the crate looks
// where they stand in its own repository.
use std::path::{Path, PathBuf};

fn main() {
    println!("cargo:rerun-if-env-changed=SEGMENT_LIB_DIR");
    let set = std::env::var_os("SEGMENT_LIB_DIR").map(PathBuf::from);
    let folder = set.unwrap_or_else(|| Path::new(env!("CARGO_MANIFEST_DIR")).join("../../target/staticlib"));
    println!("cargo:rustc-link-search=native={}", folder.display());
    for name in ["host", "host_sheets"] {
        let library = folder.join(format!("lib{name}.a"));
        println!("cargo:rerun-if-changed={}", library.display());
        if !library.is_file() {
            let folder = folder.display();
            eprintln!("lib{name}.a not found in {folder}: run `hosts/build` in the engine's repository, or set SEGMENT_LIB_DIR");
            std::process::exit(1);
        }
        println!("cargo:rustc-link-lib=static={name}");
    }
}
