//! Links the proved library: libexports.a in the folder LF_LIBRARY, else where `tools/library/build.sh` writes it.
use std::env;
use std::path::PathBuf;

fn main() {
    println!("cargo::rerun-if-env-changed=LF_LIBRARY");
    let given = env::var_os("LF_LIBRARY").filter(|v| !v.is_empty());
    let here = PathBuf::from(env::var_os("CARGO_MANIFEST_DIR").expect("cargo names the crate's folder"));
    let folder = given.map_or_else(|| here.join("../../target/staticlib"), PathBuf::from);
    let Ok(file) = folder.join("libexports.a").canonicalize() else {
        println!(
            "cargo::error=no libexports.a in {}: write it by `bash tools/library/build.sh` in the repository, or name its folder in LF_LIBRARY",
            folder.display()
        );
        return;
    };
    println!("cargo::rerun-if-changed={}", file.display());
    println!("cargo::rustc-link-search=native={}", file.parent().expect("a file is in a folder").display());
    println!("cargo::rustc-link-lib=static=exports");
}
