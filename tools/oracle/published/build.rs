//! Writes a module file that points at the published source where it lies,
//! so that it is built unchanged and no file of it is copied here.
use std::fmt::Write;
use std::path::{Path, PathBuf};
use std::{env, fs};

const ENGINE: [&str; 5] = ["term", "frontend", "data", "path_frontend", "face_frontend"];

/// What the producer's module has before its syntax, and behind it: `face` and `interval` are for it alone, so it passes them on.
const BEFORE: &str = "use super::ast::{Face, Interval, Term};\nuse crate::sexp::Result;\n";
const BEHIND: &str = "
pub fn face(f: &Face, depth: usize, nodes: &mut usize) -> Result<()> {
    syntax::face(f, depth, nodes)
}
pub fn interval(r: &Interval, depth: usize, nodes: &mut usize) -> Result<()> {
    syntax::interval(r, depth, nodes)
}
";

/// The folder `src` of the published source, by the variable.
fn folder() -> PathBuf {
    let Some(path) = env::var_os("ORACLE_SOURCE").filter(|v| !v.is_empty()).map(PathBuf::from) else {
        panic!("no published source: name its folder src in ORACLE_SOURCE");
    };
    fs::canonicalize(&path).unwrap_or_else(|e| panic!("no published source at {}: {e}", path.display()))
}

/// FNV-1a over the files that are built, to say in reports which source it was.
fn sum(files: &[PathBuf]) -> (usize, u64) {
    let mut hash = 0xcbf2_9ce4_8422_2325_u64;
    let mut bytes = 0;
    for file in files {
        for byte in fs::read(file).unwrap_or_else(|e| panic!("{}: {e}", file.display())) {
            hash = (hash ^ u64::from(byte)).wrapping_mul(0x100_0000_01b3);
            bytes += 1;
        }
    }
    (bytes, hash)
}

fn module(out: &mut String, file: &Path, name: &str) {
    writeln!(out, "#[path = {:?}] pub mod {name};", file.to_str().unwrap()).unwrap();
}

/// Says which files these are, to cargo too.
fn constants(out: &mut String, files: &[PathBuf]) {
    for file in files {
        println!("cargo:rerun-if-changed={}", file.display());
    }
    let (bytes, hash) = sum(files);
    writeln!(out, "pub const FILES: usize = {};", files.len()).unwrap();
    writeln!(out, "pub const BYTES: usize = {bytes};").unwrap();
    writeln!(out, "pub const SUM: u64 = 0x{hash:016x};").unwrap();
}

/// The producer's syntax with the trees that it is asked of. It has a sum of its own: the stored samples have the engine's.
fn producer(out: &mut String, cubical: &Path) {
    let files = [cubical.join("ast.rs"), cubical.join("producer/syntax.rs")];
    module(out, &files[0], "ast");
    write!(out, "pub mod producer {{\n{BEFORE}").unwrap();
    module(out, &files[1], "syntax");
    out.push_str(BEHIND);
    constants(out, &files);
    out.push_str("}\n");
}

fn main() {
    println!("cargo:rerun-if-env-changed=ORACLE_SOURCE");
    let source = folder().join("src");
    let (cubical, engine) = (source.join("cubical"), source.join("cubical/engine"));
    let mut files = vec![source.join("sexp.rs"), engine.join("face_ops.rs")];
    files.extend(ENGINE.map(|name| engine.join(format!("{name}.rs"))));
    let mut text = String::new();
    module(&mut text, &files[0], "sexp");
    text.push_str("pub mod cubical {\n");
    producer(&mut text, &cubical);
    text.push_str("pub mod engine {\npub use crate::constant;\n");
    for name in ENGINE {
        module(&mut text, &engine.join(format!("{name}.rs")), name);
    }
    text.push_str("} }\n");
    constants(&mut text, &files);
    let out = PathBuf::from(env::var_os("OUT_DIR").unwrap());
    fs::write(out.join("published.rs"), text).unwrap();
}
