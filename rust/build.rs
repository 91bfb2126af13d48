//! Links the proved static library. Where it is missing or a source is newer, the kit's `rt` proves and builds it first.
use std::fs;
use std::io::Result;
use std::path::Path;
use std::process::Command;
use std::time::SystemTime;

/// When a file, or any file below a folder, was last changed; what `rt` keeps in a crate's `out` is no source.
fn changed(path: &Path) -> Result<SystemTime> {
    if !path.is_dir() {
        return fs::metadata(path)?.modified();
    }
    let mut latest = SystemTime::UNIX_EPOCH;
    for entry in fs::read_dir(path)? {
        let path = entry?.path();
        if path.file_name().is_none_or(|name| name != "out") {
            latest = latest.max(changed(&path)?);
        }
    }
    Ok(latest)
}

fn main() -> Result<()> {
    let root = Path::new(env!("CARGO_MANIFEST_DIR")).join("..");
    let archive = root.join("crates/exports/out/libexports.a");
    let sources = changed(&root.join("crates"))?.max(changed(&root.join("crates.txt"))?);
    if !changed(&archive).is_ok_and(|built| built >= sources) {
        let built = Command::new("rt").arg("lib").current_dir(root.join("crates/exports")).status();
        assert!(built.is_ok_and(|s| s.success()), "`rt lib` in crates/exports did not build the library");
    }
    println!("cargo:rustc-link-search=native={}", root.join("crates/exports/out").display());
    println!("cargo:rustc-link-lib=static=exports");
    for path in [archive, root.join("crates.txt")] {
        println!("cargo:rerun-if-changed={}", path.display());
    }
    for entry in fs::read_dir(root.join("crates"))? {
        let folder = entry?.path();
        for part in ["src", "specs", "proofs"] {
            let part = folder.join(part);
            if part.is_dir() {
                println!("cargo:rerun-if-changed={}", part.display());
            }
        }
    }
    Ok(())
}
