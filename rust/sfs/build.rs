//! Links `libsfs.a`: the archive that `SFS_LIB` names, or the one that `rt lib` makes in this repository, of crates/sfs_c.
use std::env;
use std::path::{Path, PathBuf};
use std::process::Command;

fn main() {
    println!("cargo:rerun-if-env-changed=SFS_LIB");
    let archive = match env::var_os("SFS_LIB") {
        Some(path) => {
            let archive = PathBuf::from(path);
            println!("cargo:rerun-if-changed={}", archive.display());
            archive
        }
        None => made_here(),
    };
    assert!(
        archive.is_file(),
        "{} is no file: set SFS_LIB to libsfs.a",
        archive.display()
    );
    let folder = archive.canonicalize().expect("the archive's place").with_file_name("");
    println!("cargo:rustc-link-search=native={}", folder.display());
    println!("cargo:rustc-link-lib=static={}", link_name(&archive));
}

/// `libNAME.a` is linked as NAME.
fn link_name(archive: &Path) -> &str {
    let stem = archive.file_stem().and_then(|stem| stem.to_str()).unwrap_or("");
    match stem.strip_prefix("lib") {
        Some(name) => name,
        None => panic!("{} is not named lib*.a", archive.display()),
    }
}

/// Proves the library and makes its archive, with the Rattle kit; again where a crate has changed.
fn made_here() -> PathBuf {
    let target = env::var("CARGO_CFG_TARGET_ARCH").unwrap_or_default();
    assert!(
        target == "x86_64",
        "`rt` makes libsfs.a for x86-64 only, and this is a build for {target}: `make` at the repository's root builds for x86-64 here"
    );
    let root = Path::new(&env::var("CARGO_MANIFEST_DIR").expect("cargo runs this")).join("../..");
    println!("cargo:rerun-if-changed={}", root.join("crates.txt").display());
    for part in parts_of_crates(&root.join("crates")) {
        println!("cargo:rerun-if-changed={}", part.display());
    }
    let crate_for_c = root.join("crates/sfs_c");
    let done = Command::new("rt").arg("lib").current_dir(&crate_for_c).status();
    match done {
        Ok(status) if status.success() => crate_for_c.join("out/libsfs_c.a"),
        Ok(status) => panic!("`rt lib` in crates/sfs_c ended with {status}"),
        Err(e) => panic!("`rt` cannot be run ({e}): install the Rattle kit, or set SFS_LIB to libsfs.a"),
    }
}

/// What `rt` reads of each crate. What it leaves there, in `out`, changes whenever it runs.
fn parts_of_crates(crates: &Path) -> Vec<PathBuf> {
    let mut parts = Vec::new();
    for entry in crates.read_dir().into_iter().flatten().flatten() {
        for part in ["src", "specs", "proofs"] {
            let path = entry.path().join(part);
            if path.is_dir() {
                parts.push(path);
            }
        }
    }
    parts
}
