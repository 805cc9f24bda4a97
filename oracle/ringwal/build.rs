//! Mounts the checkout of the Rust that RINGWAL_SRC names. OUT_DIR gets a link to each of its files, and to what it lacks
//! beside them; `mount.rs` there declares them as modules. A link leaves the file as it is, and lets the line `mod real;` of
//! io/mod.rs find our file.
use std::env;
use std::fs;
use std::os::unix::fs::symlink;
use std::path::{Path, PathBuf};

/// The module, and its file in the checkout.
const MOUNTED: [(&str, &str); 7] = [
    ("entry", "crates/ringwal/src/entry.rs"),
    ("error", "crates/ringwal/src/error.rs"),
    ("invariants", "crates/ringwal/src/invariants.rs"),
    ("io", "crates/ringwal/src/io/mod.rs"),
    ("recovery", "crates/ringwal/src/recovery.rs"),
    ("segment", "crates/ringwal/src/segment.rs"),
    ("store", "crates/ringwal-store/src/store.rs"),
];

fn link(from: &Path, to: &Path) {
    assert!(from.is_file(), "RINGWAL_SRC has no file {}", from.display());
    println!("cargo:rerun-if-changed={}", from.display());
    let _ = fs::remove_file(to);
    symlink(from, to).expect("a link in OUT_DIR");
}

/// `io` is mounted from a folder of its own, where io/real.rs is looked for.
fn place(out: &Path, module: &str) -> PathBuf {
    if module == "io" { out.join("io/mod.rs") } else { out.join(format!("{module}.rs")) }
}

fn main() {
    println!("cargo:rerun-if-env-changed=RINGWAL_SRC");
    let checkout = PathBuf::from(env::var("RINGWAL_SRC").expect("RINGWAL_SRC names the checkout of the Rust"));
    let checkout = checkout.canonicalize().expect("RINGWAL_SRC is a folder");
    let ours = PathBuf::from(env::var("CARGO_MANIFEST_DIR").unwrap());
    let out = PathBuf::from(env::var("OUT_DIR").unwrap());
    fs::create_dir_all(out.join("io")).unwrap();
    let mut mount = String::new();
    for (module, file) in MOUNTED {
        let path = place(&out, module);
        link(&checkout.join(file), &path);
        mount += &format!("#[allow(dead_code)]\n#[path = {path:?}]\nmod {module};\n");
    }
    link(&ours.join("src/io/real.rs"), &out.join("io/real.rs"));
    fs::write(out.join("mount.rs"), mount).unwrap();
}
