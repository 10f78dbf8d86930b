//! Links the proved archive, which `cross/keep` writes to `target/staticlib` of the repository.
//! `VARNUCHT_ARCHIVE` names another folder to take it from.
use std::env;
use std::path::PathBuf;

fn main() {
    println!("cargo::rerun-if-env-changed=VARNUCHT_ARCHIVE");
    let folder = match env::var_os("VARNUCHT_ARCHIVE") {
        Some(folder) => PathBuf::from(folder),
        None => {
            PathBuf::from(env::var_os("CARGO_MANIFEST_DIR").expect("cargo names the folder")).join("../target/staticlib")
        }
    };
    let archive = folder.join("libvarnucht.a");
    println!("cargo::rerun-if-changed={}", archive.display());
    if !archive.is_file() {
        println!(
            "cargo::error={} is missing: write it with `cross/keep`",
            archive.display()
        );
        return;
    }
    println!("cargo::rustc-link-search=native={}", folder.display());
    println!("cargo::rustc-link-lib=static=varnucht");
}
