//! Links libexports.a, which `tools/staticlib` writes. `RIMDOVEK_STATICLIB` names its folder; without it, the repository's.
use std::env;
use std::path::PathBuf;

fn main() {
    let folder = env::var_os("RIMDOVEK_STATICLIB").map_or_else(
        || PathBuf::from(env!("CARGO_MANIFEST_DIR")).join("../../target/staticlib"),
        PathBuf::from,
    );
    println!("cargo::rerun-if-env-changed=RIMDOVEK_STATICLIB");
    println!("cargo::rerun-if-changed={}", folder.join("libexports.a").display());
    println!("cargo::rustc-link-search=native={}", folder.display());
    println!("cargo::rustc-link-lib=static=exports");
}
