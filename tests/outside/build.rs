//! Links the engine's archive. NESPRALHA_ARCHIVE names its path; the scripts beside this file set it.

use std::path::PathBuf;

fn main() {
    println!("cargo:rerun-if-env-changed=NESPRALHA_ARCHIVE");
    if std::env::var_os("CARGO_FEATURE_ALONE").is_some() {
        return;
    }
    let archive = std::env::var("NESPRALHA_ARCHIVE").unwrap_or_else(|_| "../../target/staticlib/libnespralha.a".into());
    let archive = PathBuf::from(archive).canonicalize().expect("the archive: set NESPRALHA_ARCHIVE or run tests/outside/run");
    println!("cargo:rerun-if-changed={}", archive.display());
    println!("cargo:rustc-link-arg={}", archive.display());
}
