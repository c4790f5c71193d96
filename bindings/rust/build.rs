//! Links libmabristu.a of the folder that MABRISTU_LIB names, or of dist/ of this repository: dist/aarch64 for that processor.
use std::env;
use std::path::PathBuf;

fn main() {
    println!("cargo:rerun-if-env-changed=MABRISTU_LIB");
    let of_target = if env::var("CARGO_CFG_TARGET_ARCH").as_deref() == Ok("aarch64") { "../../dist/aarch64" } else { "../../dist" };
    let beside = || PathBuf::from(env::var_os("CARGO_MANIFEST_DIR").unwrap()).join(of_target);
    let folder = env::var_os("MABRISTU_LIB").map_or_else(beside, PathBuf::from);
    let library = folder.canonicalize().unwrap_or(folder);
    let archive = library.join("libmabristu.a");
    assert!(archive.is_file(), "{} is not there: MABRISTU_LIB names its folder", archive.display());
    println!("cargo:rerun-if-changed={}", archive.display());
    println!("cargo:rustc-link-search=native={}", library.display());
    println!("cargo:rustc-link-lib=static=mabristu");
}
