//! Tells cargo where the archive is: in the folder that MB_LIBRARY names, as library/build.sh makes it. A program that is
//! itself compiled for x86-64-v3 gets the archive for it, if that is there.

use std::path::Path;

/// What a program for x86-64-v3 takes for granted beyond one for x86-64-v2.
const V3: [&str; 8] = [
    "avx", "avx2", "bmi1", "bmi2", "f16c", "fma", "lzcnt", "movbe",
];

fn main() {
    println!("cargo:rerun-if-env-changed=MB_LIBRARY");
    let folder = std::env::var("MB_LIBRARY")
        .expect("MB_LIBRARY has to name the folder that library/build.sh has made");
    let archive_of = |name: &str| Path::new(&folder).join(format!("lib/lib{name}.a"));
    let features = std::env::var("CARGO_CFG_TARGET_FEATURE").unwrap_or_default();
    let is_v3 = V3
        .iter()
        .all(|it| features.split(',').any(|has| has == *it));
    let name = if is_v3 && archive_of("mb_library_v3").is_file() {
        "mb_library_v3"
    } else {
        "mb_library"
    };
    let archive = archive_of(name);
    // cargo runs this in the folder of this crate, so a path from where cargo was called would lead elsewhere
    assert!(
        archive.is_absolute(),
        "MB_LIBRARY is {folder}, and has to be a path that begins with /"
    );
    assert!(
        archive.is_file(),
        "{} is not there: library/build.sh builds it",
        archive.display()
    );
    println!("cargo:rerun-if-changed={}", archive.display());
    println!("cargo:rustc-link-search=native={folder}/lib");
    println!("cargo:rustc-link-lib=static={name}");
}
