//! Links libhemtoghai.a of the folder that HEMTOGHAI_LIB names.
use std::env::var_os;
use std::path::{Path, PathBuf};

const ARCHIVE: &str = "libhemtoghai.a";

/// The places that a folder may mean: cargo runs this file in the folder of the crate, and a relative name is meant
/// from where cargo was called, or from the top of this repository.
fn places(folder: &Path) -> impl Iterator<Item = PathBuf> + '_ {
    let called = var_os("PWD").map(PathBuf::from);
    let top = var_os("CARGO_MANIFEST_DIR").map(|own| Path::new(&own).join("..").join(".."));
    [called, top].into_iter().flatten().map(move |place| place.join(folder))
}

fn main() {
    println!("cargo:rerun-if-env-changed=HEMTOGHAI_LIB");
    println!("cargo:rerun-if-env-changed=PWD");
    let folder = var_os("HEMTOGHAI_LIB").expect("HEMTOGHAI_LIB has to name the folder of libhemtoghai.a");
    let found = places(Path::new(&folder)).find(|place| place.join(ARCHIVE).is_file());
    let found = found.unwrap_or_else(|| panic!("HEMTOGHAI_LIB is {folder:?}, where there is no {ARCHIVE}"));
    let found = found.canonicalize().expect("the folder was there right now");
    println!("cargo:rerun-if-changed={}", found.join(ARCHIVE).display());
    println!("cargo:rustc-link-search=native={}", found.display());
    println!("cargo:rustc-link-lib=static=hemtoghai");
}
