//! Links the library's archive, libpcp.a: from the folder that the variable PCP_ARCHIVE_FOLDER names, otherwise from
//! where `scripts/build archive` puts it. A path that is not absolute begins at this folder.

use std::env;
use std::path::PathBuf;

const VARIABLE: &str = "PCP_ARCHIVE_FOLDER";
const USUAL_FOLDER: &str = "../../target/staticlib";
const ARCHIVE: &str = "libpcp.a";

fn main() {
    let crate_folder = PathBuf::from(env::var_os("CARGO_MANIFEST_DIR").expect("cargo runs this"));
    let folder = crate_folder.join(env::var_os(VARIABLE).unwrap_or_else(|| USUAL_FOLDER.into()));
    let archive = folder.join(ARCHIVE);
    if !archive.is_file() {
        panic!("no {}: run `scripts/build archive`, or name {ARCHIVE}'s folder in {VARIABLE}", archive.display());
    }
    println!("cargo:rerun-if-env-changed={VARIABLE}");
    println!("cargo:rerun-if-changed={}", archive.display());
    println!("cargo:rustc-link-search=native={}", folder.display());
    println!("cargo:rustc-link-lib=static=pcp");
}
