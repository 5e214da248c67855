//! With the feature `linked`, links the archive in the folder that EXPORTS_DIR names.

use std::env;
use std::path::{self, Path, PathBuf};

/// What to do where there is no archive.
const HELP: &str =
    "`host/make exports`, at the top of the repository, writes target/staticlib/libexports.a; \
    set EXPORTS_DIR to that folder";

fn main() {
    println!("cargo::rerun-if-env-changed=EXPORTS_DIR");
    if env::var_os("CARGO_FEATURE_LINKED").is_none() {
        return;
    }
    match folder() {
        Ok(folder) => link(&folder),
        Err(error) => println!("cargo::error={error}: {HELP}"),
    }
}

/// The folder of the archive. Cargo runs this in the folder of this package; a relative name is meant from the one that cargo was
/// called in, which the shell has left in PWD.
fn folder() -> Result<PathBuf, String> {
    let named = env::var_os("EXPORTS_DIR").ok_or("EXPORTS_DIR is not set")?;
    let mut folder = PathBuf::from(named);
    if folder.is_relative() {
        println!("cargo::rerun-if-env-changed=PWD");
        folder = Path::new(&env::var_os("PWD").unwrap_or_default()).join(folder);
    }
    let folder = path::absolute(&folder).map_err(|error| format!("EXPORTS_DIR: {error}"))?;
    match folder.join("libexports.a").is_file() {
        true => Ok(folder),
        false => Err(format!(
            "EXPORTS_DIR has no libexports.a: {}",
            folder.display()
        )),
    }
}

fn link(folder: &Path) {
    let folder = folder.display();
    println!("cargo::rerun-if-changed={folder}/libexports.a");
    println!("cargo::rustc-link-search=native={folder}");
    println!("cargo::rustc-link-lib=static=exports");
}
