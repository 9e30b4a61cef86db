//! Links the proved library, librail.a: of the folder in the variable RAIL_LIB_DIR, else
//! of the repository's target/staticlib, else of where pkg-config finds rail.

use std::env;
use std::path::{Path, PathBuf};
use std::process::{self, Command};

const LIBRARY: &str = "librail.a";

fn main() {
    println!("cargo:rerun-if-env-changed=RAIL_LIB_DIR");
    println!("cargo:rerun-if-env-changed=PKG_CONFIG_PATH");
    match library_folder() {
        Ok(folder) => {
            let library = folder.join(LIBRARY);
            println!("cargo:rerun-if-changed={}", library.display());
            println!("cargo:rustc-link-search=native={}", folder.display());
            println!("cargo:rustc-link-lib=static=rail");
        }
        Err(fault) => {
            eprintln!("{fault}");
            process::exit(1);
        }
    }
}

fn has_library(folder: &Path) -> bool {
    folder.join(LIBRARY).is_file()
}

fn library_folder() -> Result<PathBuf, String> {
    if let Some(folder) = env::var_os("RAIL_LIB_DIR") {
        let folder = PathBuf::from(folder);
        if has_library(&folder) {
            return Ok(folder);
        }
        return Err(format!(
            "RAIL_LIB_DIR is {}, which has no {LIBRARY}",
            folder.display()
        ));
    }
    let package = env::var_os("CARGO_MANIFEST_DIR").expect("cargo names the package");
    let built = Path::new(&package).join("../../target/staticlib");
    println!("cargo:rerun-if-changed={}", built.join(LIBRARY).display());
    if has_library(&built) {
        return Ok(built);
    }
    if let Some(folder) = installed() {
        return Ok(folder);
    }
    Err(format!(
        "{LIBRARY} was not found. One of three is needed:\n\
         - in the repository, `make`, which writes it to {} (this takes the Rattle kit, rt);\n\
         - the variable RAIL_LIB_DIR with the folder that has it;\n\
         - an installed library that `pkg-config --variable=libdir rail` finds \
         (`make install PREFIX=..`, and PKG_CONFIG_PATH=../lib/pkgconfig).",
        built.display()
    ))
}

/// The folder of an installed library.
fn installed() -> Option<PathBuf> {
    let output = Command::new("pkg-config")
        .args(["--variable=libdir", "rail"])
        .output()
        .ok()?;
    let folder = PathBuf::from(String::from_utf8(output.stdout).ok()?.trim());
    (output.status.success() && has_library(&folder)).then_some(folder)
}
