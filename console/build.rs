//! Links the static library of the proved functions. It is looked for in three places, in this order: the folder
//! that DEZGHURI_LIB_DIR names; `build/` beside the package, into which `make library` puts it; and where
//! pkg-config knows of an installed one of the package's own version.

use std::path::{Path, PathBuf};
use std::process::{exit, Command};

const VARIABLE: &str = "DEZGHURI_LIB_DIR";
/// The library as it is installed, and as it is built.
const INSTALLED: &str = "dezghuri";
const BUILT: &str = "console";

fn main() {
    println!("cargo::rerun-if-changed=build.rs");
    for name in [VARIABLE, "PKG_CONFIG_PATH", "PKG_CONFIG_SYSROOT_DIR"] {
        println!("cargo::rerun-if-env-changed={name}");
    }
    let found = match std::env::var_os(VARIABLE) {
        Some(folder) => named(Path::new(&folder)),
        None => built().map_or_else(installed, Ok),
    };
    match found {
        Ok((folder, name)) => {
            let library = folder.join(format!("lib{name}.a"));
            println!("cargo::rerun-if-changed={}", library.display());
            println!("cargo::rustc-link-search=native={}", folder.display());
            println!("cargo::rustc-link-lib=static={name}");
        }
        Err(why) => {
            println!("cargo::error={why}");
            exit(1);
        }
    }
}

/// A folder with the library, and the name that it has there.
type Found = (PathBuf, &'static str);

/// The first library of these names in a folder.
fn library_in(folder: &Path, names: &[&'static str]) -> Option<Found> {
    let is_there = |name: &&&str| folder.join(format!("lib{name}.a")).is_file();
    let name = names.iter().find(is_there)?;
    let folder = std::path::absolute(folder).ok()?;
    Some((folder, name))
}

/// The library in the folder of the variable: who names one wants no other. A path that does not begin at the
/// root begins at the package's folder, in which cargo runs this.
fn named(folder: &Path) -> Result<Found, String> {
    library_in(folder, &[INSTALLED, BUILT]).ok_or_else(|| {
        let folder = folder.display();
        format!("{VARIABLE} is {folder}, and neither libdezghuri.a nor libconsole.a is there")
    })
}

fn built() -> Option<Found> {
    let here = std::env::var_os("CARGO_MANIFEST_DIR").expect("cargo sets it");
    library_in(&PathBuf::from(here).join("../build"), &[BUILT])
}

/// The library where pkg-config knows of it. One of another version may answer in other cells, so it is not taken.
fn installed() -> Result<Found, String> {
    let version = std::env::var("CARGO_PKG_VERSION").expect("cargo sets it");
    let asked = Command::new("pkg-config")
        .env("PKG_CONFIG_ALLOW_SYSTEM_LIBS", "1")
        .args(["--libs-only-L", &format!("dezghuri = {version}")])
        .output();
    let told = match asked {
        Ok(asked) if asked.status.success() => String::from_utf8_lossy(&asked.stdout).into_owned(),
        _ => String::new(),
    };
    let mut folders = told
        .split_whitespace()
        .filter_map(|word| word.strip_prefix("-L"));
    let found = folders.find_map(|folder| library_in(Path::new(folder), &[INSTALLED]));
    found.ok_or_else(|| {
        format!(
            "the library of the proved functions is missing: run `make library` in the project's folder; or set \
             {VARIABLE} to the folder of libdezghuri.a; or install version {version} where pkg-config finds \
             dezghuri.pc (PKG_CONFIG_PATH)"
        )
    })
}
