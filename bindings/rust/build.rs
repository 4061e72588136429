//! Finds the library, which `tools/build_c` builds and `tools/install_c` installs, and has it linked.
//!
//! It is looked for in the folder that NASHIRUDDER_DIR names (the PREFIX of `tools/install_c`, or `build_c` of a clone);
//! without it where `pkg-config` finds it. The static library is linked, or with the feature `shared` the shared one.

use std::env;
use std::path::{Path, PathBuf};
use std::process::{exit, Command};

const HOW: &str = "`tools/build_c --quick` in a clone of Nashirudder builds it in build_c/, in some minutes, and \
                   `tools/install_c PREFIX` installs it; then set NASHIRUDDER_DIR to one of these folders, or \
                   PKG_CONFIG_PATH to PREFIX/lib/pkgconfig";

/// The library's folder: of a folder itself, and of the usual ones below it, the first that has the file.
fn below(folder: &Path, file: &str) -> Option<PathBuf> {
    ["", "lib", "lib64", "build_c"]
        .iter()
        .map(|name| folder.join(name))
        .find(|place| place.join(file).is_file())
}

/// The folder that pkg-config names.
fn of_pkg_config() -> Option<PathBuf> {
    let program = env::var_os("PKG_CONFIG").unwrap_or_else(|| "pkg-config".into());
    let told = Command::new(program)
        .args(["--variable=libdir", "nashirudder"])
        .output()
        .ok()
        .filter(|told| told.status.success())?;
    Some(PathBuf::from(String::from_utf8(told.stdout).ok()?.trim()))
}

/// The folder that has the file. Says what is missing if there is none.
fn find(file: &str) -> Result<PathBuf, String> {
    if let Some(folder) = env::var_os("NASHIRUDDER_DIR") {
        let folder = PathBuf::from(folder);
        return below(&folder, file).ok_or_else(|| {
            format!("{file} is not in {}, which NASHIRUDDER_DIR names: {HOW}", folder.display())
        });
    }
    let folder = of_pkg_config()
        .ok_or_else(|| format!("{file} was not found, by NASHIRUDDER_DIR or pkg-config: {HOW}"))?;
    below(&folder, file)
        .ok_or_else(|| format!("{file} is not in {}, which pkg-config names: {HOW}", folder.display()))
}

fn main() {
    for name in ["NASHIRUDDER_DIR", "PKG_CONFIG", "PKG_CONFIG_PATH"] {
        println!("cargo:rerun-if-env-changed={name}");
    }
    // docs.rs has no library, and the documentation needs none.
    if env::var_os("DOCS_RS").is_some() {
        return;
    }
    let is_shared = env::var_os("CARGO_FEATURE_SHARED").is_some();
    let (file, kind) = if is_shared {
        ("libnashirudder.so", "dylib")
    } else {
        ("libnashirudder.a", "static")
    };
    let folder = find(file).unwrap_or_else(|missing| {
        eprintln!("{missing}");
        exit(1);
    });
    println!("cargo:rerun-if-changed={}", folder.join(file).display());
    println!("cargo:rustc-link-search=native={}", folder.display());
    println!("cargo:rustc-link-lib={kind}=nashirudder");
    // For build scripts of crates that depend on this one, as DEP_NASHIRUDDER_LIBDIR
    println!("cargo:libdir={}", folder.display());
    if is_shared {
        // For this crate's examples and tests: other programs say themselves where they find it.
        println!("cargo:rustc-link-arg=-Wl,-rpath,{}", folder.display());
    }
}
