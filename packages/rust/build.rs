//! Links the proved static library: the file that NUM_FORMAT_LIBRARY names, else that of pkg-config's `num_format`,
//! else `lib/libnum_format.a` in the folder of this crate, as a release has it, else the one that `tools/build
//! library` builds in the repository of this crate.
//!
//! Without any of them the crate can be checked and documented, but not built: a warning says what is missing.

use std::path::{Path, PathBuf};
use std::process::Command;
use std::{env, fs, process};

/// The variable that names the library.
const VARIABLE: &str = "NUM_FORMAT_LIBRARY";

/// Where the library is, from the folder of this crate, in which build scripts run: in a release, and in the repository.
const BESIDE: [&str; 2] = ["lib/libnum_format.a", "../../crates/num_format_c/out/libnum_format_c.a"];

fn main() {
    println!("cargo:rerun-if-changed=build.rs");
    println!("cargo:rerun-if-env-changed={VARIABLE}");
    println!("cargo:rerun-if-env-changed=PKG_CONFIG");
    println!("cargo:rerun-if-env-changed=PKG_CONFIG_PATH");
    if let Err(error) = link() {
        eprintln!("error: {error}");
        process::exit(1);
    }
}

/// Has the library linked under a name of its own, from a copy of its file.
fn link() -> Result<(), String> {
    let target = env::var("TARGET").map_err(|error| error.to_string())?;
    if !(target.starts_with("x86_64") && target.contains("linux")) {
        return Err(format!("the library is not for the target {target}"));
    }
    let folder = PathBuf::from(env::var_os("OUT_DIR").ok_or("cargo sets no OUT_DIR")?);
    let copy = folder.join("libnum_format.a");
    println!("cargo:rustc-link-search=native={}", folder.display());
    println!("cargo:rustc-link-lib=static=num_format");
    if let Some(library) = library()? {
        println!("cargo:rerun-if-changed={}", library.display());
        fs::copy(&library, copy).map_err(|error| format!("{}: {error}", library.display()))?;
        return Ok(());
    }
    for path in BESIDE {
        println!("cargo:rerun-if-changed={path}");
    }
    println!(
        "cargo:warning=there is no proved library to link, so this can only be checked and documented. Set {VARIABLE} \
         to the path of libnum_format_c.a or libnum_format.a, install the C package so that `pkg-config num_format` \
         knows it, or run `tools/build library` in the repository."
    );
    match fs::remove_file(copy) {
        Err(error) if error.kind() != std::io::ErrorKind::NotFound => Err(error.to_string()),
        _ => Ok(()),
    }
}

/// Returns the path of the library, if there is one.
fn library() -> Result<Option<PathBuf>, String> {
    if let Some(path) = env::var_os(VARIABLE) {
        let path = PathBuf::from(path);
        return if path.is_file() {
            Ok(Some(path))
        } else {
            Err(format!("{VARIABLE} names no file: {}", path.display()))
        };
    }
    let mut paths = installed().into_iter().chain(BESIDE.map(PathBuf::from));
    Ok(paths.find(|path| path.is_file()))
}

/// Returns where pkg-config says that the static library is, if it knows one. What is installed here is for no other
/// target, unless a program is named.
fn installed() -> Option<PathBuf> {
    let named = env::var_os("PKG_CONFIG");
    if named.is_none() && env::var_os("HOST") != env::var_os("TARGET") {
        return None;
    }
    let output = Command::new(named.unwrap_or_else(|| "pkg-config".into()))
        .args(["--variable=libdir", "num_format"])
        .output()
        .ok()
        .filter(|output| output.status.success())?;
    let folder = String::from_utf8(output.stdout).ok()?;
    Some(Path::new(folder.trim()).join("libnum_format.a"))
}
