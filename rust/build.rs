//! Finds libcbqri.a: in the folder that CBQRI_LIB_DIR names, from where the
//! user stands if it is relative, or where pkg-config says that it is installed.

use std::env;
use std::path::PathBuf;
use std::process::{exit, Command};

/// Ends the build with one line.
fn missing(what: &str) -> ! {
    eprintln!("{what}");
    exit(1)
}

/// The folder that CBQRI_LIB_DIR names, if it is set.
fn named() -> Option<PathBuf> {
    println!("cargo:rerun-if-env-changed=CBQRI_LIB_DIR");
    let dir = PathBuf::from(env::var_os("CBQRI_LIB_DIR")?);
    if dir.is_absolute() {
        return Some(dir);
    }
    // cargo runs this program in the crate's folder and leaves PWD to the user's
    println!("cargo:rerun-if-env-changed=PWD");
    match env::var_os("PWD") {
        Some(here) => Some(PathBuf::from(here).join(dir)),
        None => missing("CBQRI_LIB_DIR is relative and PWD is not set: give the whole path"),
    }
}

/// The folder that pkg-config knows for this version, if there is one.
fn installed() -> Option<PathBuf> {
    for name in ["PKG_CONFIG", "PKG_CONFIG_PATH", "PKG_CONFIG_LIBDIR", "PKG_CONFIG_SYSROOT_DIR"] {
        println!("cargo:rerun-if-env-changed={name}");
    }
    let program = env::var_os("PKG_CONFIG").unwrap_or_else(|| "pkg-config".into());
    let wanted = |arguments: &[&str]| Command::new(&program).args(arguments).output().ok();
    let found = wanted(&["--exists", &format!("cbqri >= {}, cbqri < {}", minor(0), minor(1))])?;
    let libdir = wanted(&["--variable=libdir", "cbqri"])?;
    if !found.status.success() || !libdir.status.success() {
        return None;
    }
    Some(PathBuf::from(String::from_utf8(libdir.stdout).ok()?.trim_end()))
}

/// This crate's version without its patch, or a later one.
fn minor(later: u32) -> String {
    let number = |name: &str| env::var(name).unwrap().parse::<u32>().unwrap();
    let (major, minor) = (number("CARGO_PKG_VERSION_MAJOR"), number("CARGO_PKG_VERSION_MINOR"));
    format!("{major}.{}", minor + later)
}

fn main() {
    let dir = named().or_else(installed).unwrap_or_else(|| {
        missing(&format!(
            "libcbqri.a is missing: set CBQRI_LIB_DIR to its folder, or install version {} of it \
             where pkg-config finds cbqri.pc",
            minor(0)
        ))
    });
    let library = dir.join("libcbqri.a");
    if !library.is_file() {
        missing(&format!("libcbqri.a is missing: there is no {}", library.display()));
    }
    println!("cargo:rerun-if-changed={}", library.display());
    println!("cargo:rustc-link-search=native={}", dir.display());
    println!("cargo:rustc-link-lib=static=cbqri");
}
