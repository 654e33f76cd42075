//! Finds libt1subset: in the folder that T1SUBSET_LIB_DIR names, else by pkg-config, else in the repository.

use std::env;
use std::path::{Path, PathBuf};
use std::process::Command;

const SHARED: &str = "libt1subset.so";
const ARCHIVE: &str = "libt1subset.a";

fn main() {
    println!("cargo:rerun-if-changed=build.rs");
    for name in ["T1SUBSET_LIB_DIR", "PKG_CONFIG", "PKG_CONFIG_PATH", "PKG_CONFIG_LIBDIR", "PKG_CONFIG_SYSROOT_DIR"] {
        println!("cargo:rerun-if-env-changed={name}");
    }
    if let Some(folder) = env::var_os("T1SUBSET_LIB_DIR") {
        if link_from(Path::new(&folder)) {
            return;
        }
        eprintln!("T1SUBSET_LIB_DIR is {}, which has neither {ARCHIVE} nor {SHARED}", folder.to_string_lossy());
        std::process::exit(1);
    }
    if link_by_pkg_config() {
        return;
    }
    let manifest = PathBuf::from(env::var_os("CARGO_MANIFEST_DIR").expect("cargo names the folder of the package"));
    if link_from(&manifest.join("..").join("lib")) {
        return;
    }
    // Checking and documenting need no library, so only the linker stops where there is none.
    println!(
        "cargo:warning=libt1subset is not found: set T1SUBSET_LIB_DIR to the folder of libt1subset.a or libt1subset.so"
    );
    println!("cargo:rustc-link-lib=t1subset");
}

/// Links the library of a folder: the archive if there is one, since a program then runs without a path to the other.
fn link_from(folder: &Path) -> bool {
    for (file, kind) in [(ARCHIVE, "static"), (SHARED, "dylib")] {
        let path = folder.join(file);
        println!("cargo:rerun-if-changed={}", path.display());
        if path.exists() {
            // The compiler may run in another folder than this script.
            let folder = folder.canonicalize().unwrap_or_else(|_| folder.into());
            println!("cargo:rustc-link-search=native={}", folder.display());
            println!("cargo:rustc-link-lib={kind}=t1subset");
            return true;
        }
    }
    false
}

/// Links what pkg-config finds. Its own library is not the target's, unless somebody says which pkg-config is.
fn link_by_pkg_config() -> bool {
    let program = env::var_os("PKG_CONFIG");
    if program.is_none() && env::var_os("HOST") != env::var_os("TARGET") {
        return false;
    }
    let program = program.unwrap_or_else(|| "pkg-config".into());
    let flags = match Command::new(program).args(["--libs", "t1subset"]).output() {
        Ok(done) if done.status.success() => String::from_utf8_lossy(&done.stdout).into_owned(),
        _ => return false,
    };
    for flag in flags.split_whitespace() {
        if let Some(folder) = flag.strip_prefix("-L") {
            println!("cargo:rustc-link-search=native={folder}");
        } else if let Some(name) = flag.strip_prefix("-l") {
            println!("cargo:rustc-link-lib={name}");
        }
    }
    true
}
