//! Links libhost.a, the proved calls, from the folder that `SHAWLTIDE_LIB` names, or from where `tools/libhost` writes it. libhost.version beside it says for
//! which version of the crate it is, libhost.id which toolchain proved it.

use std::path::{Path, PathBuf};
use std::{env, fs, process};

fn main() {
    let package = PathBuf::from(env::var_os("CARGO_MANIFEST_DIR").expect("cargo sets it"));
    let folder = folder(&package);
    let library = folder.join("libhost.a");
    println!("cargo:rerun-if-env-changed=SHAWLTIDE_LIB");
    println!("cargo:rerun-if-changed={}", library.display());
    if !library.exists() {
        stop(format!("{} is not there: tools/libhost makes it.", library.display()));
    }
    ask_version(&library, folder.join("libhost.version"));
    println!("cargo:rustc-link-search=native={}", folder.display());
    println!("cargo:rustc-link-lib=static=host");
    println!(
        "cargo:rustc-env=SHAWLTIDE_TOOLCHAIN={}",
        toolchain(folder.join("libhost.id"))
    );
}

/// An empty variable counts as none. cargo builds in a folder of its own, so that a path from elsewhere would name another.
fn folder(package: &Path) -> PathBuf {
    match env::var_os("SHAWLTIDE_LIB").filter(|named| !named.is_empty()) {
        None => package.join("../target/staticlib"),
        Some(named) => {
            let named = PathBuf::from(named);
            if named.is_relative() {
                stop(format!("SHAWLTIDE_LIB is not a full path: {}", named.display()));
            }
            named
        }
    }
}

/// The calls of another version may take other parameters, which no linker finds.
fn ask_version(library: &Path, file: PathBuf) {
    let wanted = env::var("CARGO_PKG_VERSION").expect("cargo sets it");
    println!("cargo:rerun-if-changed={}", file.display());
    match fs::read_to_string(&file) {
        Ok(version) if version.trim() == wanted => {}
        Ok(version) => stop(format!(
            "{} is for version {} of the crate, and this is {wanted}: the tools/libhost of {wanted} makes the one to link.",
            library.display(),
            version.trim()
        )),
        Err(_) => stop(format!(
            "{} is not there to say that libhost.a is for version {wanted} of the crate: the tools/libhost of {wanted} makes both.",
            file.display()
        )),
    }
}

fn stop(why: String) -> ! {
    eprintln!("{why}");
    process::exit(1);
}

/// What the toolchain calls itself, or `unknown` where no file says it.
fn toolchain(file: PathBuf) -> String {
    match fs::read_to_string(&file) {
        Ok(text) => {
            println!("cargo:rerun-if-changed={}", file.display());
            text.lines().next().unwrap_or("unknown").to_string()
        }
        Err(_) => "unknown".to_string(),
    }
}
