//! Links the archive: that of the folder that BRUNDELAK_LIB names, or the one that stands beside the crate; it needs nothing else.
use std::env;
use std::path::{Path, PathBuf};
use std::process;

fn main() {
    if let Err(why) = link() {
        eprintln!("brundelak: {}", why);
        process::exit(1);
    }
}

fn link() -> Result<(), String> {
    let (arch, os) = (variable("CARGO_CFG_TARGET_ARCH")?, variable("CARGO_CFG_TARGET_OS")?);
    let target = match (&arch[..], &os[..]) {
        ("x86_64", "linux") => "x86-64",
        ("aarch64", "linux") => "aarch64",
        ("riscv64", "linux") => "riscv64",
        ("arm", "linux") => "armv7",
        ("wasm32", "unknown") => "wasm32",
        _ => return Err(format!("there is an archive for x86-64, aarch64, riscv64 and armv7 Linux and for wasm32, and the target is {} {}", arch, os)),
    };
    let named = env::var_os("BRUNDELAK_LIB").map(PathBuf::from);
    let folder = match &named {
        Some(folder) => from_caller(folder)?,
        None => beside(Path::new(&variable("CARGO_MANIFEST_DIR")?), target),
    };
    let archive = folder.join("libbrundelak.a");
    if !archive.is_file() {
        return Err(format!(
            "{} is missing: run ./build --target {} in the repository, or name the folder of the archive by BRUNDELAK_LIB",
            archive.display(),
            target
        ));
    }
    println!("cargo:rerun-if-env-changed=BRUNDELAK_LIB");
    if matches!(&named, Some(folder) if folder.is_relative()) {
        println!("cargo:rerun-if-env-changed=PWD");
    }
    println!("cargo:rerun-if-changed={}", archive.display());
    println!("cargo:rustc-link-search=native={}", folder.display());
    println!("cargo:rustc-link-lib=static=brundelak");
    Ok(())
}

/// The folder of the archive beside the crate: what `install` wrote into share/brundelak/rust has it in lib, whatever target it was written
/// for; the repository has it where `./build` leaves it.
fn beside(own: &Path, target: &str) -> PathBuf {
    if own.ends_with("share/brundelak/rust") {
        own.join("../../../lib")
    } else if target == "x86-64" {
        own.join("../target/brundelak")
    } else {
        own.join("../target/brundelak").join(target)
    }
}

/// A folder as the caller of cargo names it. Cargo runs this in the crate's folder, but leaves the caller's in PWD.
fn from_caller(folder: &Path) -> Result<PathBuf, String> {
    match env::var_os("PWD") {
        _ if folder.is_absolute() => Ok(folder.to_path_buf()),
        Some(here) => Ok(Path::new(&here).join(folder)),
        None => Err(format!("BRUNDELAK_LIB is {}, from where cargo was called; PWD does not say where that is", folder.display())),
    }
}

/// A variable that cargo sets.
fn variable(name: &str) -> Result<String, String> {
    env::var(name).map_err(|_| format!("cargo sets no {}", name))
}
