//! Finds libutasiro.a, the proved library, in the folder that UTASIRO_LIB_DIR names, or where `rt lib` in crates/utasiro
//! writes it, and refuses one for another processor than this build is for.

use std::path::{Path, PathBuf};
use std::{env, fs, process};

/// The processors that are told apart: as cargo names them, and the machine of an ELF object.
const PROCESSORS: [(&str, u16); 2] = [("x86_64", 62), ("aarch64", 183)];

fn main() {
    println!("cargo:rerun-if-env-changed=UTASIRO_LIB_DIR");
    let folder = env::var_os("UTASIRO_LIB_DIR").map_or_else(default_folder, PathBuf::from);
    let library = folder.join("libutasiro.a");
    println!("cargo:rerun-if-changed={}", library.display());
    if let Err(why) = fits(&library) {
        eprintln!("{why}");
        eprintln!("`rt lib` in crates/utasiro writes the library to its folder out, for x86-64. `host/library` makes one");
        eprintln!(
            "that programs of this machine can link and prints its folder: set UTASIRO_LIB_DIR to that."
        );
        process::exit(1);
    }
    println!("cargo:rustc-link-search=native={}", folder.display());
    println!("cargo:rustc-link-lib=static=utasiro");
}

fn default_folder() -> PathBuf {
    let here = env::var_os("CARGO_MANIFEST_DIR").expect("cargo names the crate's folder");
    PathBuf::from(here).join("../../crates/utasiro/out")
}

/// Whether there is a library for the processor that this build is for.
fn fits(library: &Path) -> Result<(), String> {
    let at = library.display();
    let archive = fs::read(library).map_err(|error| format!("There is no library at {at}: {error}."))?;
    let machine =
        machine_of(&archive).ok_or_else(|| format!("{at} is no archive with an ELF object in it."))?;
    let wanted = env::var("CARGO_CFG_TARGET_ARCH").expect("cargo names the processor");
    let known = PROCESSORS.iter().find(|(_, number)| *number == machine);
    let found = known.map_or_else(|| format!("ELF machine {machine}"), |(name, _)| name.to_string());
    if found == wanted {
        return Ok(());
    }
    Err(format!("{at} is for {found}, and this build is for {wanted}."))
}

/// The machine of the first ELF object in an archive. A member is a header of 60 bytes, its size in decimal at byte 48,
/// and then so many bytes, made even.
fn machine_of(archive: &[u8]) -> Option<u16> {
    let mut rest = archive.strip_prefix(b"!<arch>\n")?;
    loop {
        let size = std::str::from_utf8(rest.get(48..58)?).ok()?.trim_end().parse::<usize>().ok()?;
        let member = rest.get(60..60_usize.checked_add(size)?)?;
        if member.starts_with(b"\x7fELF") {
            return Some(u16::from_le_bytes([*member.get(18)?, *member.get(19)?]));
        }
        rest = rest.get(60 + size + size % 2..)?;
    }
}
