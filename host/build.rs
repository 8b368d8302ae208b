//! Finds the engine's static library, and how this machine can call it.
//!
//! The library is `libengine.a` in the folder that RELAY_ENGINE_DIR names, or else in `../target/staticlib`, where
//! `sh tools/build-engine.sh library` writes it. It is x86-64 code. On x86-64 it is linked; on another machine `link-c.sh`
//! makes a process of it (`bridge.c`), which the crate talks to instead (`src/bridge.rs`).

use std::path::{Path, PathBuf};
use std::process::{exit, Command};
use std::{env, fs};

fn main() {
    let host = PathBuf::from(setting("CARGO_MANIFEST_DIR"));
    let folder = match env::var_os("RELAY_ENGINE_DIR") {
        Some(folder) => PathBuf::from(folder),
        None => host.join("../target/staticlib"),
    };
    let library = folder.join("libengine.a");
    println!("cargo:rerun-if-env-changed=RELAY_ENGINE_DIR");
    println!("cargo:rerun-if-changed={}", library.display());
    println!("cargo:rustc-check-cfg=cfg(bridged)");
    let Ok(bytes) = fs::read(&library) else {
        eprintln!("no engine at {}", library.display());
        eprintln!("`sh tools/build-engine.sh library` makes it; RELAY_ENGINE_DIR names another folder.");
        exit(1);
    };
    let processor = processor(&bytes);
    if processor == Some(setting("CARGO_CFG_TARGET_ARCH").as_str()) {
        let folder = fs::canonicalize(&folder).expect("the folder of the engine has a full path");
        println!("cargo:rustc-link-search=native={}", folder.display());
        println!("cargo:rustc-link-lib=static=engine");
    } else {
        bridge(&host, &library);
    }
}

/// The processor that the archive's first object file is for: ELF, two bytes at 18.
fn processor(archive: &[u8]) -> Option<&'static str> {
    let start = archive.windows(4).position(|four| four == b"\x7fELF")?;
    match archive.get(start + 18..start + 20)? {
        [62, 0] => Some("x86_64"),
        [183, 0] => Some("aarch64"),
        _ => None,
    }
}

/// Makes the engine's process, and tells the crate where it is.
fn bridge(host: &Path, library: &Path) {
    for file in ["bridge.c", "relay.h", "link-c.sh", "emulator.sh"] {
        println!("cargo:rerun-if-changed={}", host.join(file).display());
    }
    let program = PathBuf::from(setting("OUT_DIR")).join("engine-process");
    let made = Command::new("sh")
        .arg(host.join("link-c.sh"))
        .arg(library)
        .arg(&program)
        .arg(host.join("bridge.c"))
        .status()
        .expect("sh starts");
    assert!(made.success(), "link-c.sh made no engine process");
    println!("cargo:rustc-cfg=bridged");
    println!("cargo:rustc-env=RELAY_ENGINE_PROCESS={}", program.display());
}

fn setting(name: &str) -> String {
    env::var(name).unwrap_or_else(|_| panic!("cargo sets {name}"))
}
