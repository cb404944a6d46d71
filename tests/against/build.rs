//! Makes the static library that GDP_LIB names reachable. Where its code is for this processor it is linked; else it
//! is linked into the small program `bridge`, which an emulator runs.

use std::path::{Path, PathBuf};
use std::process::{exit, Command};

fn main() {
    println!("cargo:rerun-if-changed=build.rs");
    println!("cargo:rustc-check-cfg=cfg(linked)");
    let archive = archive();
    println!("cargo:rerun-if-changed={}", archive.display());
    let code_is_for = processor(&archive);
    if variable("CARGO_CFG_TARGET_ARCH").as_deref() == Some(code_is_for) {
        println!("cargo:rustc-cfg=linked");
        link(&archive);
    } else {
        bridge(&archive, code_is_for);
    }
}

/// As the first object file in the archive says.
fn processor(archive: &Path) -> &'static str {
    let bytes = std::fs::read(archive).unwrap_or_default();
    let header = bytes.windows(20).find(|window| window.starts_with(b"\x7fELF"));
    match header.map(|header| u16::from_le_bytes([header[18], header[19]])) {
        Some(62) => "x86_64",
        Some(183) => "aarch64",
        _ => stop(&format!("{} holds no x86-64 object file.", archive.display())),
    }
}

fn archive() -> PathBuf {
    let Some(named) = variable("GDP_LIB") else {
        stop("GDP_LIB is not set: give it the path of the static library, libNAME.a.");
    };
    // A relative path would otherwise mean different files to this program and to the linker.
    match Path::new(&named).canonicalize() {
        Ok(archive) if archive.is_file() => archive,
        _ => stop(&format!("GDP_LIB is {named}, but there is no such file.")),
    }
}

/// The linker asks for the folder and the name between `lib` and `.a`.
fn link(archive: &Path) {
    let name = archive.file_name().and_then(|file| file.to_str()).unwrap_or_default();
    let Some(name) = name.strip_prefix("lib").and_then(|name| name.strip_suffix(".a")) else {
        stop(&format!("GDP_LIB is {}, but a static library is called libNAME.a.", archive.display()));
    };
    let folder = archive.parent().unwrap_or(archive);
    println!("cargo:rustc-link-search=native={}", folder.display());
    println!("cargo:rustc-link-lib=static={name}");
}

fn bridge(archive: &Path, code_is_for: &str) {
    println!("cargo:rerun-if-changed=bridge/bridge.c");
    if code_is_for != "x86_64" {
        stop(&format!("{} is for {code_is_for}: neither this processor nor x86-64.", archive.display()));
    }
    let Some(emulator) = variable("GDP_EMULATOR") else {
        stop("GDP_EMULATOR is not set: the library is x86-64 code, and this processor needs an emulator such as qemu-x86_64 for it.");
    };
    let program = Path::new(&variable("OUT_DIR").expect("cargo sets OUT_DIR")).join("bridge");
    let compiled = Command::new("clang")
        .args(["--target=x86_64-unknown-linux-gnu", "-O2", "-Wall", "-Wextra", "-ffreestanding"])
        .args(["-fno-stack-protector", "-nostdlib", "-static", "-fuse-ld=lld", "bridge/bridge.c"])
        .args([archive.as_os_str(), "-o".as_ref(), program.as_os_str()])
        .status();
    match compiled {
        Ok(status) if status.success() => {}
        Ok(_) => stop("clang could not build bridge/bridge.c with the library for x86-64."),
        Err(why) => stop(&format!("clang, which builds the bridge to the library, did not start: {why}.")),
    }
    println!("cargo:rustc-env=GDP_BRIDGE={}", program.display());
    println!("cargo:rustc-env=GDP_EMULATOR={emulator}");
}

fn variable(name: &str) -> Option<String> {
    println!("cargo:rerun-if-env-changed={name}");
    std::env::var(name).ok()
}

fn stop(sentence: &str) -> ! {
    eprintln!("{sentence}");
    exit(1)
}
