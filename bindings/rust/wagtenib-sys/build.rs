//! Compiles the assembly of dist/ with the C compiler, without the network and without another crate.
//!
//! With the feature `sha-instructions`, dist/sha_instructions.c is compiled too, and the assembly calls it.
//!
//! `CC` names the compiler and `AR` the archiver; they are gcc and ar if nothing is set, and those of the target's prefix if cargo builds for another processor.

use std::env;
use std::path::{Path, PathBuf};
use std::process::Command;

/// Returns a variable that cargo sets.
fn set_by_cargo(name: &str) -> String {
    env::var(name).unwrap_or_else(|_| panic!("{name} is not set: cargo sets it, so build this crate by cargo"))
}

/// Runs a program, and ends the build with its words if it fails.
fn run(command: &mut Command) {
    match command.status() {
        Ok(status) if status.success() => {}
        Ok(status) => panic!("{command:?} ended with {status}"),
        Err(error) => panic!("{command:?} did not start: {error} (install gcc and binutils, or set CC and AR)"),
    }
}

/// Returns the tool that a variable names, or the usual one of the target's processor.
fn tool(variable: &str, name: &str, processor: &str) -> String {
    println!("cargo:rerun-if-env-changed={variable}");
    let other = set_by_cargo("HOST") != set_by_cargo("TARGET");
    let prefix = if other { format!("{processor}-linux-gnu-") } else { String::new() };
    env::var(variable).unwrap_or_else(|_| format!("{prefix}{name}"))
}

fn main() {
    let (processor, system) = (set_by_cargo("CARGO_CFG_TARGET_ARCH"), set_by_cargo("CARGO_CFG_TARGET_OS"));
    let named = match (processor.as_str(), system.as_str()) {
        ("x86_64", "linux") => "amd64",
        ("aarch64", "linux") => "arm64",
        _ => panic!("there is no proved code for {processor} and {system}: libwagtenib is made for x86_64 and aarch64 under Linux"),
    };
    let dist: PathBuf = Path::new(&set_by_cargo("CARGO_MANIFEST_DIR")).join("../../../dist");
    let out = PathBuf::from(set_by_cargo("OUT_DIR"));
    let mut sources = vec![dist.join(format!("libwagtenib_linux_{named}.s")), dist.join("memory.c")];
    // Only the preprocessor puts the option into the assembly.
    let mut option: [&[&str]; 2] = [&[], &[]];
    let include = format!("-I{}", dist.join("../include").display());
    let defined = ["-DWAGTENIB_SHA_INSTRUCTIONS", &include];
    let preprocessed = ["-DWAGTENIB_SHA_INSTRUCTIONS", "-x", "assembler-with-cpp"];
    if env::var_os("CARGO_FEATURE_SHA_INSTRUCTIONS").is_some() {
        sources.push(dist.join("sha_instructions.c"));
        option = [&defined, &preprocessed];
    }
    let compiler = tool("CC", "gcc", &processor);
    let mut objects = Vec::new();
    for source in &sources {
        println!("cargo:rerun-if-changed={}", source.display());
        let object = out.join(source.file_name().expect("a file has a name")).with_extension("o");
        let is_assembly = source.extension() == Some("s".as_ref());
        run(Command::new(&compiler).args(["-std=c11", "-O2", "-fPIC", "-c"]).args(option[usize::from(is_assembly)]).arg(source).arg("-o").arg(&object));
        objects.push(object);
    }
    let archive = out.join("libwagtenib.a");
    // ar adds to an archive that exists, and an object of an older build must not stay in it.
    let _ = std::fs::remove_file(&archive);
    run(Command::new(tool("AR", "ar", &processor)).arg("crs").arg(&archive).args(&objects));
    println!("cargo:rustc-link-search=native={}", out.display());
    println!("cargo:rustc-link-lib=static=wagtenib");
}
