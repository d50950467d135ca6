//! Links the proved static library, which `make lib` writes, after asking it for its version: an
//! archive that an older `make lib` has left is seen here.

use std::env::{var, var_os};
use std::ffi::OsString;
use std::fs;
use std::path::{Path, PathBuf};
use std::process::{exit, Command};

/// Prints the version of the library that it is linked with.
const PROGRAM: &str = r#"
extern "C" {
    fn pairing_version() -> u32;
}

fn main() {
    print!("{}", unsafe { pairing_version() });
}
"#;

fn main() {
    let folder = Path::new(env!("CARGO_MANIFEST_DIR")).join("../target/staticlib");
    let archive = folder.join("libpairing.a");
    println!("cargo:rerun-if-changed=build.rs");
    println!("cargo:rerun-if-changed={}", archive.display());
    if !archive.is_file() {
        fail("The proved library is missing", &archive);
    }
    // A program for another machine cannot be run here. There the tests ask.
    if var("HOST") == var("TARGET") {
        let due = number("MAJOR") * 10_000 + number("MINOR") * 100 + number("PATCH");
        match version(&folder) {
            None => fail("The proved library does not tell its version", &archive),
            Some(version) if version == due.to_string() => {}
            Some(version) => fail(
                &format!("The proved library is of version {version} and not {due}"),
                &archive,
            ),
        }
    }
    println!("cargo:rustc-link-search=native={}", folder.display());
    println!("cargo:rustc-link-lib=static=pairing");
}

/// A part of this crate's version.
fn number(part: &str) -> u32 {
    let name = format!("CARGO_PKG_VERSION_{part}");
    var(&name).unwrap().parse().expect(&name)
}

/// What the library answers; nothing where it cannot be asked, as before it had such an entry. What
/// the compiler says then is shown.
fn version(folder: &Path) -> Option<String> {
    let out = PathBuf::from(var_os("OUT_DIR")?);
    let (source, program) = (out.join("version.rs"), out.join("version"));
    fs::write(&source, PROGRAM).ok()?;
    let mut compiler = Command::new(var_os("RUSTC")?);
    compiler.args(["--edition=2021", "-lstatic=pairing", "-L"]);
    compiler.arg(folder).arg("-o").arg(&program).arg(source);
    if let Some(linker) = var_os("RUSTC_LINKER") {
        let mut option = OsString::from("-Clinker=");
        option.push(linker);
        compiler.arg(option);
    }
    if !compiler.status().ok()?.success() {
        return None;
    }
    String::from_utf8(Command::new(program).output().ok()?.stdout).ok()
}

fn fail(what: &str, archive: &Path) -> ! {
    eprintln!(
        "{what}: {}.\nRun make lib in the repository's root.",
        archive.display()
    );
    exit(1);
}
