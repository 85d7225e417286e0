//! Finds the archive of the proved reader in the folder that LUMINTAYAG_DIR names, asks it for its version, and has it linked.
use std::env::var;
use std::path::{Path, PathBuf};
use std::process::{exit, Command};

#[allow(dead_code)]
#[path = "src/functions.rs"]
mod functions;

const ARCHIVE: &str = "liblumintayag.a";

fn main() {
    println!("cargo:rerun-if-env-changed=LUMINTAYAG_DIR");
    println!("cargo:rerun-if-changed=build.rs");
    println!("cargo:rerun-if-changed=probe.rs");
    println!("cargo:rerun-if-changed=src/functions.rs");
    let dir = folder();
    println!("cargo:rerun-if-changed={}", dir.join(ARCHIVE).display());
    if var("HOST") == var("TARGET") {
        check_version(&dir);
    }
    println!("cargo:rustc-link-search=native={}", dir.display());
    println!("cargo:rustc-link-lib=static=lumintayag");
}

fn folder() -> PathBuf {
    const MAKE: &str = "`library/install /usr/local` of Lumintayag's sources puts one into /usr/local/lib";
    let Some(dir) = var("LUMINTAYAG_DIR").ok().filter(|dir| !dir.is_empty()) else {
        give_up(&format!("LUMINTAYAG_DIR is not set. Set it to the folder that has {ARCHIVE}, as a full path; {MAKE}"));
    };
    let dir = PathBuf::from(dir);
    if dir.is_relative() {
        give_up(&format!(
            "LUMINTAYAG_DIR is {}, and has to be a full path that begins with /: cargo works in other folders than yours",
            dir.display()
        ));
    }
    if !dir.join(ARCHIVE).is_file() {
        give_up(&format!("LUMINTAYAG_DIR is {}, where there is no {ARCHIVE}; {MAKE}", dir.display()));
    }
    dir
}

/// An archive of another version may have rows of another layout; one of another kind of machine cannot be linked.
fn check_version(dir: &Path) {
    let probe = Path::new(&var("OUT_DIR").unwrap_or_default()).join("probe");
    let mut rustc = Command::new(var("RUSTC").unwrap_or("rustc".into()));
    rustc.args(["--edition=2021", "--cap-lints=allow", "probe.rs", "-l", "static=lumintayag", "-L"]).arg(dir).arg("-o").arg(&probe);
    if let Ok(linker) = var("RUSTC_LINKER") {
        rustc.arg(format!("-Clinker={linker}"));
    }
    let archive = dir.join(ARCHIVE);
    match rustc.output() {
        Ok(said) if said.status.success() => {}
        Ok(said) => {
            eprintln!("{}", String::from_utf8_lossy(&said.stderr));
            give_up(&format!(
                "{} cannot be linked: it is of another version than {} or for another kind of machine",
                archive.display(),
                functions::VERSION
            ));
        }
        Err(why) => give_up(&format!("rustc cannot be run: {why}")),
    }
    let said = Command::new(&probe).output().map(|said| String::from_utf8_lossy(&said.stdout).trim().to_string());
    match said {
        Ok(number) if number == functions::VERSION.to_string() => {}
        Ok(number) => give_up(&format!("{} is of version {number}, and this crate is for version {}", archive.display(), functions::VERSION)),
        Err(why) => give_up(&format!("{} cannot be run: {why}", probe.display())),
    }
}

fn give_up(why: &str) -> ! {
    println!("cargo:warning={why}");
    exit(1);
}
