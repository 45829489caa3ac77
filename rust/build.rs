//! Finds the library that `scripts/install` installed, or the archive that the repository built.
//!
//! - `NINKODA_LIBDIR` names the folder with `libg1.a` and `libg1.so`; else `pkg-config` finds it by
//!   `g1.pc`, if that is of Cargo's target; else, in the repository, it is the archive of
//!   `prebuilt/`, or what `scripts/built g1_c` has built.
//! - `NINKODA_LINK` is `static` (as by default) or `shared`, for an installed library. A program
//!   over the shared one is told by `LD_LIBRARY_PATH` or the like where it lies.
use std::env;
use std::path::{Path, PathBuf};
use std::process::Command;

fn main() {
    println!("cargo::rerun-if-changed=build.rs");
    for name in [
        "NINKODA_LIBDIR",
        "NINKODA_LINK",
        "PKG_CONFIG",
        "PKG_CONFIG_PATH",
        "PKG_CONFIG_SYSROOT_DIR",
        "PATH",
    ] {
        println!("cargo::rerun-if-env-changed={name}");
    }
    match link() {
        Ok(()) => {}
        // `cargo check` and `cargo doc` need none. What has to be linked is refused by rustc.
        Err(Fault::NoLibrary(name, fault)) => {
            println!("cargo::warning={fault}");
            println!("cargo::rustc-link-lib={name}");
        }
        Err(Fault::Setting(fault)) => println!("cargo::error={fault}"),
    }
}

/// Why the crate is linked with no library.
enum Fault {
    /// There is none to be found; with the one that rustc then looks for.
    NoLibrary(&'static str, String),
    /// What the environment says is wrong.
    Setting(String),
}

impl From<String> for Fault {
    fn from(fault: String) -> Fault {
        Fault::Setting(fault)
    }
}

fn link() -> Result<(), Fault> {
    let is_shared = match env::var("NINKODA_LINK").as_deref() {
        Ok("shared") => true,
        Ok("static") | Err(env::VarError::NotPresent) => false,
        _ => {
            return Err("NINKODA_LINK is neither static nor shared"
                .to_string()
                .into())
        }
    };
    if let Some(folder) = installed()? {
        let (kind, file) = if is_shared {
            ("dylib", "libg1.so")
        } else {
            ("static", "libg1.a")
        };
        return Ok(take(&folder, kind, "g1", file)?);
    }
    if is_shared {
        let fault = "there is no installed libg1.so: set NINKODA_LIBDIR or PKG_CONFIG_PATH";
        return Err(Fault::NoLibrary("dylib=g1", fault.into()));
    }
    let library = built().map_err(|fault| Fault::NoLibrary("static=g1", fault))?;
    Ok(take(&library, "static", "g1_c", "libg1_c.a")?)
}

/// Has the crate linked with a library of a folder.
fn take(folder: &Path, kind: &str, name: &str, file: &str) -> Result<(), String> {
    let path = folder.join(file);
    if !path.exists() {
        return Err(format!("there is no {}", path.display()));
    }
    println!("cargo::rerun-if-changed={}", path.display());
    println!("cargo::rustc-link-search=native={}", folder.display());
    println!("cargo::rustc-link-lib={kind}={name}");
    Ok(())
}

/// The folder of an installed library.
fn installed() -> Result<Option<PathBuf>, String> {
    if let Some(folder) = env::var_os("NINKODA_LIBDIR") {
        return Ok(Some(folder.into()));
    }
    let about = |word| {
        let mut command = Command::new(env::var("PKG_CONFIG").unwrap_or("pkg-config".into()));
        // (a folder of the system's too is to be printed)
        command
            .args([word, "g1"])
            .env("PKG_CONFIG_ALLOW_SYSTEM_LIBS", "1");
        output(&mut command)
    };
    if about("--variable=target") != Ok(target()?) {
        return Ok(None);
    }
    let flags = about("--libs-only-L")?;
    match flags.strip_prefix("-L") {
        Some(folder) => Ok(Some(folder.into())),
        None => Err(format!("pkg-config names no folder for g1: '{flags}'")),
    }
}

/// The target as `scripts/install` and `scripts/built` name it: its processor.
fn target() -> Result<String, String> {
    let triple = env::var("TARGET").unwrap_or_default();
    match triple.strip_suffix("-unknown-linux-gnu") {
        Some(processor) => Ok(processor.into()),
        None => Err(format!(
            "there is no library for {triple}: set NINKODA_LIBDIR"
        )),
    }
}

/// The folder of the repository's own archive.
fn built() -> Result<PathBuf, String> {
    let top = Path::new(env!("CARGO_MANIFEST_DIR")).join("..");
    let script = top.join("scripts/built");
    if !script.exists() {
        return Err("there is no installed libg1.a: set NINKODA_LIBDIR or PKG_CONFIG_PATH".into());
    }
    let target = target()?;
    let mut command = Command::new(script);
    command.args(["--look", "--target", &target, "g1_c"]);
    let archive = top.join(output(&mut command)?);
    match archive.parent() {
        Some(folder) => Ok(folder.into()),
        None => Err("scripts/built prints no path".into()),
    }
}

/// What a command prints, or else what it says on standard error.
fn output(command: &mut Command) -> Result<String, String> {
    let run = command
        .output()
        .map_err(|error| format!("{command:?}: {error}"))?;
    let text = |bytes| String::from_utf8_lossy(bytes).trim().to_string();
    if run.status.success() {
        Ok(text(&run.stdout))
    } else {
        Err(text(&run.stderr))
    }
}
