//! Links the proved library, libbeamacorn.a: the file, or the one in the folder, that BEAMACORN names; else the one that this repository has; else the one that
//! `bindings/install` has installed. An archive for another machine than the one that is compiled for is not linked.
//! Where there is none, only the documentation can be made: anything else stops at the sentence that NO_ARCHIVE holds (src/lib.rs).

use std::{
    env, fs,
    path::{self, Path, PathBuf},
    process::Command,
};

const NAME: &str = "libbeamacorn.a";

/// Processors that an archive may be for: the number in the head of an ELF file, and the name that cargo has for it.
const MACHINES: [(u16, &str); 2] = [(62, "x86_64"), (183, "aarch64")];

fn main() {
    for variable in ["BEAMACORN", "PKG_CONFIG", "PKG_CONFIG_PATH", "PKG_CONFIG_LIBDIR"] {
        println!("cargo::rerun-if-env-changed={variable}");
    }
    match archive() {
        Ok(archive) => {
            println!("cargo::rustc-link-search=native={}", archive.with_file_name("").display());
            println!("cargo::rustc-link-lib=static=beamacorn");
        }
        Err(sentence) => {
            println!("cargo::rustc-cfg=no_archive");
            println!("cargo::rustc-env=NO_ARCHIVE={sentence}");
        }
    }
}

fn archive() -> Result<PathBuf, String> {
    let named = env::var_os("BEAMACORN").filter(|named| !named.is_empty());
    let (places, unknown) = match named {
        Some(named) => (vec![in_folder(absolute(Path::new(&named)))], None),
        None => match installed() {
            Ok(installed) => (vec![in_repository(), installed], None),
            Err(unknown) => (vec![in_repository()], Some(unknown)),
        },
    };
    for place in &places {
        println!("cargo::rerun-if-changed={}", place.display());
    }
    if let Some(found) = places.iter().find(|place| place.is_file()) {
        return for_this_machine(found);
    }
    let looked = places.iter().map(|place| format!("no {NAME} is at {}", place.display()));
    let looked: Vec<_> = looked.chain(unknown).collect();
    Err(format!(
        "{}; `export BEAMACORN=$(bindings/library)` in the repository of beamacorn proves the library and names its archive",
        looked.join(", and ")
    ))
}

/// A build script runs in the folder of its package, and so a relative path is read from there.
fn absolute(path: &Path) -> PathBuf {
    path::absolute(path).unwrap_or_else(|_| path.into())
}

/// The archive in a folder, or in the `lib` of a prefix that was installed to; a path to a file as it is.
fn in_folder(path: PathBuf) -> PathBuf {
    let [here, below] = [path.join(NAME), path.join("lib").join(NAME)];
    if below.is_file() && !here.is_file() {
        below
    } else if path.is_dir() {
        here
    } else {
        path
    }
}

/// What `bindings/library` leaves.
fn in_repository() -> PathBuf {
    let package = PathBuf::from(env::var_os("CARGO_MANIFEST_DIR").unwrap_or_default());
    let root = package.ancestors().nth(2).unwrap_or(&package);
    root.join("target/staticlib").join(NAME)
}

/// What `bindings/install` has left, of this version, since another may have other functions. Where no pkg-config is at hand it is looked for in /usr/local.
fn installed() -> Result<PathBuf, String> {
    if env::var_os("HOST") != env::var_os("TARGET") {
        return Err("what is installed here serves no build for another machine".into());
    }
    let pkg_config = env::var_os("PKG_CONFIG").unwrap_or_else(|| "pkg-config".into());
    let wanted = concat!("beamacorn = ", env!("CARGO_PKG_VERSION"));
    let Ok(said) = Command::new(pkg_config).args(["--variable=libdir", wanted]).output() else {
        return Ok(Path::new("/usr/local/lib").join(NAME));
    };
    match String::from_utf8(said.stdout) {
        Ok(folder) if said.status.success() => Ok(Path::new(folder.trim()).join(NAME)),
        _ => Err(format!("pkg-config knows no {wanted}")),
    }
}

fn target() -> String {
    env::var("CARGO_CFG_TARGET_ARCH").unwrap_or_default()
}

fn for_this_machine(archive: &Path) -> Result<PathBuf, String> {
    let path = archive.display();
    if archive.file_name().is_none_or(|name| name != NAME) {
        return Err(format!("{path}: an archive of the library is called {NAME}"));
    }
    let bytes = fs::read(archive).map_err(|error| format!("{path}: {error}"))?;
    // The head of the first object file in it; the number stands 18 bytes behind its begin, the low byte first.
    let head = bytes.windows(20).find(|bytes| bytes.starts_with(b"\x7fELF")).ok_or(format!("{path} holds no object file"))?;
    let number = u16::from_le_bytes([head[18], head[19]]);
    let machine = MACHINES.iter().find(|(known, _)| *known == number).map_or("another machine", |(_, name)| name);
    if machine != target() {
        return Err(format!(
            "{path} is for {machine}, and this build is for {}; bindings/library prints the path of one for x86_64",
            target()
        ));
    }
    Ok(archive.into())
}
