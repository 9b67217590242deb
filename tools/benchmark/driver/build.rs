//! Links our library, the object or archive that BEAMACORN names, and the other drawing libraries that LIBGD and LIBCAIRO have a linker's words for.

use std::env;

fn main() {
    println!("cargo::rerun-if-env-changed=BEAMACORN");
    match env::var("BEAMACORN") {
        Ok(library) => {
            println!("cargo::rerun-if-changed={library}");
            println!("cargo::rustc-link-arg={library}");
        }
        Err(_) => println!("cargo::error=BEAMACORN must name our library, as tools/benchmark/native writes it"),
    }
    peer("LIBGD", "libgd");
    peer("LIBCAIRO", "libcairo");
}

/// Where the variable is not set, or has no word, the driver is built without that library.
fn peer(variable: &str, name: &str) {
    println!("cargo::rerun-if-env-changed={variable}");
    println!("cargo::rustc-check-cfg=cfg({name})");
    let words = env::var(variable).unwrap_or_default();
    for word in words.split_whitespace() {
        println!("cargo::rustc-link-arg={word}");
    }
    if !words.trim().is_empty() {
        println!("cargo::rustc-cfg={name}");
    }
}
