//! Takes the recipe out of the page.

use std::{env, fs, path::Path};

const PAGE: &str = "../../../docs/FROM-EMBEDDED-GRAPHICS.md";

fn main() {
    println!("cargo::rerun-if-changed={PAGE}");
    let page = fs::read_to_string(PAGE).unwrap();
    let recipe = page.split("```").find(|part| part.contains("DrawTarget for")).expect("no block of the page has a draw target");
    let code = recipe.split_once('\n').unwrap().1;
    fs::write(Path::new(&env::var_os("OUT_DIR").unwrap()).join("recipe.rs"), code).unwrap();
}
