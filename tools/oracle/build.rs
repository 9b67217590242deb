//! Lays the given files, unchanged, and the stand-ins of stand_in/tree into one tree below OUT_DIR.
//! A `mod points;` of the given text is looked up beside it, so both must stand in one tree.

use std::{
    env, fs,
    path::{Path, PathBuf},
    process,
};

const GIVEN: &[&str] = &[
    "framebuffer.rs",
    "geometry/mod.rs",
    "iterator/raw.rs",
    "primitives/mod.rs",
    "primitives/circle/mod.rs",
    "primitives/circle/points.rs",
    "primitives/common/line_join.rs",
    "primitives/common/linear_equation.rs",
    "primitives/common/scanline.rs",
    "primitives/line/bresenham.rs",
    "primitives/line/intersection_params.rs",
    "primitives/line/mod.rs",
    "primitives/line/points.rs",
    "primitives/line/thick_points.rs",
    "primitives/rectangle/mod.rs",
    "primitives/triangle/mod.rs",
    "primitives/triangle/scanline_intersections.rs",
    "primitives/triangle/scanline_iterator.rs",
];

/// As given, this file ends in a doc comment whose item was cut off; it gets an empty one.
const CUT_OFF: &str = "primitives/line/mod.rs";

const MODULES: &[&str] =
    &["draw_target.rs", "framebuffer.rs", "geometry/mod.rs", "image.rs", "iterator/mod.rs", "primitives/mod.rs", "transform.rs"];

fn main() {
    let given = PathBuf::from(env::var_os("EMBEDDED_GRAPHICS").unwrap_or_default()).join("src");
    let tree = PathBuf::from(env::var_os("OUT_DIR").unwrap()).join("tree");
    println!("cargo::rerun-if-env-changed=EMBEDDED_GRAPHICS");
    println!("cargo::rerun-if-changed=stand_in/tree");
    let _ = fs::remove_dir_all(&tree);
    for name in GIVEN {
        lay_given(&given, &tree, name);
    }
    lay_stand_ins(Path::new("stand_in/tree"), &tree);
    let root: String = MODULES.iter().map(|file| module(&tree, file)).collect();
    fs::write(tree.join("root.rs"), root).unwrap();
}

fn lay_given(given: &Path, tree: &Path, name: &str) {
    let from = given.join(name);
    println!("cargo::rerun-if-changed={}", from.display());
    let Ok(mut text) = fs::read(&from) else {
        println!("cargo::error=EMBEDDED_GRAPHICS must name the folder of the Rust text: no file {}", from.display());
        process::exit(1);
    };
    if name == CUT_OFF {
        text.extend_from_slice(b"\nmod cut_off {}\n");
    }
    write(&tree.join(name), &text);
}

fn lay_stand_ins(from: &Path, to: &Path) {
    for entry in fs::read_dir(from).unwrap() {
        let entry = entry.unwrap();
        let (from, to) = (entry.path(), to.join(entry.file_name()));
        if from.is_dir() {
            lay_stand_ins(&from, &to);
        } else {
            assert!(!to.exists(), "{} is given and stood in for", to.display());
            write(&to, &fs::read(from).unwrap());
        }
    }
}

fn write(to: &Path, text: &[u8]) {
    fs::create_dir_all(to.parent().unwrap()).unwrap();
    fs::write(to, text).unwrap();
}

fn module(tree: &Path, file: &str) -> String {
    let name = file.trim_end_matches(".rs").trim_end_matches("/mod");
    format!("#[path = {:?}]\npub mod {name};\n", tree.join(file))
}
