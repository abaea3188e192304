//! Build script of the published crates: one `pub mod` for each file of the crate below LICTOR_SRC, by its path, so
//! that the compiler reads the published file itself, unchanged. lictor-watched alone has a copy that is changed: the
//! forecast with each slack shown to `crate::seen` on its way into the margin, since the Rust gives no slacks, each
//! Euler step followed by `crate::stepped`, and the plant after the last substep shown to `crate::reached`.

use std::{
    env, fs,
    path::{Path, PathBuf},
};

fn main() {
    println!("cargo:rerun-if-env-changed=LICTOR_SRC");
    let here = PathBuf::from(env::var_os("CARGO_MANIFEST_DIR").expect("cargo sets it"));
    let out = PathBuf::from(env::var_os("OUT_DIR").expect("cargo sets it"));
    let root = here.join("../../..");
    let sources = env::var_os("LICTOR_SRC").map_or(root.join("../shared/docs/src"), |p| root.join(p)).join("crates");
    let package = env::var("CARGO_PKG_NAME").expect("cargo sets it");
    let modules = match package.as_str() {
        "lictor-watched" => watched(&sources.join("lictor-detect/src/brake.rs"), &out),
        name => published(&sources.join(name).join("src")),
    };
    fs::write(out.join("published.rs"), modules).expect("a writable target folder");
}

/// A module by its path.
fn module(path: &Path) -> String {
    let name = path.file_stem().expect("a file name").to_string_lossy();
    format!("#[path = {:?}]\npub mod {name};\n", path.to_string_lossy())
}

fn published(folder: &Path) -> String {
    let files = fs::read_dir(folder).unwrap_or_else(|_| panic!("no published sources at {}", folder.display()));
    let mut paths: Vec<PathBuf> =
        files.map(|f| fs::canonicalize(f.expect("a readable folder").path()).expect("a file")).collect();
    paths.sort();
    for path in &paths {
        println!("cargo:rerun-if-changed={}", path.display());
    }
    paths.iter().map(|p| module(p)).collect()
}

fn watched(brake: &Path, out: &Path) -> String {
    println!("cargo:rerun-if-changed={}", brake.display());
    let text = fs::read_to_string(brake).unwrap_or_else(|_| panic!("no published sources at {}", brake.display()));
    let copy = out.join("brake.rs");
    fs::write(&copy, showing_slacks(text)).expect("a writable target folder");
    module(&copy)
}

/// The forecast's text with its four slacks passed through `crate::seen`, and the plant to `crate::reached`.
fn showing_slacks(mut text: String) -> String {
    let start = "slack_r(cfg, pl, radius(cfg, &pl.v, n, react))";
    let end = "    (margin, 0.0)\n";
    let euler = "        }\n        i += 1;\n    }\n    (margin, radius(";
    let changes = [
        ("margin, slack(cfg, pl))", "margin, crate::seen(slack(cfg, pl)))".to_string(), 2),
        ("margin, slack_r(cfg, pl, r))", "margin, crate::seen(slack_r(cfg, pl, r)))".to_string(), 1),
        (start, format!("crate::seen({start})"), 1),
        (end, format!("    crate::reached(&pl.p[..pl.n], &pl.v[..pl.n]);\n{end}"), 1),
        (euler, euler.replacen("        }\n", "        }\n        crate::stepped();\n", 1), 1),
    ];
    for (from, to, count) in changes {
        assert_eq!(text.matches(from).count(), count, "the published forecast has another text at `{from}`");
        text = text.replace(from, &to);
    }
    text
}
