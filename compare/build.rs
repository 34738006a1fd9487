//! Links the proved library, target/staticlib/libnb.a or the one that NB_ARCHIVE names, and makes same.rs: the Rattle source
//! without its contracts, which is Rust. The benchmark compares the two compilers on that one text.

use std::path::{Path, PathBuf};
use std::{env, fs};

const CRATES: [&str; 20] = [
    "stores",
    "limbs",
    "ones",
    "quadratic",
    "judging",
    "turns",
    "operand",
    "table",
    "scatter",
    "product",
    "gaussian",
    "card",
    "card_writer",
    "netlist",
    "runner",
    "equivalence",
    "list_pairs",
    "list_folds",
    "list_writer",
    "nb",
];

/// What Rattle has and Rust hasn't: what each begins with, the brackets that it goes on to the end of, and the mark that ends it where
/// these are closed.
const RATTLE: [(&str, [char; 2], &str); 11] = [
    ("requires ", ['{', '}'], ""),
    ("requires* ", ['{', '}'], ""),
    ("ensures ", ['{', '}'], ""),
    ("ensures* ", ['{', '}'], ""),
    ("ghost use ", ['{', '}'], ";"),
    ("ghost ", ['{', '}'], ","),
    ("#[derive(Drop)]", ['[', ']'], ""),
    ("prove!(", ['(', ')'], ";"),
    ("#![tactic(", ['[', ']'], ""),
    ("#[tactic(", ['[', ']'], ""),
    ("#[cycle(", ['[', ']'], ""),
];

fn without_contracts(text: &str) -> String {
    let mut kept = String::new();
    let mut left_out = None;
    let mut open = 0i32;
    for line in text.lines() {
        let start = line.trim_start();
        left_out = left_out.or_else(|| RATTLE.iter().find(|(begins, ..)| start.starts_with(begins)));
        let Some((_, [opens, closes], ends)) = left_out else {
            kept += line;
            kept += "\n";
            continue;
        };
        open += line.matches(*opens).count() as i32 - line.matches(*closes).count() as i32;
        if open == 0 && line.ends_with(ends) {
            left_out = None;
        }
    }
    kept
}

/// Paths of one crate of Rattle's become paths of a module.
fn as_module(name: &str, text: &str) -> String {
    let mut text = without_contracts(text)
        .replace("std::num::wrapping_add_usize", "usize::wrapping_add")
        .replace("crate::", &format!("crate::same::{name}::"));
    for other in CRATES.iter().filter(|other| **other != name) {
        text = text.replace(&format!("use {other}::"), &format!("use crate::same::{other}::"));
    }
    let crates: String = CRATES.iter().filter(|other| **other != name).map(|other| format!("use crate::same::{other};\n")).collect();
    format!("{crates}{text}")
}

fn module(folder: &Path, name: &str) -> String {
    let read = |file: &str| fs::read_to_string(folder.join(format!("{file}.rt"))).unwrap();
    let root = as_module(name, &read("lib"));
    let mut out = String::new();
    for line in root.lines() {
        match line.strip_prefix("mod ").and_then(|rest| rest.strip_suffix(';')) {
            Some(part) => out += &format!("pub mod {part} {{\n{}}}\n", as_module(name, &read(part))),
            None => out += &format!("{line}\n"),
        }
    }
    format!("pub mod {name} {{\n{out}}}\n")
}

fn main() {
    let root = PathBuf::from(env::var("CARGO_MANIFEST_DIR").unwrap()).join("..");
    println!("cargo:rerun-if-env-changed=NB_ARCHIVE");
    let archive = env::var("NB_ARCHIVE").map_or(root.join("target/staticlib/libnb.a"), PathBuf::from);
    println!("cargo:rerun-if-changed={}", archive.display());
    assert!(archive.exists(), "no {}: run ./library first", archive.display());
    println!("cargo:rustc-link-search=native={}", archive.parent().unwrap().display());
    let name = archive.file_stem().unwrap().to_str().unwrap();
    println!("cargo:rustc-link-lib=static={}", name.strip_prefix("lib").expect("an archive's name begins with lib"));
    // An earlier library, which compare/before-after and compare/same-answers link, may have no nb_zero and nb_one, or no nb_accept:
    // these are then left out.
    let bytes = fs::read(&archive).unwrap();
    for (cfg, call) in [("constants", "nb_zero"), ("accept", "nb_accept")] {
        println!("cargo:rustc-check-cfg=cfg({cfg})");
        if bytes.windows(call.len()).any(|name| name == call.as_bytes()) {
            println!("cargo:rustc-cfg={cfg}");
        }
    }

    let mut same = String::new();
    for name in CRATES {
        let folder = root.join("crates").join(name).join("src");
        println!("cargo:rerun-if-changed={}", folder.display());
        same += &module(&folder, name);
    }
    fs::write(PathBuf::from(env::var("OUT_DIR").unwrap()).join("same.rs"), same).unwrap();
}
