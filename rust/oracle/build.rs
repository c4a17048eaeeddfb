//! Brings the Rust's files in from their folder: `RIMDOVEK_RUST` names it (the one that holds egraph/), without it ../shared/docs/src beside
//! the repository. ast.rs is compiled where it lies. schedule.rs is copied whole, with src/accessor.rs appended, so that the accessor sees
//! its private functions. Of resolve.rs and index.rs the items named below are cut out, unchanged. None of it is kept in the repository.
use std::env;
use std::fs;
use std::path::{Path, PathBuf};

const RESOLVE: [&str; 13] = [
    "pub enum PatVar {",
    "pub enum RAtom<",
    "pub struct PredGuard<",
    "impl<O: PartialEq, L: PartialEq> PartialEq for PredGuard<",
    "impl<O: Eq, L: Eq> Eq for PredGuard<",
    "pub enum RPredExpr<",
    "impl<O: PartialEq, L: PartialEq> PartialEq for RPredExpr<",
    "impl<O: Eq, L: Eq> Eq for RPredExpr<",
    "pub enum RMult {",
    "pub struct MatchShape {",
    "enum VarKind {",
    "impl VarKind {",
    "impl MatchShape {",
];
const QUERY: [&str; 1] = ["pub struct ResolvedQuery<"];
const INDEX: [&str; 3] = ["pub type FastMap<", "pub struct FanOuts<", "impl<O> Default for FanOuts<"];

fn main() {
    let here = PathBuf::from(env!("CARGO_MANIFEST_DIR"));
    let folder = env::var_os("RIMDOVEK_RUST").map_or_else(|| here.join("../../../shared/docs/src"), PathBuf::from);
    let rust = folder.join("egraph/src");
    let rust = rust
        .canonicalize()
        .unwrap_or_else(|_| panic!("no folder {}: set RIMDOVEK_RUST", rust.display()));
    let out = PathBuf::from(env::var_os("OUT_DIR").expect("cargo sets OUT_DIR"));
    println!("cargo::rerun-if-env-changed=RIMDOVEK_RUST");
    let schedule = read(&rust.join("schedule.rs")) + &read(&here.join("src/accessor.rs"));
    write(&out.join("schedule.rs"), &schedule);
    let resolve = read(&rust.join("resolve.rs"));
    let uses = "use crate::ast::{CmpOp, GlobalVarId, LitValVarId, MsetVarId, MultVarId, SeqVarId, SetVarId, VarId};\n";
    write(
        &out.join("resolve.rs"),
        &(uses.to_string() + &cut(&resolve, &RESOLVE) + &cut(&resolve, &QUERY)),
    );
    let index = read(&rust.join("index.rs"));
    let uses = "use crate::foldhash;\nuse std::collections::HashMap;\npub use crate::index_store::IndexStore;\n";
    write(&out.join("index.rs"), &(uses.to_string() + &cut(&index, &INDEX)));
    let modules = module("ast", &rust.join("ast.rs"))
        + &module("resolve", &out.join("resolve.rs"))
        + &module("index", &out.join("index.rs"))
        + &module("schedule", &out.join("schedule.rs"));
    write(&out.join("modules.rs"), &modules);
}

fn module(name: &str, path: &Path) -> String {
    format!("#[allow(warnings)]\n#[path = {:?}]\npub mod {name};\n", path.display().to_string())
}

fn read(path: &Path) -> String {
    println!("cargo::rerun-if-changed={}", path.display());
    fs::read_to_string(path).unwrap_or_else(|e| panic!("{}: {e}", path.display()))
}

fn write(path: &Path, text: &str) {
    fs::write(path, text).unwrap_or_else(|e| panic!("{}: {e}", path.display()));
}

/// The items whose first lines start so, each with its attributes.
fn cut(text: &str, starts: &[&str]) -> String {
    let lines: Vec<&str> = text.lines().collect();
    starts.iter().map(|start| item(&lines, start)).collect()
}

fn item(lines: &[&str], start: &str) -> String {
    let first = lines
        .iter()
        .position(|line| line.starts_with(start))
        .unwrap_or_else(|| panic!("no item {start}"));
    let above = lines[..first]
        .iter()
        .rev()
        .take_while(|line| line.starts_with("#[") || line.starts_with("///"))
        .count();
    let one_line = lines[first].ends_with(';') || lines[first].ends_with("{}");
    let below = if one_line {
        0
    } else {
        lines[first..].iter().position(|line| *line == "}").expect("an item ends")
    };
    lines[first - above..=first + below].join("\n") + "\n"
}
