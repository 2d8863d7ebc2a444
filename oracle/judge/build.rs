//! Assembles the judge's source tree.
//!
//! Three kinds of files go into `OUT_DIR/crate`:
//!
//! * **given** files, written byte for byte as they were read;
//! * **stand-ins** that we wrote for files that aren't given (`stand-ins/`);
//! * **absent** modules, generated here: whatever else the given module lists
//!   and tables name. Each of their functions stops the run when called.
//!
//! So the state table (`state.rs`), the resolver table (`resolve.rs`) and the
//! module lists (`construct/mod.rs`, `util/mod.rs`) can be the given ones,
//! unchanged, though most of the modules they name are not there.
//!
//! Where `TARREDLATH_VARIANT` names a wrong reading of `variants.txt`, the
//! given file that it is about is changed on its way; nowhere else.

mod variant;

use std::collections::{BTreeMap, BTreeSet};
use std::env;
use std::fmt::Write as _;
use std::fs;
use std::path::{Path, PathBuf};

/// Where the given files are, unless `TARREDLATH_DOCS_SRC` says otherwise.
/// Relative paths count from the project's root.
const DEFAULT_GIVEN: &str = "../shared/docs/src";

/// Modules whose states a run of the judge can call.
const MODULES: [&str; 5] = [
    "blank_line",
    "mdx_esm",
    "partial_mdx_expression",
    "partial_mdx_jsx",
    "partial_space_or_tab",
];

/// Given files that become part of the judge.
const GIVEN: [&str; 17] = [
    "construct/mdx_esm.rs",
    "construct/mod.rs",
    "construct/partial_mdx_expression.rs",
    "construct/partial_mdx_jsx.rs",
    "construct/partial_space_or_tab.rs",
    "message.rs",
    "parser.rs",
    "resolve.rs",
    "state.rs",
    "subtokenize.rs",
    "tokenizer.rs",
    "unist.rs",
    "util/char.rs",
    "util/constant.rs",
    "util/mdx_collect.rs",
    "util/mod.rs",
    "util/slice.rs",
];

fn main() {
    let package = PathBuf::from(env::var("CARGO_MANIFEST_DIR").expect("manifest directory"));
    let out = PathBuf::from(env::var("OUT_DIR").expect("output directory"));
    let tree = out.join("crate");
    println!("cargo:rerun-if-env-changed=TARREDLATH_DOCS_SRC");
    println!("cargo:rerun-if-env-changed=TARREDLATH_VARIANT");
    println!("cargo:rerun-if-changed=build.rs");
    println!("cargo:rerun-if-changed=variant.rs");
    println!("cargo:rerun-if-changed=stand-ins");

    let root = package.join("../..");
    let given = root.join(env::var("TARREDLATH_DOCS_SRC").unwrap_or_else(|_| DEFAULT_GIVEN.into()));

    // An older assembly may hold files that no longer belong to it.
    if tree.exists() {
        fs::remove_dir_all(&tree).expect("remove the older assembly");
    }

    let mut present = put_given(&given, &tree, &variant_edits(&package));

    let stand_ins = package.join("stand-ins");
    for path in files_below(&stand_ins) {
        let bytes = fs::read(stand_ins.join(&path)).expect("read a stand-in");
        put(&tree, &path, &bytes);
        assert!(present.insert(path), "a given file can't have a stand-in");
    }
    put_absent(&tree, &present);
    put(&out, "states.rs", state_list(&tree).as_bytes());
}

/// Put what the given lists and tables name, and isn't there.
fn put_absent(tree: &Path, present: &BTreeSet<String>) {
    let absent = absent_functions(tree);
    for directory in ["construct", "util"] {
        for module in declared_modules(&read(&tree.join(directory).join("mod.rs"))) {
            let path = format!("{directory}/{module}.rs");
            if !present.contains(&path) {
                let functions = absent.get(&module).map_or("", String::as_str);
                put(tree, &path, functions.as_bytes());
            }
        }
    }
}

/// The edits of the wrong reading that was asked for, if one was.
fn variant_edits(package: &Path) -> Vec<variant::Edit> {
    let Ok(name) = env::var("TARREDLATH_VARIANT") else {
        return vec![];
    };
    let list = package.join("../variants.txt");
    println!("cargo:rerun-if-changed={}", list.display());
    println!("cargo:rustc-env=JUDGE_VARIANT={name}");
    variant::edits(&read(&list), &name)
}

/// Put the given files into the tree, byte for byte but for the edits.
fn put_given(given: &Path, tree: &Path, edits: &[variant::Edit]) -> BTreeSet<String> {
    for path in GIVEN {
        let file = given.join(given_name(path));
        println!("cargo:rerun-if-changed={}", file.display());
        let bytes = fs::read(&file).unwrap_or_else(|problem| {
            panic!(
                "cannot read the given file {}: {problem} (set TARREDLATH_DOCS_SRC)",
                file.display()
            )
        });
        put(tree, path, &bytes);
    }
    for edit in edits {
        assert!(
            GIVEN.contains(&edit.file.as_str()),
            "`{}` is not given: a wrong reading is one of the crate",
            edit.file
        );
        let changed = edit.apply(&read(&tree.join(&edit.file)));
        put(tree, &edit.file, changed.as_bytes());
    }
    GIVEN.map(String::from).into()
}

/// The names of the states of `MODULES`, in the order of the state table, as
/// the source of a list.
fn state_list(tree: &Path) -> String {
    let table = read(&tree.join("state.rs"));
    let mut list =
        String::from("/// The states that a run can call.\npub const STATES: &[&str] = &[\n");
    for arm in table.split("Name::").skip(1) {
        let (name, rest) = word(arm);
        let called = rest.trim_start_matches(|d: char| d.is_whitespace() || "=>{".contains(d));
        let module = called.strip_prefix("construct::").map(|d| word(d).0);
        if module.is_some_and(|module| MODULES.contains(&module)) {
            writeln!(list, "    {name:?},").expect("write to a string");
        }
    }
    list + "];\n"
}

/// `construct/mdx_esm.rs` is given as `src--src--construct--mdx_esm.rs.txt`.
fn given_name(path: &str) -> String {
    format!("src--src--{}.txt", path.replace('/', "--"))
}

/// Names in lines of the form `pub mod name;`.
fn declared_modules(source: &str) -> Vec<String> {
    source
        .lines()
        .filter_map(|line| line.strip_prefix("pub mod ")?.strip_suffix(';'))
        .map(String::from)
        .collect()
}

/// For each construct that the state table or the resolver table names: the
/// source of functions of those names that must never be called.
fn absent_functions(tree: &Path) -> BTreeMap<String, String> {
    let mut modules: BTreeMap<String, BTreeSet<(String, &str)>> = BTreeMap::new();
    let states = read(&tree.join("state.rs"));
    let resolvers = read(&tree.join("resolve.rs"));

    for (module, function, _) in construct_paths(&states) {
        modules
            .entry(module)
            .or_default()
            .insert((function, "crate::state::State"));
    }
    for (module, function, rest) in construct_paths(&resolvers) {
        // A resolver that can fail is followed by a question mark.
        let result = if rest.starts_with("(tokenizer)?") {
            "Result<Option<crate::subtokenize::Subresult>, crate::message::Message>"
        } else {
            "Option<crate::subtokenize::Subresult>"
        };
        modules
            .entry(module)
            .or_default()
            .insert((function, result));
    }

    modules
        .into_iter()
        .map(|(module, functions)| {
            let mut source = String::new();
            for (function, result) in functions {
                writeln!(
                    source,
                    "pub fn {function}(_: &mut crate::tokenizer::Tokenizer) -> {result} {{\n    \
                     unreachable!(\"`{module}::{function}` is not part of the judge\")\n}}"
                )
                .expect("write to a string");
            }
            (module, source)
        })
        .collect()
}

/// Each `construct::module::function` outside comments, with what follows it.
fn construct_paths(source: &str) -> Vec<(String, String, &str)> {
    let mut found = vec![];
    for line in source.lines().filter(|d| !d.trim_start().starts_with("//")) {
        let mut rest = line;
        while let Some(at) = rest.find("construct::") {
            rest = &rest[at + "construct::".len()..];
            let (module, after) = word(rest);
            if let Some(after) = after.strip_prefix("::") {
                let (function, after) = word(after);
                found.push((module.to_string(), function.to_string(), after));
                rest = after;
            }
        }
    }
    found
}

/// The identifier that `text` begins with, and what follows it.
fn word(text: &str) -> (&str, &str) {
    let end = text
        .find(|d: char| !d.is_ascii_alphanumeric() && d != '_')
        .unwrap_or(text.len());
    text.split_at(end)
}

/// Paths of the files below a directory, relative to it, with `/` between
/// their parts.
fn files_below(directory: &Path) -> Vec<String> {
    let mut paths = vec![];
    for entry in fs::read_dir(directory).expect("list stand-ins") {
        let entry = entry.expect("list stand-ins");
        let name = entry.file_name().into_string().expect("a plain file name");
        if entry.path().is_dir() {
            paths.extend(
                files_below(&entry.path())
                    .iter()
                    .map(|d| format!("{name}/{d}")),
            );
        } else {
            paths.push(name);
        }
    }
    paths.sort();
    paths
}

fn read(path: &Path) -> String {
    fs::read_to_string(path).expect("read an assembled file")
}

fn put(tree: &Path, path: &str, bytes: &[u8]) {
    let file = tree.join(path);
    fs::create_dir_all(file.parent().expect("a directory")).expect("make a directory");
    fs::write(&file, bytes).expect("write an assembled file");
}
