//! No files of `src` use each other in a circle. A file uses what its `mod`
//! lines declare and what its `crate::` paths name; other paths to a sibling,
//! by `super::`, are not to be written.

use std::collections::{BTreeMap, BTreeSet};
use std::fs;
use std::path::Path;

/// Files by the path of their module; the root's is empty.
type Sources = BTreeMap<String, String>;

fn join(parent: &str, name: &str) -> String {
    if parent.is_empty() {
        name.into()
    } else {
        format!("{parent}::{name}")
    }
}

/// The names in `mod name;` lines, public or not.
fn declared(text: &str) -> Vec<&str> {
    let name = |line| str::strip_prefix(line, "mod ")?.strip_suffix(';');
    text.lines().filter_map(|line| name(line.trim_start_matches("pub "))).collect()
}

/// Reads a module and those that it declares.
fn read(root: &Path, file: &str, module: &str, sources: &mut Sources) {
    let folder = root.join(module.replace("::", "/"));
    let flat = folder.with_extension("rs");
    let path = if module.is_empty() || !flat.is_file() { folder.join(file) } else { flat };
    let text = fs::read_to_string(&path).unwrap_or_else(|e| panic!("{}: {e}", path.display()));
    for name in declared(&text) {
        read(root, "mod.rs", &join(module, name), sources);
    }
    sources.insert(module.into(), text);
}

/// The longest start of a path that is a module, or the root.
fn module_of(path: &str, sources: &Sources) -> String {
    let part = |c: char| c.is_alphanumeric() || c == '_' || c == ':';
    let end = path.find(|c| !part(c)).unwrap_or(path.len());
    let mut path = path[..end].trim_end_matches(':');
    while !sources.contains_key(path) {
        path = path.rsplit_once("::").map_or("", |(start, _)| start);
    }
    path.into()
}

fn used(module: &str, text: &str, sources: &Sources) -> BTreeSet<String> {
    let named = text.split("crate::").skip(1).map(|path| module_of(path, sources));
    declared(text).iter().map(|name| join(module, name)).chain(named).collect()
}

/// Takes away modules that use none that is left, until no more can go.
fn in_circles(sources: &Sources) -> Vec<String> {
    let mut left: BTreeMap<_, _> =
        sources.iter().map(|(module, text)| (module, used(module, text, sources))).collect();
    loop {
        let names: BTreeSet<&String> = left.keys().copied().collect();
        let size = left.len();
        left.retain(|_, uses| uses.iter().any(|used| names.contains(used)));
        if left.len() == size {
            return left.into_keys().cloned().collect();
        }
    }
}

fn sources(root: &str, file: &str) -> Sources {
    let mut sources = Sources::new();
    let root = Path::new(env!("CARGO_MANIFEST_DIR")).join(root);
    read(&root, file, "", &mut sources);
    sources
}

#[test]
fn no_circles() {
    for (root, file, known) in
        [("src", "lib.rs", "harness::jobs::ties"), ("src/bin/bench", "main.rs", "bounded")]
    {
        let sources = sources(root, file);
        assert!(sources.contains_key(known));
        assert!(sources.values().all(|text| !text.contains("super::")));
        assert_eq!(in_circles(&sources), [""; 0]);
    }
}

/// The reference knows nothing of the library, the writers and the harness.
#[test]
fn the_reference_stands_alone() {
    let sources = sources("src", "lib.rs");
    for (module, text) in sources.iter().filter(|(module, _)| module.starts_with("reference")) {
        for used in used(module, text, &sources) {
            assert!(used == "types" || used.starts_with("reference"), "{module} uses {used}");
        }
    }
}

#[test]
fn a_circle_is_found() {
    let text = |text: &str| text.to_string();
    let sources = Sources::from([
        (text(""), text("pub mod a;\npub mod b;\nmod c;")),
        (text("a"), text("use crate::b::{self, X};")),
        (text("b"), text("let x = crate::a::y(crate::c::z());")),
        (text("c"), text("")),
    ]);
    assert_eq!(in_circles(&sources), ["", "a", "b"]);
}
