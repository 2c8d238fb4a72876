//! Modules use one another in one direction only.

use std::collections::{BTreeMap, BTreeSet};
use std::fs;
use std::path::Path;

/// Each module's source, by the module's path.
type Sources = BTreeMap<String, String>;

/// The other modules that each module names.
type Uses = BTreeMap<String, BTreeSet<String>>;

#[test]
fn no_circle() {
    let uses = uses(&sources(&Path::new(env!("CARGO_MANIFEST_DIR")).join("src"), "crate"));
    for (module, used) in [
        ("crate", "crate::message"),
        ("crate::message", "crate::words"),
        ("crate::generate", "crate::generate::damage"),
        ("crate::generate::damage", "crate::generate::dice"),
        ("crate::generate::questions", "crate::generate"),
    ] {
        assert!(uses[module].contains(used), "{module} uses {used}: {uses:#?}");
    }
    assert_eq!(circles(uses), Uses::new());
}

#[test]
fn a_circle_is_seen() {
    let circle = |sources: &[(&str, &str)]| {
        let sources = sources.iter().map(|(module, source)| (format!("crate::{module}"), source.to_string()));
        circles(uses(&sources.collect())).into_keys().collect::<Vec<_>>().join(" ")
    };
    let (above, below) = (("top", "use crate::a::X;"), ("d", "pub struct Y;"));
    let three = [above, ("a", "use crate::b::*;"), ("b", "use crate::{\n    c, d::Y,\n};"), below];
    assert_eq!(circle(&[&three[..], &[("c", "// crate::a::g()")]].concat()), "");
    assert_eq!(circle(&[&three[..], &[("c", "fn f() { crate::a::g() }")]].concat()), "crate::a crate::b crate::c");
    let child = ("p::q", "use super::{r::Z, X};");
    assert_eq!(circle(&[("p", "mod q;"), child, ("p::r", "")]), "");
    assert_eq!(circle(&[("p", "mod q;"), child, ("p::r", "use super::super::p::q::Y;")]), "crate::p::q crate::p::r");
    assert_eq!(circle(&[("p", "mod q;\nuse q::Y;"), child, ("p::r", "")]), "crate::p crate::p::q");
}

/// The sources below a directory, which is a module; those of the programs are left out.
fn sources(directory: &Path, module: &str) -> Sources {
    let mut found = Sources::new();
    for entry in fs::read_dir(directory).expect("a directory") {
        let path = entry.expect("a directory's entry").path();
        match path.file_stem().and_then(|name| name.to_str()).expect("a name") {
            "bin" => {}
            name if path.is_dir() => found.extend(sources(&path, &format!("{module}::{name}"))),
            "lib" | "mod" => drop(found.insert(module.to_string(), fs::read_to_string(&path).expect("a source"))),
            name => drop(found.insert(format!("{module}::{name}"), fs::read_to_string(&path).expect("a source"))),
        }
    }
    found
}

fn uses(sources: &Sources) -> Uses {
    let used = |module: &str, source: &str| {
        let led_to = |path: String| led_to(&full(&path, module), sources);
        paths(source).into_iter().filter_map(led_to).filter(|other| other != module).collect()
    };
    sources.iter().map(|(module, source)| (module.clone(), used(module, source))).collect()
}

/// Every path of two names or more in a source, in a `use` or not; `a::{b, c}` is `a::b` and `a::c`.
fn paths(source: &str) -> Vec<String> {
    let mut found = Vec::new();
    let mut before_braces = Vec::new();
    let mut path = String::new();
    for token in tokens(source) {
        let goes_on = path.ends_with("::");
        match token.as_str() {
            "::" => path.push_str("::"),
            "{" if goes_on => before_braces.push(std::mem::take(&mut path)),
            name if goes_on && is_name(name) => path.push_str(name),
            other => {
                found.push(std::mem::take(&mut path));
                match other {
                    "{" => before_braces.push(String::new()),
                    "}" => drop(before_braces.pop()),
                    name if is_name(name) => path = before_braces.last().cloned().unwrap_or_default() + name,
                    _ => {}
                }
            }
        }
    }
    found.retain(|path| path.contains("::"));
    found
}

/// Names, `::`, and each other character by itself; no comments.
fn tokens(source: &str) -> Vec<String> {
    let mut tokens: Vec<String> = Vec::new();
    for character in source.lines().flat_map(|line| line.split("//").next().unwrap_or_default().chars().chain(['\n'])) {
        match tokens.last_mut() {
            Some(last) if last == ":" && character == ':' => last.push(character),
            Some(last) if is_name(last) && is_name(&character.to_string()) => last.push(character),
            _ => tokens.push(character.to_string()),
        }
    }
    tokens
}

fn is_name(token: &str) -> bool {
    token.chars().all(|character| character.is_alphanumeric() || character == '_')
}

/// A path in a module, from the root.
fn full(path: &str, module: &str) -> String {
    let (mut start, mut rest) = (module, path);
    while let Some(behind) = rest.strip_prefix("super::") {
        start = start.rsplit_once("::").map_or("crate", |(parent, _)| parent);
        rest = behind;
    }
    if rest.starts_with("crate::") {
        return rest.to_string();
    }
    format!("{start}::{}", rest.trim_start_matches("self::"))
}

/// The module that a path leads to: the longest part of it that is one.
fn led_to(path: &str, sources: &Sources) -> Option<String> {
    let mut part = path;
    while !sources.contains_key(part) {
        part = part.rsplit_once("::")?.0;
    }
    Some(part.to_string())
}

/// What is left when modules that use no other, and modules that no other uses, are taken away again and again.
fn circles(mut left: Uses) -> Uses {
    loop {
        let names: BTreeSet<String> = left.keys().cloned().collect();
        left.values_mut().for_each(|uses| uses.retain(|other| names.contains(other)));
        let used: BTreeSet<String> = left.values().flatten().cloned().collect();
        left.retain(|name, uses| !uses.is_empty() && used.contains(name));
        if left.len() == names.len() {
            return left;
        }
    }
}
