//! The functions that C calls are made in three layers, so that wrong functions are tried where a crate is cheap to prove: each export of
//! `termcap_c` is one call of the function of its name in `termcap`, and each of those but the finder's one call of a function in a crate
//! below. This test holds each layer to the same parameters, passed on in order, and to the same promise: the same words, which come from
//! the same modules.

use std::fs;
use std::path::Path;

/// What the source says of a function: its parameters, its promise and its body.
struct Function {
    parameters: Vec<String>,
    promise: Vec<String>,
    body: String,
}

/// The files of a crate's code.
fn sources(name: &str) -> Vec<String> {
    let folder = Path::new(env!("CARGO_MANIFEST_DIR")).join(format!("../crates/{name}/src"));
    let entries =
        fs::read_dir(&folder).unwrap_or_else(|error| panic!("{}: {error}", folder.display()));
    let mut paths: Vec<_> = entries.map(|entry| entry.unwrap().path()).collect();
    paths.sort();
    paths.iter().map(|path| fs::read_to_string(path).unwrap()).collect()
}

fn items(list: &str) -> Vec<String> {
    list.split(',').map(str::trim).filter(|item| !item.is_empty()).map(str::to_string).collect()
}

/// The function whose text starts behind its name.
fn function(text: &str) -> Function {
    let (parameters, rest) =
        text.strip_prefix('(').and_then(|t| t.split_once(") -> u32")).expect("parameters");
    let (promise, rest) = rest.split_once("\n{\n").expect("a promise");
    let (body, _) = rest.split_once("\n}\n").expect("a body");
    Function {
        parameters: items(parameters),
        promise: promise.split_whitespace().map(str::to_string).collect(),
        body: body.trim().to_string(),
    }
}

/// The words that a source takes from modules of definitions, each with its module.
fn imports(source: &str) -> Vec<(String, String)> {
    let lines = source.lines().filter_map(|line| line.strip_prefix("ghost use "));
    lines.flat_map(imported).collect()
}

fn imported(line: &str) -> Vec<(String, String)> {
    let (module, words) = line.trim_end_matches("};").split_once(".{").expect("a list of words");
    assert!(!words.contains(" as "), "a word under another name: {line}");
    items(words).into_iter().map(|word| (module.to_string(), word)).collect()
}

/// The imports that a promise uses: a name stands in it as a word, of an operator at least one symbol.
fn used(imports: &[(String, String)], promise: &[String]) -> Vec<(String, String)> {
    let words: Vec<&str> =
        promise.iter().flat_map(|word| word.split(|c| "(){}[].,".contains(c))).collect();
    let is_used = |word: &str| {
        if word.contains('◌') {
            word.split('◌').filter(|part| !part.is_empty()).any(|part| words.contains(&part))
        } else {
            words.contains(&word)
        }
    };
    let mut found: Vec<_> = imports.iter().filter(|(_, word)| is_used(word)).cloned().collect();
    found.sort();
    found
}

/// Whether a function passes its parameters on to a function below with the same parameters and promise.
fn passes_on(above: &Function, below: &Function, arguments: &str) -> bool {
    let names: Vec<String> =
        above.parameters.iter().map(|p| p.split(':').next().unwrap().to_string()).collect();
    above.parameters == below.parameters
        && above.promise == below.promise
        && items(arguments) == names
}

/// The path that a body calls, if it is one call, and the arguments.
fn call(body: &str) -> Option<(&str, &str)> {
    let (callee, arguments) = body.strip_suffix(')')?.split_once('(')?;
    let is_path = callee.chars().all(|c| c.is_ascii_alphanumeric() || "_:".contains(c));
    (is_path && !arguments.contains(['(', ')', ';'])).then_some((callee, arguments))
}

/// The file of a crate in which a public function stands, and the function.
fn found(files: &[String], name: &str) -> Option<(String, Function)> {
    let heads = [format!("pub fn {name}("), format!("pub extern \"C\" fn {name}(")];
    let mut all = files.iter().flat_map(|file| heads.iter().map(move |head| (file, head)));
    all.find_map(|(file, head)| {
        let (_, text) = file.split_once(head)?;
        Some((file.clone(), function(&format!("({text}"))))
    })
}

/// The names of the public functions of a crate that C calls or is to call.
fn c_names(files: &[String]) -> Vec<String> {
    let heads = ["pub fn termcap_", "pub extern \"C\" fn termcap_"];
    let parts = |file| heads.iter().flat_map(move |head| str::split(file, head).skip(1));
    let name = |part: &str| format!("termcap_{}", part.split('(').next().unwrap());
    files.iter().flat_map(|file| parts(file.as_str()).map(name)).collect()
}

/// Holds a function of one crate to the function of another that it calls.
fn hold(above: &[String], name: &str, called: &str) {
    let (file, function) = found(above, name).unwrap_or_else(|| panic!("no function {name}"));
    assert_eq!(function.promise[0], "ensures", "{name}");
    let (callee, arguments) =
        call(&function.body).unwrap_or_else(|| panic!("{name} is more than one call"));
    let (below, callee) = callee.split_once("::").expect("a function of another crate");
    assert_eq!(callee, called, "{name}");
    let (library, promised) =
        found(&sources(below), callee).unwrap_or_else(|| panic!("no function {below}::{callee}"));
    assert!(passes_on(&function, &promised, arguments), "{name}");
    let promise = &function.promise;
    assert_eq!(used(&imports(&file), promise), used(&imports(&library), promise), "{name}");
}

const FINDERS: [&str; 4] = [
    "termcap_finder_answer",
    "termcap_finder_end",
    "termcap_finder_feed",
    "termcap_finder_open",
];

#[test]
fn promises_of_the_library_are_those_of_the_functions_below() {
    let termcap = sources("termcap");
    let names: Vec<String> =
        c_names(&termcap).into_iter().filter(|name| !FINDERS.contains(&name.as_str())).collect();
    for name in &names {
        hold(&termcap, name, name.strip_prefix("termcap_").unwrap());
    }
    assert_eq!(names.len(), 21, "eight operations for several files and for one, and five others");
}

#[test]
fn exported_promises_are_those_of_the_library() {
    let (termcap, exported) = (sources("termcap"), sources("termcap_c"));
    for name in &c_names(&exported) {
        hold(&exported, name, name);
    }
    let sorted = |mut names: Vec<String>| {
        names.sort();
        names
    };
    let names = sorted(c_names(&exported));
    assert_eq!(names, sorted(c_names(&termcap)));
    assert!(FINDERS.iter().all(|name| names.contains(&name.to_string())));
    // Nothing else is exported, and nothing by the library itself.
    let count = |files: &[String], text: &str| -> usize {
        files.iter().map(|file| file.matches(text).count()).sum()
    };
    assert_eq!(count(&exported, "#[unsafe(no_mangle)]\npub extern \"C\" fn termcap_"), names.len());
    assert_eq!(count(&exported, "no_mangle"), names.len());
    assert_eq!(count(&termcap, "no_mangle"), 0);
}

#[test]
fn a_function_that_differs_is_seen() {
    let right = || {
        function("(a: u64, b: &mut u64) -> u32\n    ensures { x\n        y }\n{\n    below::f(a, b)\n}\n")
    };
    assert!(passes_on(&right(), &right(), "a, b"));
    assert!(!passes_on(&right(), &right(), "b, a"));
    assert!(!passes_on(
        &right(),
        &function("(a: u64, b: &mut u64) -> u32\n    ensures { x z }\n{\n    0\n}\n"),
        "a, b"
    ));
    assert!(!passes_on(
        &right(),
        &function("(a: u32, b: &mut u64) -> u32\n    ensures { x y }\n{\n    0\n}\n"),
        "a, b"
    ));
}

#[test]
fn more_than_a_call_is_seen() {
    assert_eq!(call("below::f(a, b)"), Some(("below::f", "a, b")));
    assert_eq!(call("below::f(\n        a,\n        b,\n    )").map(|c| c.0), Some("below::f"));
    assert!(call("let r = below::f(a, b);\n    r").is_none());
    assert!(call("below::f(a, b) + g(a)").is_none());
    assert!(call("*b = below::f(a)").is_none());
}

#[test]
fn a_word_of_another_module_is_seen() {
    let promise: Vec<String> =
        ["ensures", "{", "result", "≡", "report", "(files", "a.now)", "}"].map(String::from).into();
    let source = |module: &str| {
        imports(&format!(
            "ghost use Std.{{◌≡◌, ◌+◌}};\nghost use {module}.{{files, alone}};\nghost use R.{{report}};\n"
        ))
    };
    let right = used(&source("Files"), &promise);
    assert_eq!(right.len(), 3);
    assert_eq!(right, used(&source("Files"), &promise));
    assert_ne!(right, used(&source("Others"), &promise));
}
