//! The exports in the library's code, the header and the wrapper declare the same calls and structs.

use std::collections::BTreeMap;
use std::fs;
use std::path::Path;

/// Calls and structs by name. A call has its parameters and, last, its result; a struct its fields. Types are written as Rust does.
type Declared = BTreeMap<String, Vec<(String, String)>>;

fn read(path: &str) -> String {
    let path = Path::new(env!("CARGO_MANIFEST_DIR")).join(path);
    fs::read_to_string(&path).unwrap_or_else(|error| panic!("{}: {error}", path.display()))
}

/// The crates by name.
fn crates() -> Vec<String> {
    let listed = read("../../crates.txt");
    let lines = listed.lines().filter(|line| !line.starts_with('#'));
    lines.filter_map(|line| Some(line.split_once(':')?.0.split_whitespace().next()?.to_string())).collect()
}

/// The code of a crate of the library, its files joined.
fn library(name: &str) -> String {
    let folder = Path::new(env!("CARGO_MANIFEST_DIR")).join("../../crates").join(name).join("src");
    let files = fs::read_dir(&folder).unwrap_or_else(|error| panic!("{}: {error}", folder.display()));
    files.map(|file| fs::read_to_string(file.expect("a file of the crate").path()).expect("code")).collect()
}

/// The parts of a text between commas or semicolons, trimmed, without the empty ones.
fn parts(text: &str, between: char) -> impl Iterator<Item = &str> {
    text.split(between).map(str::trim).filter(|part| !part.is_empty())
}

/// Two names for a slice's pointer and length, one for anything else.
fn lowered(name: &str, rust_type: &str) -> Vec<(String, String)> {
    let pointer = match rust_type.strip_suffix(']') {
        Some(slice) if slice.starts_with("&mut [") => slice.replace("&mut [", "*mut "),
        Some(slice) if slice.starts_with("&[") => slice.replace("&[", "*const "),
        _ => return vec![(name.to_string(), rust_type.to_string())],
    };
    vec![(name.to_string(), pointer), (format!("{name}_length"), "usize".to_string())]
}

/// `name: type` in Rattle or Rust.
fn rust_part(part: &str) -> Vec<(String, String)> {
    let (name, rust_type) = part.split_once(':').expect("a name and its type");
    lowered(name.trim().trim_start_matches("pub "), rust_type.trim())
}

/// What follows each of these words, up to one of the ends.
fn after<'a>(code: &'a str, word: &'a str, end: &'a [char]) -> impl Iterator<Item = &'a str> {
    code.split(word).skip(1).map(move |rest| rest.split(end).next().expect("there is a first part"))
}

/// The calls after `word` in Rattle or Rust.
fn rust_calls(code: &str, word: &str) -> Declared {
    let calls = after(code, word, &['{', ';']).map(|call| {
        let (name, rest) = call.split_once('(').expect("parameters");
        let (parameters, result) = rest.split_once(')').expect("the end of the parameters");
        let result = result.trim().trim_start_matches("->").split_whitespace().next().expect("a result");
        let mut signature: Vec<_> = parts(parameters, ',').flat_map(rust_part).collect();
        signature.push(("result".to_string(), result.to_string()));
        (name.to_string(), signature)
    });
    calls.collect()
}

/// The structs laid out for C in Rattle or Rust.
fn rust_structs(code: &str) -> Declared {
    let without_notes: String = code.lines().filter(|line| !line.trim().starts_with("//")).collect();
    let structs = after(&without_notes, "#[repr(C)]", &['}']).filter_map(|text| {
        let (name, fields) = text.split_once("pub struct ")?.1.split_once('{')?;
        Some((name.trim().to_string(), parts(fields, ',').flat_map(rust_part).collect()))
    });
    structs.collect()
}

/// A C type as Rust writes it.
fn c_type(text: &str) -> String {
    let named = |name: &str| match name {
        "uint8_t" => "u8".to_string(),
        "uint32_t" => "u32".to_string(),
        "uint64_t" => "u64".to_string(),
        "size_t" => "usize".to_string(),
        other => other.trim_start_matches("thrunglow_").to_string(),
    };
    match (text.strip_prefix("const "), text.strip_suffix('*')) {
        (Some(read), Some(_)) => format!("*const {}", named(read.trim_end_matches('*').trim())),
        (None, Some(written)) => format!("*mut {}", named(written.trim())),
        _ => named(text),
    }
}

/// `type name` or `type name[48]` in C.
fn c_part(part: &str) -> (String, String) {
    let start = part.rfind([' ', '*']).expect("a type and its name") + 1;
    let (rust_type, name) = (c_type(part[..start].trim()), &part[start..]);
    match name.split_once('[') {
        None => (name.to_string(), rust_type),
        Some((name, length)) => (name.to_string(), format!("[{rust_type}; {}]", length.trim_end_matches(']'))),
    }
}

/// The header without its notes.
fn header() -> String {
    let header = read("../thrunglow.h");
    let code = header.split("/*").map(|part| part.split_once("*/").map_or(part, |(_, code)| code));
    code.collect()
}

fn c_calls(header: &str) -> Declared {
    let calls = header.split(';').filter(|text| text.contains(" thrunglow_") && text.contains('(')).map(|text| {
        let declaration = text.trim().lines().last().expect("a declaration is one line");
        let (front, parameters) = declaration.split_once('(').expect("parameters");
        let (name, result) = c_part(front);
        let mut signature: Vec<_> = parts(parameters.trim_end_matches(')'), ',').map(c_part).collect();
        signature.push(("result".to_string(), result));
        (name, signature)
    });
    calls.collect()
}

fn c_structs(header: &str) -> Declared {
    let structs = header.split("typedef struct {").skip(1).map(|text| {
        let (fields, rest) = text.split_once('}').expect("the end of the fields");
        let name = rest.split(';').next().expect("a name").trim().trim_start_matches("thrunglow_");
        (name.to_string(), parts(fields, ';').map(c_part).collect())
    });
    structs.collect()
}

#[test]
fn the_calls_are_declared_alike() {
    let exported = rust_calls(&library("thrunglow_c"), "pub extern \"C\" fn ");
    assert_eq!(exported.len(), 10, "{:?}", exported.keys());
    assert_eq!(c_calls(&header()), exported);
    let raw = read("src/raw.rs");
    let (_, block) = raw.split_once("unsafe extern \"C\" {").expect("the extern block");
    let (block, _) = block.split_once("\n}").expect("its end");
    assert_eq!(rust_calls(block, "fn "), exported);
}

#[test]
fn the_structs_are_declared_alike() {
    let names = ["Settings", "Carry", "Outcome", "Passed", "Amendment", "Reading"];
    let code: String = crates().iter().map(|name| library(name)).collect();
    let mut exported = rust_structs(&code);
    exported.retain(|name, _| names.contains(&name.as_str()));
    assert_eq!(exported.len(), names.len(), "{:?}", exported.keys());
    assert_eq!(c_structs(&header()), exported);
    let wrapper = ["src/raw.rs", "src/settings.rs", "src/cutter.rs"].map(read).concat();
    assert_eq!(rust_structs(&wrapper), exported);
}
