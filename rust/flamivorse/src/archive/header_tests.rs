//! Holds the declarations of archive.rs and the crate's constants to include/flamivorse.h (functions,
//! sizes, offsets, macros, numbers), and the declarations to the symbols of the archive.

use super::tested::Tested;
use super::*;
use crate::*;
use std::collections::{BTreeMap, BTreeSet};
use std::io::Write;
use std::mem::{align_of, offset_of, size_of};
use std::process::{Command, Stdio};

const HEADER: &str = concat!(env!("CARGO_MANIFEST_DIR"), "/../../include/flamivorse.h");
const DECLARATIONS: &str = include_str!("../archive.rs");

/// Each function's name, with its parameters and answer written as Rust writes them.
type Functions = BTreeMap<String, String>;

/// A program of the tool chain: the one that the environment names, or else the machine's own.
fn tool(variable: &str, default: &str) -> Command {
    Command::new(std::env::var(variable).unwrap_or(default.into()))
}

/// The Rust type for a C type.
fn rust_type(c: &str) -> String {
    if let Some(pointee) = c.strip_suffix('*') {
        return match pointee.trim().strip_prefix("const ") {
            Some(constant) => format!("*const {}", rust_type(constant)),
            None => format!("*mut {}", rust_type(pointee)),
        };
    }
    match c.trim() {
        "void" => "()",
        "size_t" => "usize",
        "uint8_t" => "u8",
        "uint32_t" => "u32",
        "uint64_t" => "u64",
        "flamivorse_answer" => "Answer",
        "flamivorse_opened" => "Opened",
        "flamivorse_chain" => "Chain",
        "flamivorse_sha256_chain" => "Sha256Chain",
        "flamivorse_compressed" => "Compressed<Chain>",
        "flamivorse_sha256_compressed" => "Compressed<Sha256Chain>",
        "flamivorse_state" => "State",
        "flamivorse_streamed" => "Streamed",
        other => panic!("{other}: no such type in the header's interface"),
    }
    .into()
}

/// A C type followed by a name, taken apart: "const uint32_t *x" is "const uint32_t *" and "x".
fn type_and_name(c: &str) -> (String, String) {
    let end = c.rfind([' ', '*']).expect("a type and a name") + 1;
    (rust_type(c[..end].trim()), c[end..].to_string())
}

/// The header without comments.
fn header() -> String {
    let mut text = std::fs::read_to_string(HEADER).expect("the header");
    while let Some(start) = text.find("/*") {
        let end = start + text[start..].find("*/").expect("the comment's end") + 2;
        text.replace_range(start..end, "");
    }
    text
}

/// The header without comments and lines for the preprocessor, on one line.
fn header_code() -> String {
    let text = header();
    let lines = text
        .lines()
        .filter(|line| !line.starts_with('#') && !line.contains("extern"));
    lines
        .flat_map(str::split_whitespace)
        .collect::<Vec<_>>()
        .join(" ")
}

fn header_functions() -> Functions {
    let code = header_code();
    let prototypes = code
        .split(';')
        .filter_map(|text| text.trim().strip_suffix(')')?.split_once('('));
    prototypes
        .map(|(head, parameters)| {
            let (answer, name) = type_and_name(head);
            let parameters: Vec<String> = parameters
                .split(", ")
                .filter(|parameter| *parameter != "void")
                .map(type_and_name)
                .map(|(kind, name)| format!("{name}: {kind}"))
                .collect();
            let answer = format!(" -> {answer}").replace(" -> ()", "");
            (name, format!("({}){answer}", parameters.join(", ")))
        })
        .collect()
}

fn declared_functions() -> Functions {
    let (_, block) = DECLARATIONS.split_once("extern \"C\" {").expect("a block");
    let words: Vec<&str> = block.split_whitespace().collect();
    let code = words.join(" ").replace("( ", "(").replace(" )", ")");
    code.split("; ")
        .filter_map(|text| text.strip_prefix("pub(crate) fn "))
        .map(|text| text.split_at(text.find('(').expect("parameters")))
        .map(|(name, rest)| (name.into(), rest.into()))
        .collect()
}

#[test]
fn the_header_declares_the_same_functions() {
    assert_eq!(header_functions(), declared_functions());
}

#[test]
fn the_archive_has_these_functions_and_needs_no_others() {
    let output = tool("NM", "nm")
        .args(["--extern-only", env!("FLAMIVORSE_ARCHIVE")])
        .output();
    let listing = String::from_utf8(output.expect("nm").stdout).expect("names");
    // A line has an address where the symbol is defined, its kind, and its name.
    let symbols: BTreeSet<(String, String)> = listing
        .lines()
        .filter_map(|line| line.get(17..)?.split_once(' '))
        .map(|(kind, name)| (kind.into(), name.into()))
        .collect();
    let declared = declared_functions().into_keys();
    let functions = declared.map(|name| ("T".to_string(), name));
    assert_eq!(symbols, functions.collect());
}

/// C that compiles where a struct has this size and alignment, and these fields at these offsets.
fn asserts(name: &str, size: usize, align: usize, fields: &[(&str, usize)]) -> String {
    let mut asserts = format!(
        "_Static_assert(sizeof({name}) == {size} && _Alignof({name}) == {align}, \"size\");\n"
    );
    for (field, offset) in fields {
        asserts +=
            &format!("_Static_assert(offsetof({name}, {field}) == {offset}, \"{field}\");\n");
    }
    asserts
}

/// The layouts that Rust gives the structs, as C that compiles where the header gives them the
/// same.
fn layouts() -> String {
    macro_rules! layout {
        ($c:literal, $rust:ty: $($field:ident),*) => {{
            let fields = [$((stringify!($field), offset_of!($rust, $field))),*];
            asserts($c, size_of::<$rust>(), align_of::<$rust>(), &fields)
        }};
    }
    [
        layout!("flamivorse_answer", Answer: number, drawn),
        layout!("flamivorse_opened", Opened: number, word),
        layout!("flamivorse_chain", Chain: shares),
        layout!("flamivorse_sha256_chain", Sha256Chain: shares),
        layout!("flamivorse_compressed", Compressed<Chain>: number, drawn, chain),
        layout!("flamivorse_sha256_compressed", Compressed<Sha256Chain>: number, drawn, chain),
        layout!("flamivorse_state", State: n, bytes, drawn, finished, hash, inner, outer, tail),
        layout!("flamivorse_streamed", Streamed: number, drawn, state),
    ]
    .concat()
}

/// Whether C compiles with the header.
fn compiles(asserts: &str) -> bool {
    let mut compiler = tool("CC", "cc")
        .args(["-std=c11", "-Werror", "-fsyntax-only", "-x", "c", "-"])
        .stdin(Stdio::piped())
        .spawn()
        .expect("a C compiler");
    let mut input = compiler.stdin.take().expect("its input");
    let program = format!("#include \"{HEADER}\"\n{asserts}");
    input.write_all(program.as_bytes()).expect("the program");
    drop(input);
    compiler.wait().expect("its end").success()
}

#[test]
fn the_header_lays_the_structs_out_alike() {
    assert!(compiles(&layouts()));
}

/// A part of the crate's version.
fn part(text: &str) -> usize {
    text.parse().expect("a number")
}

/// Each constant of the header, with the value that Rust has for it.
#[rustfmt::skip]
fn constants() -> [(&'static str, usize); 23] {
    [
        ("VERSION_MAJOR", part(env!("CARGO_PKG_VERSION_MAJOR"))),
        ("VERSION_MINOR", part(env!("CARGO_PKG_VERSION_MINOR"))),
        ("VERSION_PATCH", part(env!("CARGO_PKG_VERSION_PATCH"))),
        ("SHARES_LIMIT", SHARES_LIMIT),
        ("KEY_LIMIT", KEY_LIMIT),
        ("MESSAGE_LIMIT", MESSAGE_LIMIT),
        ("TAG_BYTES", TAG_BYTES),
        ("SHA256_TAG_BYTES", SHA256_TAG_BYTES),
        ("CHAIN_WORDS", CHAIN_WORDS),
        ("SHA256_CHAIN_WORDS", SHA256_CHAIN_WORDS),
        ("B2A_2_STEPS", B2A_2_STEPS),
        ("A2B_2_STEPS", A2B_2_STEPS),
        ("KEY_BLOCK_WORDS", KEY_BLOCK_WORDS),
        ("BLOCK_BYTES", BLOCK_BYTES),
        ("DONE", 0),
        ("SHARE_COUNT", Refusal::ShareCount.number() as usize),
        ("INPUT_LENGTH", Refusal::InputLength.number() as usize),
        ("OUTPUT_LENGTH", Refusal::OutputLength.number() as usize),
        ("TOO_LONG", Refusal::TooLong.number() as usize),
        ("SUPPLY_SHORT", Refusal::SupplyShort.number() as usize),
        ("STATE_UNFIT", Refusal::StateUnfit.number() as usize),
        ("SHA1", Sha1::CODE as usize),
        ("SHA256", Sha256::CODE as usize),
    ]
}

#[test]
fn the_header_gives_the_constants_the_same_values() {
    let asserts = constants().map(|(name, value)| {
        format!("_Static_assert(FLAMIVORSE_{name} == {value}, \"{name}\");\n")
    });
    assert!(compiles(&asserts.concat()));
    let text = header();
    let mut lines = text.lines().map(|line| line.split_whitespace());
    let version = concat!("\"", env!("CARGO_PKG_VERSION"), "\"");
    assert!(lines.any(|words| words.eq(["#define", "FLAMIVORSE_VERSION", version])));
}

#[test]
fn the_header_has_no_constants_besides() {
    let text = header();
    let words = text.split(|letter: char| !letter.is_alphanumeric() && letter != '_');
    let named: BTreeSet<&str> = words
        .filter_map(|word| word.strip_prefix("FLAMIVORSE_"))
        .collect();
    let constants = constants().map(|(name, _)| name);
    // H guards the header; VERSION is a text.
    assert_eq!(
        named,
        constants.into_iter().chain(["H", "VERSION"]).collect()
    );
}
