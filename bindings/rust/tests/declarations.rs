//! Holds the declarations of `include/pokyandi.h` and of this crate against the
//! `pub extern "C"` functions of the Rattle source: names, parameters by name,
//! order and type, results; none missing, none too many.
//!
//! A signature is written as Rust's declarations are. A slice of Rattle is a
//! pointer of its name and a size whose name begins with it, or with its singular.

use std::collections::{BTreeMap, BTreeSet};
use std::fs;
use std::path::{Path, PathBuf};

/// Signatures by the name of the call.
type Calls = BTreeMap<String, String>;

/// `pub extern "C" fn pokyandi_check(sheet: &[u8]) -> u64`
fn rattle_calls(source: &str) -> Calls {
    let source = without(source, "//", "\n");
    let calls = source.split("pub extern \"C\" fn ").skip(1);
    calls
        .map(|call| signature(call, rattle_parameter))
        .collect()
}

/// `fn pokyandi_check(sheet: *const u8, sheet_bytes: usize) -> u64;`
fn rust_calls(source: &str) -> Calls {
    let source = without(source, "//", "\n");
    let blocks = source.split("extern \"C\" {").skip(1);
    let declarations = blocks.flat_map(|block| before(block, "}").split(';'));
    declarations
        .map(|declaration| declaration.split("fn ").last().unwrap_or(declaration))
        .filter(|declaration| !declaration.trim().is_empty())
        .map(|declaration| signature(declaration, rust_parameter))
        .collect()
}

/// `uint64_t pokyandi_check(const uint8_t *sheet, size_t sheet_bytes);`
fn header_calls(source: &str) -> Calls {
    let source = without(source, "/*", "*/");
    let source = without(&source, "#", "\n").replace("extern \"C\" {", "");
    let declarations = outside_braces(&source);
    declarations
        .iter()
        .map(|declaration| {
            let (result, rest) = declaration.split_once(' ').unwrap_or(("", declaration));
            let result = rust_type(result);
            signature(&format!("{rest} -> {result}"), c_parameter)
        })
        .collect()
}

/// Name and signature of `name(parameters) -> result`.
fn signature(text: &str, parameter: fn(&str) -> Vec<(String, String)>) -> (String, String) {
    let (name, rest) = text.split_once('(').unwrap_or((text, ""));
    let (parameters, rest) = rest.split_once(')').unwrap_or((rest, ""));
    let parameters = parameters.split(',').map(str::trim);
    let parameters = parameters.filter(|text| !text.is_empty() && *text != "void");
    let parameters = with_sizes(parameters.flat_map(parameter).collect());
    let result = rest.trim().strip_prefix("->").unwrap_or("nothing");
    let result = result.split_whitespace().next().unwrap_or("nothing");
    let signature = format!("({}) -> {result}", parameters.join(", "));
    (name.trim().to_string(), signature)
}

/// A parameter's name and type; the size of a slice has a type alone.
fn rattle_parameter(text: &str) -> Vec<(String, String)> {
    let (name, of_type) = text.split_once(':').unwrap_or((text, ""));
    let (name, of_type) = (name.trim(), of_type.trim());
    let slice = of_type.strip_suffix(']');
    let entry = |begin| slice.and_then(|slice| slice.strip_prefix(begin));
    let pointer = match (entry("&["), entry("&mut [")) {
        (Some(entry), _) => format!("*const {entry}"),
        (_, Some(entry)) => format!("*mut {entry}"),
        _ => return vec![(name.into(), of_type.into())],
    };
    vec![(name.into(), pointer), (format!("{name}_"), "usize".into())]
}

fn rust_parameter(text: &str) -> Vec<(String, String)> {
    let (name, of_type) = text.split_once(':').unwrap_or((text, ""));
    vec![(name.trim().into(), of_type.trim().into())]
}

fn c_parameter(text: &str) -> Vec<(String, String)> {
    let begin = text.rfind([' ', '*']).map_or(0, |end| end + 1);
    let (of_type, name) = text.split_at(begin);
    let of_type = match of_type.trim().strip_suffix('*') {
        None => rust_type(of_type),
        Some(entry) => match entry.trim().strip_prefix("const ") {
            Some(entry) => format!("*const {}", rust_type(entry)),
            None => format!("*mut {}", rust_type(entry)),
        },
    };
    vec![(name.into(), of_type)]
}

fn rust_type(c_type: &str) -> String {
    match c_type.trim() {
        "uint8_t" => "u8".into(),
        "uint32_t" => "u32".into(),
        "uint64_t" => "u64".into(),
        "int64_t" => "i64".into(),
        "size_t" => "usize".into(),
        other => other.into(),
    }
}

/// The parameters as text; a size that stands behind its pointer is called after
/// that.
fn with_sizes(parameters: Vec<(String, String)>) -> Vec<String> {
    let mut pointer: Option<String> = None;
    let mut texts = Vec::new();
    for (name, of_type) in parameters {
        let of_pointer = pointer.filter(|pointer| is_size_of(&name, pointer));
        texts.push(match &of_pointer {
            Some(pointer) if of_type == "usize" => format!("size of {pointer}"),
            _ => format!("{name}: {of_type}"),
        });
        pointer = of_type.starts_with('*').then_some(name);
    }
    texts
}

/// Whether a size has the name for this pointer: `sheet_bytes` for `sheet`,
/// `point_numbers` for `points`.
fn is_size_of(name: &str, pointer: &str) -> bool {
    let singular = pointer.strip_suffix('s').unwrap_or(pointer);
    let begins_with = |begin: &str| name.starts_with(&format!("{begin}_"));
    begins_with(pointer) || begins_with(singular)
}

/// The text without what stands from `begin` to `end`.
fn without(text: &str, begin: &str, end: &str) -> String {
    let mut parts = text.split(begin);
    let mut kept = parts.next().unwrap_or("").to_string();
    for part in parts {
        kept.push_str(part.split_once(end).map_or("", |(_, rest)| rest));
        kept.push('\n');
    }
    kept
}

fn before<'a>(text: &'a str, end: &str) -> &'a str {
    text.split(end).next().unwrap_or(text)
}

/// What ends in `;` outside of braces, its spaces single. A `}` too many is the
/// end of the header's `extern "C"`.
fn outside_braces(source: &str) -> Vec<String> {
    let mut statements = Vec::new();
    let mut statement = String::new();
    let mut depth = 0_usize;
    for letter in source.chars() {
        match letter {
            '{' => depth += 1,
            '}' => {
                depth = depth.saturating_sub(1);
                if depth == 0 {
                    statement.clear();
                }
            }
            ';' if depth == 0 => {
                let words: Vec<&str> = statement.split_whitespace().collect();
                statements.push(words.join(" "));
                statement.clear();
            }
            _ if depth == 0 => statement.push(letter),
            _ => {}
        }
    }
    statements.retain(|statement| !statement.is_empty());
    statements
}

/// What differs between a file's declarations and the Rattle source's functions.
fn differences(file: &str, declared: &Calls, rattle: &Calls) -> Vec<String> {
    let names: BTreeSet<&String> = declared.keys().chain(rattle.keys()).collect();
    let difference = |name: &&String| match (declared.get(*name), rattle.get(*name)) {
        (None, _) => Some(format!("{name}: not declared in {file}")),
        (_, None) => Some(format!("{name}: in {file}, not in the Rattle source")),
        (Some(a), Some(b)) if a != b => Some(format!("{name}: {file} has {a}, Rattle {b}")),
        _ => None,
    };
    names.iter().filter_map(difference).collect()
}

fn all_differences(rattle: &str, header: &str, rust: &str) -> Vec<String> {
    let rattle = rattle_calls(rattle);
    let mut found = differences("the header", &header_calls(header), &rattle);
    found.extend(differences("the Rust crate", &rust_calls(rust), &rattle));
    found
}

fn from_top(path: &str) -> PathBuf {
    Path::new(env!("CARGO_MANIFEST_DIR"))
        .join("../..")
        .join(path)
}

fn text_of(path: &Path) -> String {
    fs::read_to_string(path).unwrap_or_else(|error| panic!("{}: {error}", path.display()))
}

/// The files of a folder, one after the other.
fn texts_of(folder: &str) -> String {
    let entries = fs::read_dir(from_top(folder)).expect("the folder is there");
    let paths = entries.map(|entry| entry.expect("the folder can be read").path());
    paths.map(|path| text_of(&path)).collect()
}

#[test]
fn the_declarations_are_those_of_the_rattle_source() {
    let rattle = texts_of("crates/pokyandi_c/src");
    let marked = rattle.matches("#[unsafe(no_mangle)]\npub extern \"C\" fn ").count();
    assert_eq!(marked, rattle_calls(&rattle).len(), "each has #[unsafe(no_mangle)]");
    let header = text_of(&from_top("include/pokyandi.h"));
    let found = all_differences(&rattle, &header, &texts_of("bindings/rust/src"));
    assert!(found.is_empty(), "\n{}", found.join("\n"));
}

const RATTLE: &str = r#"
// pub extern "C" fn pokyandi_comment() -> u64
#[unsafe(no_mangle)]
pub extern "C" fn pokyandi_fill(sheet: &[u8], row: &mut [u64]) -> u64
    ensures answer { anything (of it) }
{
    0
}
pub extern "C" fn pokyandi_curve(
    radius: u32,
    spiral: u32,
    line: &[u32],
) -> u64 { 0 }
pub extern "C" fn pokyandi_legs(points: &[i64]) -> u64 { 0 }
pub extern "C" fn pokyandi_none() -> u64 { 0 }
"#;

const HEADER: &str = r#"
#define POKYANDI_SIZE 5
#ifdef __cplusplus
extern "C" {
#endif
enum pokyandi_reason { POKYANDI_DONE = 0 };
static inline uint32_t pokyandi_count(uint64_t answer) { return (uint32_t)answer; }
/* uint64_t pokyandi_comment(void); */
uint64_t pokyandi_fill(const uint8_t *sheet, size_t sheet_bytes, uint64_t *row, size_t row_numbers);
uint64_t pokyandi_curve(uint32_t radius, uint32_t spiral,
                        const uint32_t *line, size_t line_numbers);
uint64_t pokyandi_legs(const int64_t *points, size_t point_numbers);
uint64_t pokyandi_none(void);
#ifdef __cplusplus
}
#endif
"#;

const RUST: &str = r#"
// A comment.
extern "C" {
    fn pokyandi_fill(sheet: *const u8, sheet_bytes: usize, row: *mut u64, row_numbers: usize)
        -> u64;
    fn pokyandi_curve(
        radius: u32,
        spiral: u32,
        line: *const u32,
        line_numbers: usize,
    ) -> u64;
    fn pokyandi_legs(points: *const i64, point_numbers: usize) -> u64;
    fn pokyandi_none() -> u64;
}
fn count() -> u64 { 0 }
"#;

/// The text with its one `from` made `to`.
fn planted(text: &str, from: &str, to: &str) -> String {
    assert_eq!(text.matches(from).count(), 1, "{from}");
    text.replace(from, to)
}

#[test]
fn equal_declarations_have_no_difference() {
    assert_eq!(rattle_calls(RATTLE).len(), 4);
    assert_eq!(all_differences(RATTLE, HEADER, RUST), [""; 0]);
}

#[test]
fn a_drift_of_the_header_is_found() {
    let drifts = [
        ("uint64_t pokyandi_none(void);", ""),
        ("pokyandi_none", "pokyandi_other"),
        ("pokyandi_none(void)", "pokyandi_none(uint32_t radius)"),
        ("uint64_t pokyandi_none", "uint32_t pokyandi_none"),
        ("uint64_t pokyandi_none", "void pokyandi_none"),
        ("radius, uint32_t spiral", "spiral, uint32_t radius"),
        ("uint32_t radius", "uint64_t radius"),
        ("const uint8_t", "uint8_t"),
        ("uint64_t *row", "const uint64_t *row"),
        ("uint64_t *row", "uint32_t *row"),
        (", size_t row_numbers", ""),
        ("size_t row_numbers", "uint32_t row_numbers"),
        ("size_t row_numbers", "size_t sheet_numbers"),
        ("size_t point_numbers", "size_t leg_numbers"),
        ("enum", "const char *pokyandi_more(uint32_t number);\nenum"),
    ];
    for (from, to) in drifts {
        let found = all_differences(RATTLE, &planted(HEADER, from, to), RUST);
        assert!(!found.is_empty(), "{from} made {to}");
    }
}

#[test]
fn a_drift_of_the_rust_crate_is_found() {
    let drifts = [
        ("fn pokyandi_none() -> u64;", ""),
        ("pokyandi_none", "pokyandi_other"),
        ("pokyandi_none() -> u64", "pokyandi_none() -> u32"),
        ("pokyandi_none() -> u64", "pokyandi_none()"),
        ("*const u8", "*mut u8"),
        ("*mut u64", "*mut u32"),
        ("radius: u32", "radius: u64"),
        ("        line_numbers: usize,\n", ""),
        (
            "fn pokyandi_none() -> u64;",
            "fn pokyandi_none() -> u64; #[cold] pub fn pokyandi_more() -> u64;",
        ),
        (
            "// A comment.",
            "extern \"C\" { fn pokyandi_more() -> u64; }",
        ),
    ];
    for (from, to) in drifts {
        let found = all_differences(RATTLE, HEADER, &planted(RUST, from, to));
        assert!(!found.is_empty(), "{from} made {to}");
    }
}

#[test]
fn a_drift_of_the_rattle_source_is_found_in_both() {
    let drifts = [
        ("    spiral: u32,\n", ""),
        ("&[u32]", "&mut [u32]"),
        ("&[u8]", "&[u32]"),
        ("none() -> u64", "none() -> u32"),
        ("fn pokyandi_none", "fn pokyandi_other"),
    ];
    for (from, to) in drifts {
        let found = all_differences(&planted(RATTLE, from, to), HEADER, RUST);
        for file in ["the header", "the Rust crate"] {
            assert!(found.iter().any(|text| text.contains(file)), "{from}");
        }
    }
}
