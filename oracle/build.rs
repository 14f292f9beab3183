//! Reads the Rust that the port is compared with, puts document 01's steps
//! in place of the library's functions and writes the result to OUT_DIR.
//! Nothing of that Rust is kept in this repository.

use std::path::{Path, PathBuf};
use std::{env, fs, process};

const FILES: [&str; 5] = [
    "constants.rs",
    "coefficients.rs",
    "magnetic.rs",
    "geometry.rs",
    "ionosphere.rs",
];

/// The files that are written a second time, with their branches counted.
const COUNTED: [&str; 3] = ["geometry.rs", "magnetic.rs", "ionosphere.rs"];

/// Functions of these files that nothing here runs. Their branches stay as
/// they are.
const NOT_RUN: [&str; 2] = ["preset", "from_numerics"];

/// Method calls that become a step. `sqrt` and `abs` stay the hardware's,
/// which document 01 asks for as they are.
const RENAMES: [(&str, &str); 8] = [
    (".sin()", ".step_sin()"),
    (".cos()", ".step_cos()"),
    (".acos()", ".step_acos()"),
    (".atan()", ".step_atan()"),
    (".exp()", ".step_exp()"),
    (".ln()", ".step_ln()"),
    (".min(", ".step_min("),
    (".max(", ".step_max("),
];

/// Names that must not be left as a method or a path: the library decides
/// what they give.
const FORBIDDEN: [&str; 28] = [
    "sin", "cos", "tan", "asin", "acos", "atan", "atan2", "sin_cos", "sinh", "cosh", "tanh", "exp",
    "exp2", "exp_m1", "ln", "ln_1p", "log", "log2", "log10", "powf", "powi", "hypot", "cbrt",
    "mul_add", "min", "max", "minimum", "maximum",
];

fn main() {
    println!("cargo::rustc-check-cfg=cfg(linked)");
    prepare_sources();
    note_port();
}

fn fail(message: String) -> ! {
    println!("cargo::error={message}");
    process::exit(1);
}

fn prepare_sources() {
    let from = source_folder();
    let to = PathBuf::from(env::var_os("OUT_DIR").expect("cargo sets OUT_DIR"));
    let mut places = [0; RENAMES.len()];
    let mut branches = Vec::new();
    for file in FILES {
        let text = rename(&read(&from.join(file)), &mut places);
        refuse_leftovers(file, &text);
        let text = make_visible(file, &text);
        if COUNTED.contains(&file) {
            let counted = counted(file, &text, &mut branches);
            write(&to.join(format!("counted_{file}")), &counted);
        }
        write(&to.join(file), &text);
    }
    refuse_missing(&places);
    write(&to.join("branches.rs"), &branch_table(&branches));
}

fn source_folder() -> PathBuf {
    println!("cargo::rerun-if-env-changed=HFCAST_SRC");
    match env::var_os("HFCAST_SRC") {
        Some(folder) => Path::new(&folder).join("src/voacap"),
        None => fail(String::from(
            "HFCAST_SRC is not set: it names the folder that holds src/voacap/ of hfcast-engine",
        )),
    }
}

fn read(path: &Path) -> String {
    println!("cargo::rerun-if-changed={}", path.display());
    fs::read_to_string(path)
        .unwrap_or_else(|e| fail(format!("HFCAST_SRC: cannot read {}: {e}", path.display())))
}

fn write(path: &Path, text: &str) {
    fs::write(path, text).unwrap_or_else(|e| fail(format!("cannot write {}: {e}", path.display())));
}

fn rename(text: &str, places: &mut [usize; RENAMES.len()]) -> String {
    let mut text = text.to_owned();
    for ((old, new), count) in RENAMES.iter().zip(places) {
        *count += text.matches(old).count();
        text = text.replace(old, new);
    }
    text
}

/// A rename without any place would mean that the sources have changed and
/// a step went missing unseen.
fn refuse_missing(places: &[usize; RENAMES.len()]) {
    for ((old, _), count) in RENAMES.iter().zip(places) {
        if *count == 0 {
            fail(format!("no {old} in any of {FILES:?}"));
        }
    }
}

fn refuse_leftovers(file: &str, text: &str) {
    for name in FORBIDDEN {
        for form in [format!(".{name}"), format!("::{name}")] {
            if has_word(text, &form) {
                fail(format!("{file}: {form} is left and is no step"));
            }
        }
    }
}

/// A longer name is another one, and `1..ln` is a range.
fn has_word(text: &str, form: &str) -> bool {
    text.match_indices(form).any(|(at, _)| {
        let longer = |c: char| c.is_alphanumeric() || c == '_';
        !text[..at].ends_with('.') && !text[at + form.len()..].starts_with(longer)
    })
}

/// What a line of column 4 belongs to.
#[derive(Clone, Copy, PartialEq)]
enum Block {
    Other,
    Struct,
    Methods,
}

/// Opens what is private, so that each part can be called by itself. Lines
/// stay where they are, for the compiler's messages.
fn make_visible(file: &str, text: &str) -> String {
    let mut block = Block::Other;
    let mut out = String::new();
    for line in text.lines() {
        if !is_inner(file, line) {
            block = block_after(line, block);
            out.push_str(&opened(line, block));
        }
        out.push('\n');
    }
    out
}

/// Inner attributes and inner doc comments cannot stand in an included file.
fn is_inner(file: &str, line: &str) -> bool {
    if line.starts_with("#![") && !line.ends_with(']') {
        fail(format!("{file}: an inner attribute over several lines"));
    }
    line.starts_with("#![") || line.starts_with("//!")
}

fn block_after(line: &str, block: Block) -> Block {
    let opens = line.ends_with('{');
    if line.starts_with('}') {
        Block::Other
    } else if opens && (line.starts_with("struct ") || line.starts_with("pub struct ")) {
        Block::Struct
    } else if opens && line.starts_with("impl") && !line.contains(" for ") {
        Block::Methods
    } else {
        block
    }
}

fn opened(line: &str, block: Block) -> String {
    let items = ["fn ", "struct ", "enum ", "const ", "static ", "type "];
    if items.iter().any(|item| line.starts_with(item)) {
        return format!("pub {line}");
    }
    match line.strip_prefix("    ") {
        Some(rest) if block == Block::Struct && is_private_field(rest) => format!("    pub {rest}"),
        Some(rest) if block == Block::Methods && rest.starts_with("fn ") => {
            format!("    pub {rest}")
        }
        _ => line.to_owned(),
    }
}

fn is_private_field(rest: &str) -> bool {
    let name = rest.split(':').next().unwrap_or("");
    rest.contains(':')
        && name.starts_with(|c: char| c.is_ascii_lowercase() || c == '_')
        && name.chars().all(|c| c.is_ascii_alphanumeric() || c == '_')
}

/// Where a condition stands.
struct Place<'a> {
    file: &'a str,
    number: u32,
    function: String,
}

/// Notes each condition of an `if` or `while` as it is decided. The blocks
/// after `if` and `else` are its two outcomes, and the missing `else` is seen
/// too. Lines stay where they are.
fn counted(file: &str, text: &str, branches: &mut Vec<String>) -> String {
    let mut function = String::new();
    let mut out = String::new();
    for (number, line) in (1..).zip(text.lines()) {
        function = function_after(line, function);
        let place = Place {
            file,
            number,
            function: function.clone(),
        };
        if line.trim_start().starts_with("//") || NOT_RUN.contains(&place.function.as_str()) {
            out.push_str(line);
        } else {
            refuse_uncounted(&place, line);
            out.push_str(&noted(&place, line, branches));
        }
        out.push('\n');
    }
    out
}

/// The function that a line belongs to, or that it begins.
fn function_after(line: &str, function: String) -> String {
    let start = line.trim_start().trim_start_matches("pub ");
    match start.strip_prefix("fn ") {
        Some(rest) => {
            let longer = |c: char| c.is_alphanumeric() || c == '_';
            rest.chars().take_while(|c| longer(*c)).collect()
        }
        None => function,
    }
}

/// Branches of another form would go by unseen.
fn refuse_uncounted(place: &Place, line: &str) {
    for form in ["match ", "if let ", "while let ", " || "] {
        if line.contains(form) {
            fail(format!(
                "{}:{}: {form:?} is not counted",
                place.file, place.number
            ));
        }
    }
}

/// The parts of an `&&` are noted one by one.
fn noted(place: &Place, line: &str, branches: &mut Vec<String>) -> String {
    let Some((before, rest)) = split_at_condition(line) else {
        return line.to_owned();
    };
    let Place {
        file,
        number,
        function,
    } = place;
    let Some(length) = rest.find(" {") else {
        fail(format!("{file}:{number}: a condition over several lines"));
    };
    let (condition, after) = rest.split_at(length);
    let mut parts = Vec::new();
    for part in condition.split(" && ") {
        parts.push(format!(
            "crate::reference::branches::note({}, {part})",
            branches.len()
        ));
        branches.push(format!(
            "Branch {{ file: {file:?}, line: {number}, function: {function:?}, condition: {part:?} }}"
        ));
    }
    let after = noted(place, after, branches);
    format!("{before}{}{after}", parts.join(" && "))
}

/// The line up to and with its first `if` or `while`, and the rest.
fn split_at_condition(line: &str) -> Option<(&str, &str)> {
    let longer = |c: char| c.is_alphanumeric() || c == '_';
    let words = ["if ", "while "];
    let places = words.iter().flat_map(|word| line.match_indices(word));
    let (at, word) = places
        .filter(|(at, _)| !line[..*at].ends_with(longer))
        .min()?;
    Some(line.split_at(at + word.len()))
}

/// Each condition that is noted, by its number.
fn branch_table(branches: &[String]) -> String {
    format!(
        "pub const BRANCHES: [Branch; {}] = [\n{}\n];\n",
        branches.len(),
        branches.join(",\n")
    )
}

/// Whether bindings/rust has linked the port's library, which its build script decides. Without it the
/// commands that compare say what they miss.
fn note_port() {
    if env::var_os("DEP_JUTETROWEL_LINKED").is_some() {
        println!("cargo::rustc-cfg=linked");
    }
}
