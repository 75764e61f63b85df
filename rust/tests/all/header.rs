//! The header for C, held to the exported functions and the fixed numbers of the library's sources, and its two examples compiled
//! and run.

use crate::reference::{BLOCK, FIRST, SECOND};
use std::collections::BTreeSet;
use std::io::Write;
use std::path::{Path, PathBuf};
use std::process::{Command, Output};

const HEADER: &str = include_str!("../../../include/qirfadhun.h");
const LINES: &str = "constraint 1: holds, violation 0\nconstraint 2: holds, violation 0\nconstraint 3: holds, violation 0\n\
                     constraint 4: broken, violation 5\ntotal 15\n";

fn repository() -> PathBuf {
    Path::new(env!("CARGO_MANIFEST_DIR")).join("..")
}

/// The sources of a crate, one after the other.
fn sources(name: &str) -> String {
    let files = std::fs::read_dir(repository().join("crates").join(name).join("src")).expect("the crate has sources");
    files.map(|file| std::fs::read_to_string(file.expect("a file").path()).expect("a text")).collect()
}

/// The part of a text between two marks.
fn between<'a>(text: &'a str, start: &str, end: &str) -> Option<&'a str> {
    text.split_once(start)?.1.split_once(end).map(|parts| parts.0)
}

/// What the header declares, without comments and directives, in one line with single spaces.
fn declared() -> String {
    let mut text = HEADER.to_string();
    while let Some(comment) = between(&text, "/*", "*/") {
        text = text.replace(&format!("/*{comment}*/"), "");
    }
    let lines = text.lines().filter(|line| !line.starts_with('#'));
    let words: Vec<&str> = lines.flat_map(str::split_whitespace).collect();
    words.join(" ").replace("( ", "(")
}

/// A type of the sources in C.
fn in_c(kind: &str) -> &str {
    match kind {
        "u8" => "uint8_t",
        "u64" => "uint64_t",
        "i64" => "int64_t",
        "Constraint" => "sctr_constraint",
        "Answer" => "sctr_call_answer",
        "Read" => "sctr_read_answer",
        "Written" => "sctr_write_answer",
        "Salvaged" => "sctr_salvage_answer",
        other => panic!("{other} has no name in C"),
    }
}

/// A parameter or a field of the sources in C, where a slice is a pointer and a length.
fn parameter_in_c(parameter: &str) -> String {
    let (name, kind) = parameter.split_once(": ").expect("a name and a type");
    match (between(kind, "&[", "]"), between(kind, "&mut [", "]")) {
        (Some(item), _) => format!("const {} *{name}, size_t {name}_len", in_c(item)),
        (_, Some(item)) => format!("{} *{name}, size_t {name}_len", in_c(item)),
        _ => format!("{} {name}", in_c(kind)),
    }
}

/// An exported function of the sources in C, from its name on.
fn function_in_c(function: &str) -> String {
    let (name, rest) = function.split_once('(').expect("parameters");
    let (parameters, rest) = rest.split_once(") -> ").expect("an answer");
    let answer = rest.split_whitespace().next().expect("a type");
    let parameters = parameters.split(',').map(str::trim).filter(|parameter| !parameter.is_empty());
    format!("{} {name}({})", in_c(answer), parameters.map(parameter_in_c).collect::<Vec<_>>().join(", "))
}

#[test]
fn every_export_and_nothing_else() {
    let source = sources("screen");
    let due: BTreeSet<String> = source.split("pub extern \"C\" fn ").skip(1).map(function_in_c).collect();
    assert_eq!(due.len(), source.matches("#[unsafe(no_mangle)]").count());
    let declared = declared();
    let found = declared.split(';').map(|part| part.trim().to_string()).filter(|part| part.contains('(')).collect();
    assert_eq!(due.symmetric_difference(&found).collect::<Vec<_>>(), [""; 0]);
}

#[test]
fn structs() {
    let answers = [("call", "Answer"), ("reading", "Read"), ("writing", "Written"), ("salvage", "Salvaged")];
    for (folder, name) in [("records", "Constraint")].into_iter().chain(answers) {
        let source = sources(folder);
        let fields = between(&source, &format!("pub struct {name} {{"), "}").expect("the struct");
        let fields = fields.split(',').filter_map(|field| field.trim().strip_prefix("pub "));
        let fields: Vec<String> = fields.map(|field| format!("{};", parameter_in_c(field))).collect();
        let due = format!("typedef struct {0} {{ {1} }} {0};", in_c(name), fields.join(" "));
        assert!(declared().contains(&due), "the header has no {due}");
    }
}

/// Every limit, kind, relation and status of the sources has the same number in the header, and so have the sheets' bytes.
#[test]
fn numbers() {
    let source = sources("terms");
    let constants = source.lines().filter_map(|line| line.trim().strip_prefix("pub const "));
    let mut due: Vec<[String; 2]> = constants
        .map(|constant| {
            let (name, rest) = constant.split_once(": ").expect("a type");
            let number = between(rest, "= ", ";").expect("a number").replace('_', "");
            [format!("SCTR_{name}"), number]
        })
        .collect();
    // The relations and the statuses are the cases of enums that have numbers.
    let cases = source.lines().filter_map(|line| line.trim().strip_suffix(',')?.split_once(" = "));
    due.extend(cases.filter(|(_, number)| number.parse::<u64>().is_ok()).map(|(name, number)| {
        let letters = name.chars().map(|letter| match letter {
            'A'..='Z' => format!("_{letter}"),
            _ => letter.to_uppercase().to_string(),
        });
        [format!("SCTR{}", letters.collect::<String>()), number.to_string()]
    }));
    assert!(due.len() > 30);
    due.push(["SCTR_BLOCK_BYTES".into(), BLOCK.to_string()]);
    due.push(["SCTR_MOST_BYTES".into(), format!("({} * SCTR_BLOCK_BYTES)", FIRST.blocks)]);
    due.push(["SCTR_MOST_SECOND_BYTES".into(), format!("({} * SCTR_BLOCK_BYTES)", SECOND.blocks)]);
    for [name, number] in due {
        let found = between(HEADER, &format!("#define {name} "), "\n").unwrap_or_else(|| panic!("{name} is not in the header"));
        let found = found.split(" /*").next().expect("a number");
        assert_eq!(between(found, "UINT64_C(", ")").unwrap_or(found), number, "{name}");
    }
}

/// The first of these programs that is installed. Where none is, the test that wants it is left out, and says so.
fn installed(names: &[&'static str]) -> Option<&'static str> {
    let found =
        names.iter().find(|name| Command::new(name).arg("--version").output().is_ok_and(|output| output.status.success()));
    if found.is_none() {
        writeln!(std::io::stderr(), "An example of the header was NOT run: there is no {}", names.join(", no "))
            .expect("a message");
    }
    found.copied()
}

/// The emulator that runs programs for x86-64, where the machine can't by itself.
fn runner() -> Option<std::ffi::OsString> {
    std::env::var_os("QIRFADHUN_RUNNER")
}

/// A compiler for x86-64.
fn compiler() -> Option<&'static str> {
    installed(if runner().is_none() { &["cc", "gcc", "clang"] } else { &["x86_64-linux-gnu-gcc"] })
}

fn text_of(command: &mut Command) -> String {
    let Output { status, stdout, stderr } = command.current_dir(repository()).output().expect("the program starts");
    let [out, err] = [stdout, stderr].map(|text| String::from_utf8_lossy(&text).into_owned());
    assert!(status.success(), "{command:?}: {status}\n{out}{err}");
    out
}

#[test]
fn example_in_c() {
    let Some(compiler) = compiler() else { return };
    let program = Path::new(env!("CARGO_TARGET_TMPDIR")).join("example");
    for standard in ["-std=c89", "-std=c99", "-std=c11"] {
        let flags = [standard, "-Wall", "-Wextra", "-Werror", "-pedantic", "-Iinclude"];
        let files = ["include/example.c", "target/staticlib/libscreen.a", "-o"];
        text_of(Command::new(compiler).args(flags).args(files).arg(&program));
        let mut command = match runner() {
            None => Command::new(&program),
            Some(runner) => {
                let mut command = Command::new(runner);
                command.arg(&program);
                command
            }
        };
        assert_eq!(text_of(command.arg("sheets/a.sheet")), format!("{LINES}0 differences from document 01\n"));
    }
}

/// An emulator for one program has no Python of x86-64 to run.
#[test]
fn example_in_python() {
    let (None, Some(compiler), Some(python)) = (runner(), compiler(), installed(&["python3"])) else { return };
    let library = Path::new(env!("CARGO_TARGET_TMPDIR")).join("libscreen.so");
    let whole = ["-Wl,--whole-archive", "target/staticlib/libscreen.a", "-Wl,--no-whole-archive"];
    text_of(Command::new(compiler).arg("-shared").args(whole).arg("-o").arg(&library));
    assert_eq!(text_of(Command::new(python).arg("include/example.py").arg(&library).arg("sheets/a.sheet")), LINES);
}
