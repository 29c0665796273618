//! The C header: taken by C and C++ compilers with the strictest flags, its names of codes compared
//! with the crate's, and a wrong layout refused.

use jibcradle::Refusal;
use std::path::{Path, PathBuf};
use std::process::{Command, Output};

/// The languages that the header is for: a compiler, and its first arguments.
const LANGUAGES: [(&str, &[&str]); 5] = [
    ("cc", &["-x", "c", "-std=c99"]),
    ("cc", &["-x", "c", "-std=c11"]),
    ("cc", &["-x", "c", "-std=c17"]),
    ("c++", &["-x", "c++", "-std=c++11"]),
    ("c++", &["-x", "c++", "-std=c++17"]),
];

/// Whether a compiler is here. C is needed to link Rust, C++ isn't.
fn is_here(compiler: &str) -> bool {
    let here = Command::new(compiler).arg("--version").output().is_ok();
    assert!(here || compiler != "cc");
    if !here {
        eprintln!("{compiler} isn't here, so the header isn't tried by it");
    }
    here
}

/// Compiles a text with the header in it; the program's path and what the compiler said.
fn compile(name: &str, (compiler, first): (&str, &[&str]), text: &str) -> (PathBuf, Output) {
    let source = Path::new(env!("CARGO_TARGET_TMPDIR")).join(format!("{name}.source"));
    std::fs::write(&source, text).unwrap();
    let program = source.with_extension("program");
    let out = Command::new(compiler)
        .args(first)
        .args(["-pedantic", "-Wall", "-Wextra", "-Wshadow", "-Wconversion", "-Werror"])
        .arg("-I")
        .arg(Path::new(env!("CARGO_MANIFEST_DIR")).join("../c"))
        .arg(&source)
        .args(["-x", "none"])
        .arg(env!("JIBCRADLE_ARCHIVE"))
        .arg("-o")
        .arg(&program)
        .output()
        .unwrap();
    (program, out)
}

/// Prints the names of the codes up to 18, and of the largest number; makes a call besides.
const NAMES: &str = r#"
#include "jibcradle.h"
#include "jibcradle.h"
#include <stdio.h>
static jibcradle_store store;
int main(void)
{
    uint64_t code;
    for (code = 0; code <= 18; code++) {
        puts(jibcradle_code_name(code));
    }
    puts(jibcradle_code_name(UINT64_MAX));
    puts(jibcradle_code_name(jibcradle_fresh(&store).code));
    return 0;
}
"#;

#[test]
fn c_and_cpp_take_it_and_name_the_codes_alike() {
    let refusals = (2..=18).chain([u64::MAX]).map(|code| Refusal::of(code, 0).unwrap().name());
    let names: Vec<&str> =
        ["Done", "Nothing"].into_iter().chain(refusals).chain(["Done"]).collect();
    for language in LANGUAGES.into_iter().filter(|language| is_here(language.0)) {
        let (program, out) = compile("names", language, NAMES);
        assert!(out.status.success(), "{language:?}: {}", String::from_utf8_lossy(&out.stderr));
        let ran = Command::new(program).output().unwrap();
        assert!(ran.status.success());
        let said = String::from_utf8(ran.stdout).unwrap();
        assert_eq!(said.lines().collect::<Vec<_>>(), names, "{language:?}");
    }
}

#[test]
fn another_layout_does_not_compile() {
    let plain = "#include <stddef.h>\n#include <stdint.h>\n";
    let rest = "#include \"jibcradle.h\"\nint main(void) { return 0; }\n";
    for language in LANGUAGES.into_iter().filter(|language| is_here(language.0)) {
        let (_, out) = compile("layout", language, &format!("{plain}{rest}"));
        assert!(out.status.success(), "{language:?}: {}", String::from_utf8_lossy(&out.stderr));
        for other in ["#define uint64_t uint32_t\n", "#define size_t uint32_t\n"] {
            let (_, out) = compile("layout", language, &format!("{plain}{other}{rest}"));
            let said = String::from_utf8_lossy(&out.stderr);
            assert!(!out.status.success(), "{language:?} takes {other}");
            assert!(said.contains("jibcradle_laid_"), "{language:?}: {said}");
        }
    }
}
