//! The C example: compiled with the strictest flags, and as its own comment says; run, and what it
//! prints compared.

use std::path::{Path, PathBuf};
use std::process::Command;

const PRINTED: &str = "\
fresh                      code  0, number   0, place   0: Done
commit 100, object 0 = 7   code  0, number  23, place  23: Done
journal: 01 00 14 01 00 00 00 00 00 00 00 64 01 00 00 00 00 00 00 00 00 00 07
commit 100 again           code  5, number 100, place  23: Late
commit 120, object 0 = 9   code  0, number  45, place  45: Done
gossip 0 to 110 of 105     code  0, number  73, place  73: Done
read at time 107           code  0, number 105: Done, page 0: 7 0 0 0 0 0 0 0 0 0 0 0 0 0 0 0
read at time 104           code 14, number   0: No snapshot
read at time 111           code 13, number 110: Ahead
flush page 0               code  0, number  77, place  77: Done
flush page 0 again         code  1, number  77, place  77: Nothing
standing: code 0, 0 pending, 1 past, 1 snapshots, 1 copies, lag 0
known: code 0, horizon 110, last commit 120, snapshots: 105
restart                    code  0, number  77, place  77: Done
read at time 107           code  0, number 105: Done, page 0: 7 0 0 0 0 0 0 0 0 0 0 0 0 0 0 0
fresh                      code  0, number   0, place   0: Done
a fresh coordinator        code  0, number   0: Done
grant tick 1, node 5       code  0, number 261: Done
message 0 to 300, lost     code  0, number  28: Done
grant the same again       code  5, number 300: Late
message 300 to 600         code  0, number  20: Done
hear it                    code  6, number   0, place   0: Gap
ask up to 600              code  0, number  19: Done
serve the request          code  0, number  28: Done
hear the reply             code  0, number  29, place  29: Done
hear it again              code  1, number  29, place  29: Nothing
known: code 0, horizon 600, last commit 0, snapshots: 261
journal: 01 00 1a 02 00 00 00 00 00 00 00 00 00 00 00 00 00 00 02 58 01 00 00 00 00 00 00 01 05
";

/// The example's folder.
fn folder() -> PathBuf {
    Path::new(env!("CARGO_MANIFEST_DIR")).join("../c")
}

/// The names in the example's folder.
fn names() -> Vec<String> {
    let entries = std::fs::read_dir(folder()).unwrap();
    let mut names: Vec<String> =
        entries.map(|entry| entry.unwrap().file_name().into_string().unwrap()).collect();
    names.sort();
    names
}

/// Compiles the example, and gives the program's path.
fn compiled() -> PathBuf {
    let program = Path::new(env!("CARGO_TARGET_TMPDIR")).join("example");
    let status = Command::new("cc")
        .current_dir(folder())
        .args(["-std=c99", "-Wall", "-Wextra", "-Werror", "-pedantic", "example.c"])
        .arg(env!("JIBCRADLE_ARCHIVE"))
        .arg("-o")
        .arg(&program)
        .status()
        .expect("the C compiler that Rust links with");
    assert!(status.success());
    program
}

#[test]
fn the_c_example_prints_the_night() {
    let ran = Command::new(compiled()).output().expect("the example runs");
    assert!(ran.status.success());
    assert_eq!(String::from_utf8_lossy(&ran.stdout), PRINTED);
}

/// The lines of the comment at the top that are to be typed. Not every library is where the comment
/// has it: `JIBCRADLE_LIB` may name another.
fn instructions() -> String {
    let text = std::fs::read_to_string(folder().join("example.c")).unwrap();
    let comment = text.split_once("*/").unwrap().0;
    let lines: Vec<&str> =
        comment.lines().filter_map(|line| line.strip_prefix(" *     ")).collect();
    let library = "../../target/staticlib/librepository.a";
    lines.join("\n").replace(library, env!("JIBCRADLE_ARCHIVE"))
}

#[test]
fn its_own_instructions_work_and_leave_no_file() {
    let lines = instructions();
    assert_eq!(lines.lines().count(), 2, "{lines}");
    let before = names();
    std::fs::create_dir_all(folder().join("../../target")).unwrap();
    let ran = Command::new("sh").args(["-e", "-c", &lines]).current_dir(folder()).output().unwrap();
    assert!(ran.status.success(), "{lines}{}", String::from_utf8_lossy(&ran.stderr));
    assert_eq!(String::from_utf8_lossy(&ran.stdout), PRINTED);
    assert_eq!(names(), before);
}
