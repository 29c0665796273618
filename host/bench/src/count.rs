//! Exact instruction counts, by callgrind: this program runs itself under it, makes each row's
//! call once on each side, and reads what was collected inside the two wrappers.

use crate::rows::{rows, Row};
use crate::sides::Side;
use std::path::Path;
use std::process::{Command, Stdio};

/// Callgrind counts each byte of a `rep stosb` or `rep movsb` as an instruction, so the C library
/// is told to fill and copy long stretches by loops over vector registers.
const PLAIN_COPIES: &str =
    "glibc.cpu.x86_rep_stosb_threshold=1000000:glibc.cpu.x86_rep_movsb_threshold=1000000";

/// What the child does: each row's call once, ours first. It does so on a thread of its own, whose
/// stack begins at a page: on the first one's the counts would depend on the environment's length.
pub fn child() {
    std::thread::spawn(|| make_calls(&rows())).join().expect("all calls are made");
}

fn make_calls(rows: &[Row]) {
    for row in rows {
        let (mut ours, mut theirs, mut lent) = row.sides();
        let mut other = lent.clone();
        std::hint::black_box(ours.run(&row.call, &mut lent));
        dump();
        std::hint::black_box(theirs.run(&row.call, &mut other));
        dump();
    }
}

/// Asks callgrind to write what it has collected since the last time. Its request is a sequence
/// of instructions that does nothing where callgrind doesn't run.
fn dump() {
    const DUMP_STATS: u64 = 0x4354_0000;
    let request = [DUMP_STATS, 0, 0, 0, 0, 0];
    unsafe {
        std::arch::asm!(
            "rol rdi, 3",
            "rol rdi, 13",
            "rol rdi, 61",
            "rol rdi, 51",
            "xchg rbx, rbx",
            in("rax") request.as_ptr(),
            inout("rdx") 0u64 => _,
            in("rdi") 0u64,
        );
    }
}

/// Instructions of each row, ours and theirs; `None` where valgrind isn't to be had.
pub fn count(rows: usize, folder: &Path) -> Option<Vec<(u64, u64)>> {
    let me = std::env::current_exe().ok()?;
    std::fs::create_dir_all(folder).ok()?;
    let out = folder.join("counts");
    let status = Command::new("valgrind")
        .args(["--tool=callgrind", "--toggle-collect=measured_*", "--dump-instr=yes"])
        .arg("-q")
        .arg(format!("--callgrind-out-file={}", out.display()))
        .arg(me)
        .arg("--make-calls")
        .env("GLIBC_TUNABLES", PLAIN_COPIES)
        .stdout(Stdio::null())
        .status()
        .ok()?;
    if !status.success() {
        return None;
    }
    let counts: Vec<u64> = (1..=2 * rows)
        .map(|part| collected(&folder.join(format!("counts.{part}"))))
        .collect::<Option<_>>()?;
    Some(counts.chunks(2).map(|pair| (pair[0], pair[1])).collect())
}

/// The total of one dump.
fn collected(file: &Path) -> Option<u64> {
    let text = std::fs::read_to_string(file).ok()?;
    let line = text.lines().find_map(|line| line.strip_prefix("summary: "))?;
    line.trim().parse().ok()
}
