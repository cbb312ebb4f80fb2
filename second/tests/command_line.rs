//! The program as it is started.

use std::fs;
use std::path::PathBuf;
use std::process::{Command, Output};

const SECOND: &str = env!("CARGO_BIN_EXE_second");

fn second(arguments: &[&str]) -> Output {
    Command::new(SECOND).args(arguments).output().unwrap()
}

/// Standard output of a run that ends with status 0.
fn printed(arguments: &[&str]) -> Vec<u8> {
    let output = second(arguments);
    assert!(output.status.success(), "{}", String::from_utf8_lossy(&output.stderr));
    output.stdout
}

/// The one line of a run that ends with status 2.
fn error(arguments: &[&str]) -> String {
    let output = second(arguments);
    assert_eq!((output.status.code(), output.stdout.len()), (Some(2), 0));
    let message = String::from_utf8(output.stderr).unwrap();
    assert_eq!(message.lines().count(), 1, "{message}");
    message
}

/// A folder of its own for each test, removed with it.
struct Folder(PathBuf);

impl Folder {
    fn new(test: &str) -> Folder {
        let path = std::env::temp_dir().join(format!("second-test-{test}-{}", std::process::id()));
        fs::create_dir_all(&path).unwrap();
        Folder(path)
    }

    fn put(&self, name: &str, bytes: impl AsRef<[u8]>) -> String {
        let path = self.0.join(name);
        fs::write(&path, bytes).unwrap();
        path.to_str().unwrap().to_owned()
    }

    /// A report program: a shell script that runs this one, its output changed by `filter`.
    fn program(&self, filter: &str) -> String {
        let name = self.put("program", format!("#!/bin/sh\n'{SECOND}' report \"$@\" {filter}\n"));
        assert!(Command::new("chmod").args(["+x", &name]).status().unwrap().success());
        name
    }

    /// Runs `compare` with this folder for temporary files; status and standard output.
    fn compare(&self, filter: &str, count: &str) -> (Option<i32>, String) {
        let program = self.program(filter);
        let output = Command::new(SECOND)
            .args(["compare", "--report", &program, count, "7"])
            .env("TMPDIR", &self.0)
            .output()
            .unwrap();
        (output.status.code(), String::from_utf8(output.stdout).unwrap())
    }
}

impl Drop for Folder {
    fn drop(&mut self) {
        let _ = fs::remove_dir_all(&self.0);
    }
}

#[test]
fn worked_example_from_text() {
    let folder = Folder::new("worked");
    let text = folder.put("list.txt", "LD F0,0\nAD F0,1\nSTD F0,0\n");
    let list = folder.put("list", printed(&["assemble", &text]));
    assert_eq!(printed(&["listing", &list]), fs::read(&text).unwrap());
    let text = folder.put("operands.txt", "1.5\n2.25\n");
    let operands = folder.put("operands", printed(&["operands", &text]));
    assert_eq!(printed(&["operands-text", &operands]), fs::read(&text).unwrap());
    let steps = "issue\nissue\nissue\narrive 2\narrive 1\ngrant 2\ngrant 1\ncomplete 10\ngrant 10\nrelease 1\n";
    let text = folder.put("schedule.txt", steps);
    let schedule = folder.put("schedule", printed(&["schedule", &text]));
    assert_eq!(printed(&["schedule-text", &schedule]), fs::read(&text).unwrap());
    let report = printed(&["report", &list, &operands, &schedule]);
    assert!(report.starts_with(b"steps 10\nrefusal 0 at 10\nleft 0\nF0 400E000000000000\n"));
    assert_eq!(printed(&["report", &list, &operands, &schedule, "ignored"]), report);
}

#[test]
fn report_names() {
    let folder = Folder::new("names");
    let path = folder.0.to_str().unwrap();
    let list = folder.put("list", [0x00]);
    assert_eq!(printed(&["report"]), b"stopped list missing\n");
    assert_eq!(printed(&["report", path]), b"stopped list missing\n");
    assert_eq!(printed(&["report", &list]), b"stopped operands missing\n");
    assert_eq!(
        printed(&["report", &list, &format!("{path}/none"), ""]),
        b"stopped operands missing\n"
    );
    // A file without end is above the limit.
    assert_eq!(printed(&["report", "/dev/zero"]), b"stopped list 11 at 65536\n");
}

#[test]
fn help_and_errors() {
    let overview = String::from_utf8(printed(&["--help"])).unwrap();
    for name in [
        "report",
        "compare",
        "bench",
        "assemble",
        "listing",
        "operands",
        "operands-text",
        "schedule",
        "schedule-text",
        "read-list",
        "check-list",
    ] {
        let help = String::from_utf8(printed(&[name, "--help"])).unwrap();
        assert!(help.starts_with(&format!("second {name} ")) && overview.contains(&help));
    }
    let folder = Folder::new("errors");
    let text = folder.put("text", "LD F0,0\nLD F0\n");
    assert!(error(&[]).contains("needs a subcommand"));
    assert!(error(&["reports"]).contains("unknown subcommand `reports`"));
    assert!(error(&["assemble"]).contains("needs one file name"));
    assert!(error(&["assemble", &text]).contains("text: line 2: LD needs two operands"));
    assert!(error(&["assemble", "no such file"]).contains("no such file: "));
    assert!(error(&["listing", &text]).contains("text: refusal 2 at 1: operation not 1 to 11"));
    assert!(
        error(&["compare", "--report", "no such program", "1", "1"]).contains("no such program: ")
    );
    assert!(error(&["compare", "1"]).contains("[--report PATH] N SEED"));
    assert!(error(&["compare", "1", "1"]).contains("target/bin/report: "));
    assert!(error(&["bench", "x"]).contains("[--rounds N]"));
    assert!(cfg!(feature = "proved") || error(&["bench"]).contains("--features proved"));
    assert!(error(&["check-list", "x"]).contains("`x` is not a number"));
}

#[test]
fn list_vectors() {
    let folder = Folder::new("vectors");
    let list = folder.put("list", [0x02, 0x01, 0x00, 0x00, 0x0B, 0x00, 0x00]);
    assert_eq!(printed(&["read-list", &list, "2"]), b"refusal 0 at 7 count 2\n65536\n720896\n");
    assert_eq!(printed(&["read-list", &list, "1"]), b"refusal 11 at 0 count 0\n");
    assert_eq!(printed(&["check-list", "65536", "65792"]), b"refusal 4 at 1\n");
    assert_eq!(printed(&["check-list", "--areas", "1", "1", "65536"]), b"refusal 0 at 1\n");
    assert_eq!(printed(&["check-list", "--areas", "0", "1", "65536"]), b"refusal 4 at 0\n");
    assert_eq!(printed(&["check-list"]), b"refusal 0 at 0\n");
}

#[test]
fn compare_agrees_with_itself() {
    let folder = Folder::new("agrees");
    let (status, text) = folder.compare("", "300");
    let entries = if cfg!(feature = "proved") {
        ", 45000 entry calls, no difference\n"
    } else {
        ", no difference; entries not compared: built without the feature `proved`\n"
    };
    assert_eq!((status, text), (Some(0), format!("seed 7: 300 sessions{entries}")));
    assert_eq!(fs::read_dir(&folder.0).unwrap().count(), 1, "only the program is left");
}

#[test]
fn compare_finds_and_shrinks_a_difference() {
    let folder = Folder::new("differs");
    let (status, text) = folder.compare("| sed 's/^F4 tag 9$/F4 tag 8/'", "2000");
    assert_eq!(status, Some(1));
    // Two instructions that multiply or divide, the second to F4, and two issues are enough.
    assert!(text.contains("\nschedule, 2 bytes: 00 00\n"), "{text}");
    assert!(text.contains("\nlist, 7 bytes: 02 "), "{text}");
    let (own, other) = text.split_once("the program prints, with exit status: 0:\n").unwrap();
    assert!(own.contains("\nF4 tag 9\n") && other.contains("\nF4 tag 8\n"), "{text}");
}

#[test]
fn compare_minds_the_exit_status() {
    let folder = Folder::new("status");
    let (status, text) = folder.compare("; exit 3", "5");
    assert_eq!(status, Some(1));
    assert!(text.contains("the program prints, with exit status: 3:\n"), "{text}");
}

#[cfg(feature = "proved")]
#[test]
fn bench_has_a_row_for_each_bar() {
    let table = String::from_utf8(printed(&["bench", "--rounds", "1"])).unwrap();
    let bars = table.lines().filter(|line| line.matches("met").count() == 2).count();
    assert_eq!(bars, 6, "{table}");
}
