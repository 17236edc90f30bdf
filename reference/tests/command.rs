//! The command: its output, its messages and its exit status.

use std::io::Write;
use std::path::PathBuf;
use std::process::{Command, Output, Stdio};

const SCRIPT: &str = "lines 2
store 0/8 site 10
persisted 0/8 site 11
expect lost 0 0 2 1
";
const LISTING: &str = "trace 2 events 2 lines\n2 11 lost 0 0 2 1\nend 1\n";

fn run(args: &[&str], input: &[u8]) -> Output {
    let mut child = Command::new(env!("CARGO_BIN_EXE_reference"))
        .args(args)
        .stdin(Stdio::piped())
        .stdout(Stdio::piped())
        .stderr(Stdio::piped())
        .spawn()
        .expect("the command starts");
    let mut stdin = child.stdin.take().expect("standard input is a pipe");
    // A command that does not read its input closes the pipe.
    let _ = stdin.write_all(input);
    drop(stdin);
    child.wait_with_output().expect("the command ends")
}

/// A folder of its own for each test.
fn folder(test: &str) -> PathBuf {
    let folder = PathBuf::from(env!("CARGO_TARGET_TMPDIR")).join(test);
    std::fs::create_dir_all(&folder).expect("a folder for the test");
    folder
}

fn text(bytes: &[u8]) -> &str {
    std::str::from_utf8(bytes).expect("text")
}

fn fails(args: &[&str], input: &[u8], words: &str) {
    let output = run(args, input);
    let error = text(&output.stderr);
    assert_eq!(output.status.code(), Some(2), "{args:?}: {error}");
    assert!(error.contains(words), "{args:?}: {error}");
    assert_eq!(error.lines().count(), 1, "{args:?}: {error}");
    assert!(output.stdout.is_empty());
}

#[test]
fn write_and_judge() {
    let folder = folder("write_and_judge");
    let (script, trace) = (folder.join("a.events"), folder.join("a.trace"));
    let (script, trace) = (
        script.to_str().expect("text"),
        trace.to_str().expect("text"),
    );
    std::fs::write(script, SCRIPT).expect("written");
    assert!(run(&["write", script, trace], b"").status.success());
    let bytes = std::fs::read(trace).expect("the trace is written");
    assert_eq!(bytes.len(), 40);
    assert_eq!(run(&["write", script], b"").stdout, bytes);
    assert_eq!(run(&["write", "-"], SCRIPT.as_bytes()).stdout, bytes);
    for args in [&["judge", trace][..], &["judge", "--images", trace]] {
        let output = run(args, b"");
        assert_eq!(text(&output.stdout), LISTING);
        assert_eq!(output.status.code(), Some(0));
    }
    let output = run(&["judge", "-"], &bytes);
    assert_eq!(text(&output.stdout), LISTING);
    let output = run(&["judge", "-"], &bytes[1..]);
    assert_eq!(text(&output.stdout), "refused 5 at 0\n");
    let output = run(&["judge", "-"], &vec![0; 200_000]);
    assert_eq!(text(&output.stdout), "refused 2 at 0\n");
    let output = run(&["judge", "--images", "-"], b"");
    assert_eq!(text(&output.stdout), "refused 1 at 0\n");
}

#[test]
fn check() {
    let folder = folder("check");
    let path = |name: &str| folder.join(name).to_str().expect("text").to_string();
    let (good, wrong, bad) = (
        path("good.events"),
        path("wrong.events"),
        path("bad.events"),
    );
    std::fs::write(&good, SCRIPT).expect("written");
    std::fs::write(&wrong, SCRIPT.replace("lost 0", "lost 1")).expect("written");
    std::fs::write(&bad, "lines 2\nstor 0/8\n").expect("written");
    let output = run(&["check", &good], b"");
    assert_eq!(output.status.code(), Some(0));
    assert!(text(&output.stdout).starts_with(&format!("{good}: same: ")));
    let output = run(&["check", &good, &wrong, &good], b"");
    assert_eq!(output.status.code(), Some(1));
    let lines: Vec<&str> = text(&output.stdout).lines().collect();
    assert_eq!(lines.len(), 3);
    assert!(
        lines[1].starts_with(&format!("{wrong}: differs: ")),
        "{}",
        lines[1]
    );
    let output = run(&["check", &wrong, &bad, &good], b"");
    assert_eq!(output.status.code(), Some(2));
    assert_eq!(text(&output.stdout).lines().count(), 2);
    let error = text(&output.stderr);
    assert!(error.starts_with(&format!("{bad}:2: ")), "{error}");
}

/// Of a trace with an order between ranges that share a byte, and of the findings that an earlier
/// version left for it.
#[test]
fn shared_bytes() {
    let script = "lines 2\nstore 0/8 site 10\nordered 0/8 before 0/8 site 11\n";
    let trace = run(&["write", "-"], script.as_bytes()).stdout;
    for args in [
        &["judge", "-"][..],
        &["judge", "--images", "-"],
        &["findings", "-"],
        &["exposure", "-"],
        &["exposure", "--images", "-"],
        &["interval", "0", "-"],
        &["interval", "--images", "128", "-"],
    ] {
        let output = run(args, &trace);
        assert_eq!(text(&output.stdout), "refused 18 at 2\n", "{args:?}");
        assert_eq!(output.status.code(), Some(0));
    }
    let none = [0, 0, 0, 0, 0, 0, 0, 0, 0, 0, 10, 0];
    let holds = [1, 0, 0, 0, 0, 0, 0, 0, 0, 0, 11, 0];
    let output = run(&["pages", "-"], &[none, holds].concat());
    let row = "     2         11  holds               0      0      0      0\n";
    assert_eq!(text(&output.stdout).split_inclusive('\n').nth(1), Some(row));
    let expected = format!("{script}refused 18 at 2\n");
    let output = run(&["check", "-"], expected.as_bytes());
    assert_eq!(output.status.code(), Some(0));
}

#[test]
fn corpus() {
    let folder = folder("corpus");
    let path = |name: &str| folder.join(name).to_str().expect("text").to_string();
    let (corpus, summary) = (path("stdin"), path("stdout"));
    let output = run(&["corpus", &corpus, &summary], b"");
    assert_eq!(output.status.code(), Some(0));
    assert!(text(&output.stderr).contains("judged both ways"));
    let summary = std::fs::read_to_string(summary).expect("written");
    assert!(summary.starts_with("traces "));
    let length = std::fs::metadata(corpus).expect("written").len();
    assert!(length > 100_000);
}

#[test]
fn calls() {
    let folder = folder("calls");
    let path = |name: &str| folder.join(name).to_str().expect("text").to_string();
    let (calls, answers) = (path("stdin"), path("stdout"));
    let output = run(&["calls", &calls, &answers], b"");
    assert_eq!(output.status.code(), Some(0));
    assert!(text(&output.stderr).contains("answered both ways"));
    assert!(output.stdout.is_empty());
    let calls = std::fs::read(calls).expect("written");
    assert_eq!((calls.len() % 12, calls[0]), (0, 16));
    let answers = std::fs::read_to_string(answers).expect("written");
    assert!(answers.starts_with("fresh 2:\ngive 1 0 120 8 0 0 1: 0 0 0 0 0\n"));
}

#[test]
fn findings_and_pages() {
    let trace = run(&["write", "-"], SCRIPT.as_bytes()).stdout;
    let output = run(&["findings", "-"], &trace);
    assert_eq!(output.status.code(), Some(0));
    let findings = output.stdout;
    let none = [0, 0, 0, 0, 0, 0, 0, 0, 0, 0, 10, 0];
    let lost = [2, 0, 0, 0, 0, 0, 2, 0, 1, 0, 11, 0];
    assert_eq!(findings, [none, lost].concat());
    let output = run(&["findings", "-"], &trace[1..]);
    assert_eq!(text(&output.stdout), "refused 5 at 0\n");
    assert_eq!(output.status.code(), Some(0));
    let output = run(&["pages", "-"], &findings);
    assert_eq!(output.status.code(), Some(0));
    assert_eq!(
        text(&output.stdout),
        [
            " event       site  finding          lost   kept moment  store\n",
            "     2         11  lost                0      0      2      1\n",
            "page 1 of 1                                                  \n",
        ]
        .concat()
    );
    let file = folder("findings_and_pages").join("findings");
    std::fs::write(&file, &findings).expect("written");
    let from_file = run(&["pages", file.to_str().expect("text")], b"");
    assert_eq!(from_file.stdout, output.stdout);
    let output = run(&["pages", "-"], &findings[1..]);
    assert_eq!(text(&output.stdout), "refused 5 at 0\n");
    let output = run(&["pages", "-"], &vec![0; 12 * 65_536]);
    assert_eq!(text(&output.stdout), "refused 5 at 0\n");
    let damaged = [&findings[..12], &[9; 12]].concat();
    let output = run(&["pages", "-"], &damaged);
    assert_eq!(text(&output.stdout), "refused 6 at 2\n");
    assert_eq!(output.status.code(), Some(0));
}

#[test]
fn page_calls() {
    let folder = folder("page_calls");
    let path = |name: &str| folder.join(name).to_str().expect("text").to_string();
    let (calls, answers) = (path("stdin"), path("stdout"));
    let output = run(&["page-calls", &calls, &answers], b"");
    assert_eq!(output.status.code(), Some(0));
    assert!(text(&output.stderr).contains("all of them read back"));
    assert!(output.stdout.is_empty());
    let calls = std::fs::read(calls).expect("written");
    assert_eq!((calls.len() % 24, calls[0]), (0, 2));
    let answers = std::fs::read_to_string(answers).expect("written");
    assert!(answers.starts_with("pages of 108 bytes in 372: 372 sum "));
}

#[test]
fn exposure() {
    let script = "lines 2\nstore 0/3\nwrite-back 0/3\nfence\nstore 64/4\nfence\nfence\n";
    let closed = format!("{script}write-back 64/1\nfence\n");
    let open = "lines 1\nstore 0/8\nwrite-back 0/8\n";
    let ended_too_soon = "lines 1\nfence\nend\n";
    let left_open = format!("{closed}begin\n");
    for (script, printed) in [
        // 3 bytes of 1 epoch, 4 of 3.
        (&closed[..], "exposure 2 1 7\n"),
        (script, "exposure 1 0 3\n"),
        (open, "refused 17 at 0\n"),
        (ended_too_soon, "refused 11 at 2\n"),
        (&left_open, "refused 13 at 0\n"),
    ] {
        let trace = run(&["write", "-"], script.as_bytes()).stdout;
        for args in [&["exposure", "-"][..], &["exposure", "--images", "-"]] {
            let output = run(args, &trace);
            assert_eq!(text(&output.stdout), printed, "{script}");
            assert_eq!(output.status.code(), Some(0));
            assert!(output.stderr.is_empty());
        }
    }
    let trace = run(&["write", "-"], closed.as_bytes()).stdout;
    let file = folder("exposure").join("trace");
    std::fs::write(&file, &trace).expect("written");
    let output = run(&["exposure", file.to_str().expect("text")], b"");
    assert_eq!(text(&output.stdout), "exposure 2 1 7\n");
    let output = run(&["exposure", "-"], &trace[1..]);
    assert_eq!(text(&output.stdout), "refused 5 at 0\n");
    let output = run(&["exposure", "-"], &vec![0; 200_000]);
    assert_eq!(text(&output.stdout), "refused 2 at 0\n");
    let output = run(&["exposure", "--images", "-"], b"");
    assert_eq!(text(&output.stdout), "refused 1 at 0\n");
}

#[test]
fn interval() {
    let script = "lines 2\nfence\nstore 64/8 site 5\nwrite-back 64/1 site 70\nwrite-back 64/1\n";
    let closed = format!("{script}fence site 65535\nfence\n");
    let stored = "lines 2\nstore 0/8 site 0\nwrite-back 64/8\nfence\n";
    let left_open = format!("{closed}begin\n");
    let named = "event 2 site 5\nevent 3 site 70\n";
    let [open, fenced] = [
        format!("byte 64 open 1 store 2 write-back 3\n{named}"),
        format!("byte 71 closed 1 2 store 2 write-back 3 fence 5\n{named}event 5 site 65535\n"),
    ];
    for (script, byte, printed) in [
        (script, "64", &open[..]),
        (&closed, "71", &fenced),
        (&closed, "72", "byte 72 none\n"),
        (&closed, "127", "byte 127 none\n"),
        (&closed, "128", "refused 9 at 0\n"),
        (&closed, "65535", "refused 9 at 0\n"),
        (
            stored,
            "0",
            "byte 0 open 0 store 1 write-back 0\nevent 1 site 0\n",
        ),
        (&left_open, "64", "refused 13 at 0\n"),
        (&left_open, "128", "refused 13 at 0\n"),
        ("lines 1\nfence\nend\n", "64", "refused 11 at 2\n"),
    ] {
        let trace = run(&["write", "-"], script.as_bytes()).stdout;
        for args in [
            &["interval", byte, "-"][..],
            &["interval", "--images", byte, "-"],
        ] {
            let output = run(args, &trace);
            assert_eq!(text(&output.stdout), printed, "{script}");
            assert_eq!(output.status.code(), Some(0));
            assert!(output.stderr.is_empty());
        }
    }
    let trace = run(&["write", "-"], closed.as_bytes()).stdout;
    let file = folder("interval").join("trace");
    std::fs::write(&file, &trace).expect("written");
    let output = run(&["interval", "71", file.to_str().expect("text")], b"");
    assert_eq!(text(&output.stdout), fenced);
    let output = run(&["interval", "0", "-"], &trace[1..]);
    assert_eq!(text(&output.stdout), "refused 5 at 0\n");
    let output = run(&["interval", "4096", "-"], &vec![0; 200_000]);
    assert_eq!(text(&output.stdout), "refused 2 at 0\n");
    for byte in ["", "-1", "+1", "x", "65536", "0x40"] {
        fails(&["interval", byte, "-"], &trace, "not a number from 0 to");
    }
}

#[test]
fn help() {
    let output = run(&["--help"], b"");
    assert_eq!(output.status.code(), Some(0));
    let words = [
        "write",
        "judge",
        "check",
        "corpus",
        "calls",
        "findings",
        "pages",
        "page-calls",
        "exposure",
        "interval",
        "--images",
    ];
    for word in words {
        assert!(text(&output.stdout).contains(word), "{word}");
    }
}

#[test]
fn bad_usage() {
    fails(&[], b"", "a command is missing");
    fails(&["jugde"], b"", "no command `jugde`");
    for args in [
        &["judge"][..],
        &["judge", "--images"],
        &["judge", "a", "b"],
        &["judge", "--image", "a"],
        &["write"],
        &["write", "a", "b", "c"],
        &["check"],
        &["corpus", "a"],
        &["corpus", "a", "b", "c"],
        &["calls", "a"],
        &["calls", "a", "b", "c"],
        &["findings"],
        &["findings", "a", "b"],
        &["pages"],
        &["pages", "a", "b"],
        &["page-calls", "a"],
        &["page-calls", "a", "b", "c"],
        &["exposure"],
        &["exposure", "--images"],
        &["exposure", "a", "b"],
        &["exposure", "--image", "a"],
        &["interval"],
        &["interval", "0"],
        &["interval", "--images", "0"],
        &["interval", "0", "a", "b"],
    ] {
        fails(args, b"", "wrong arguments");
    }
}

#[test]
fn bad_files() {
    let folder = folder("bad_files");
    let here = folder.to_str().expect("text").to_string();
    let missing = folder.join("missing").to_str().expect("text").to_string();
    let inside = folder.join("no/such").to_str().expect("text").to_string();
    for command in ["judge", "write", "check", "findings", "pages", "exposure"] {
        fails(&[command, &missing], b"", "missing: ");
        fails(&[command, &here], b"", "directory");
    }
    fails(&["interval", "0", &missing], b"", "missing: ");
    fails(&["interval", "0", &here], b"", "directory");
    fails(&["write", "-", &here], SCRIPT.as_bytes(), "directory");
    fails(&["write", "-", &inside], SCRIPT.as_bytes(), "no/such: ");
    fails(&["write", "-"], b"lines 2\n\nflush 0/8\n", "-:3: ");
    fails(&["write", "-"], b"lines 2\n\xff", "-: not text in UTF-8");
    let many = "lines 64\n".to_string() + &"store 0/4096\n".repeat(129);
    let trace = run(&["write", "-"], many.as_bytes()).stdout;
    for command in ["judge", "exposure"] {
        fails(&[command, "--images", "-"], &trace, "too many crash images");
    }
    let by_images = ["interval", "--images", "0", "-"];
    fails(&by_images, &trace, "too many crash images");
}
