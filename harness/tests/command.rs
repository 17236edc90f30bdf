//! The command line: output, messages and exit status.

use std::process::{Command, Output};

fn harness(words: &[&str]) -> Output {
    let mut command = Command::new(env!("CARGO_BIN_EXE_harness"));
    command.args(words).output().expect("the program starts")
}

fn text(bytes: &[u8]) -> &str {
    std::str::from_utf8(bytes).expect("text")
}

#[test]
fn bad_usage_ends_with_2_and_a_message() {
    let cases: [(&[&str], &str); 9] = [
        (&[], "a command is missing"),
        (&["judge"], "no command `judge`"),
        (&["--help", "fuzz"], "no command `--help`"),
        (&["differential", "0"], "harness differential: "),
        (&["differential", "many"], "`many`"),
        (&["differential", "+5"], "`+5`"),
        (&["fuzz", "5", "-1"], "`5 -1`"),
        (&["fuzz", "18446744073709551616"], "harness fuzz: "),
        (&["fuzz", "1", "2", "3"], "`1 2 3`"),
    ];
    for (words, message) in cases {
        let output = harness(words);
        let said = text(&output.stderr);
        assert_eq!(output.status.code(), Some(2), "{words:?}");
        assert!(output.stdout.is_empty(), "{words:?}");
        assert!(said.contains(message), "{words:?}: {said}");
        assert!(said.ends_with("; see `harness --help`\n"), "{said}");
    }
}

#[test]
fn help_names_the_commands() {
    let output = harness(&["--help"]);
    assert_eq!(output.status.code(), Some(0));
    for command in ["differential [TRACES [SEED]]", "fuzz [STRINGS [SEED]]"] {
        assert!(text(&output.stdout).contains(command));
    }
}

#[test]
fn small_runs_print_the_same_counts_each_time() {
    for (command, parts) in [
        (
            "differential",
            [
                "traces 500\n",
                "\nrefused by 18 ",
                "\nstores of no bytes ",
                "\nordered accepted whose ranges touch at an edge ",
                "\ntraces to the exposure 525\n",
                "\nexposures compared with reference: proved, plain\nseed 7\ndiffer 0\n",
                "\nbytes asked ",
                "\nintervals compared with reference: proved, plain\nseed 7\ndiffer 0\n",
                "\nlists of calls to the writer 500\n",
                "\nfindings areas 500\n",
                "\nlayouts compared with reference: proved, plain\nseed 7\ndiffer 0\n",
            ],
        ),
        (
            "fuzz",
            [
                "strings 500\n",
                "\nbytes ",
                "\nrefused by 18 ",
                "\nexposure refused by 18 ",
                "\naccepted strings with a range of no bytes ",
                "\nstrings to the exposure 500\n",
                "\nexposure proved\nseed 7\nbad 0\n",
                "\nstrings to the interval 500\n",
                "\ninterval proved\nseed 7\nbad 0\n",
                "\nstrings to the pages 500\n",
                "\nlayout proved\nseed 7\nbad 0\n",
            ],
        ),
    ] {
        let (one, other) = (
            harness(&[command, "500", "7"]),
            harness(&[command, "500", "7"]),
        );
        assert_eq!(one.status.code(), Some(0));
        assert_eq!(one.stdout, other.stdout);
        let said = text(&one.stdout);
        let [first, between @ .., last] = parts;
        assert!(said.starts_with(first) && said.ends_with(last), "{said}");
        assert!(between.iter().all(|part| said.contains(part)), "{said}");
    }
}
