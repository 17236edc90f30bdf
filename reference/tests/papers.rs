//! The scripts of `papers/*.events` pass `check`.

use reference::check::check;
use reference::corpus::{paper_scripts, papers_folder};
use reference::script::Script;

#[test]
fn papers_pass() {
    let scripts = paper_scripts(&papers_folder()).expect("the folder is readable");
    assert!(!scripts.is_empty(), "no scripts in papers/");
    for path in scripts {
        let shown = path.display();
        let text = std::fs::read_to_string(&path).expect("a script is readable");
        let script = Script::parse(&text)
            .unwrap_or_else(|mistake| panic!("{shown}:{}: {}", mistake.at, mistake.what));
        let checked = check(&script);
        assert_eq!(checked.differences, Vec::<String>::new(), "{shown}");
        assert!(checked.both_ways, "{shown}: too many crash images");
        assert!(checked.compared > 0, "{shown}: nothing is expected");
    }
}

/// `check` finds what differs.
#[test]
fn check_finds_differences() {
    let differences = |text: &str| {
        let script = Script::parse(text).expect("the script is good");
        check(&script).differences
    };
    let none = Vec::<String>::new();
    assert_eq!(differences("lines 1\nstore 0/8\nexpect none"), none);
    assert_eq!(differences("lines 1\nend\nrefused 11 at 1"), none);
    for wrong in [
        "lines 1\nstore 0/8\nexpect holds",
        "lines 1\nstore 0/8\npersisted 0/8\nexpect lost 0 0 2 2",
        "lines 1\nstore 0/8\npersisted 0/8\nexpect lost 1 0 2 1",
        "lines 1\nend",
        "lines 1\nend\nrefused 11 at 2",
        "lines 1\nend\nrefused 13 at 0",
        "lines 1\nfence\nrefused 11 at 1",
        "lines 1\nend\nexpect none",
    ] {
        assert_eq!(differences(wrong).len(), 1, "{wrong}");
    }
}
