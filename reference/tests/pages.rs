//! Findings laid out for print: pages written out by hand, the order of refusals, pages read back,
//! the listings of the corpus, and the calls file.

use reference::corpus::{papers_folder, Corpus};
use reference::page_calls::{self, answers, Call, PageCalls, CALL, MOST_FINDINGS, MOST_ROOM};
use reference::pages::{lay_out, write, Refused};
use reference::random::Random;
use reference::{findings_bytes, listing, read_back, Finding, Kind};
use std::path::Path;
use std::sync::OnceLock;

const HEADING: &str = " event       site  finding          lost   kept moment  store\n";
const ONE_PAGE: &str = "page 1 of 1                                                  \n";
const ANY: usize = usize::MAX;

/// The twelve bytes of a finding of any kind: lost, kept, moment, store and site.
fn finding(kind: u8, fields: [u16; 5]) -> Vec<u8> {
    let mut bytes = vec![kind, 0];
    bytes.extend(fields.iter().flat_map(|field| field.to_le_bytes()));
    bytes
}

/// A findings area of these kinds, with fields from a seed.
fn area(kinds: impl IntoIterator<Item = u8>, seed: u64) -> Vec<u8> {
    let mut random = Random::new(seed);
    let mut any = |kind| {
        let fields = std::array::from_fn(|_| {
            let limit = random.pick(&[10, 100, 1_000, 10_000, 65_536]);
            random.below(limit) as u16
        });
        finding(kind, fields)
    };
    kinds.into_iter().flat_map(&mut any).collect()
}

fn text(findings: &[u8]) -> String {
    let pages = lay_out(findings, ANY).expect("laid out");
    String::from_utf8(pages).expect("text")
}

fn lines(lines: &[&str]) -> String {
    lines.join("\n") + "\n"
}

fn refused(findings: &[u8], room: usize) -> (u8, usize) {
    let Refused { number, position } = lay_out(findings, room).expect_err("refused");
    (number, position)
}

#[test]
fn nothing_shown() {
    let page = HEADING.to_string() + ONE_PAGE;
    assert_eq!((HEADING.len(), ONE_PAGE.len()), (62, 62));
    assert_eq!(text(&[]), page);
    assert_eq!(text(&finding(0, [0; 5])), page);
    assert_eq!(text(&finding(0, [65_535; 5])), page);
    assert_eq!(text(&area([0; 58], 1)), page);
    assert_eq!(text(&area(vec![0; 65_535], 2)), page);
}

#[test]
fn widest_numbers() {
    let mut findings = area(vec![0; 65_534], 1);
    findings.extend(finding(6, [65_535, 65_534, 65_533, 65_532, 65_531]));
    assert_eq!(
        text(&findings),
        lines(&[
            " event       site  finding          lost   kept moment  store",
            " 65535      65531  written-twice   65535  65534  65533  65532",
            "page 1 of 1                                                  ",
        ])
    );
}

#[test]
fn kind_0_between_rows() {
    let findings = [
        finding(0, [1, 2, 3, 4, 5]),
        finding(3, [8, 0, 1, 2, 77]),
        finding(0, [0, 0, 0, 0, 9]),
        finding(0, [0, 0, 0, 0, 9]),
        finding(1, [0, 0, 0, 0, 1_000]),
        finding(0, [0, 0, 0, 0, 9]),
    ];
    assert_eq!(
        text(&findings.concat()),
        lines(&[
            " event       site  finding          lost   kept moment  store",
            "     2         77  out-of-order        8      0      1      2",
            "     5       1000  holds               0      0      0      0",
            "page 1 of 1                                                  ",
        ])
    );
}

#[test]
fn all_names() {
    let findings: Vec<u8> = (1..=8)
        .flat_map(|kind| finding(kind, [10, 200, 3_000, 40_000, u16::from(kind)]))
        .collect();
    assert_eq!(
        text(&findings),
        lines(&[
            " event       site  finding          lost   kept moment  store",
            "     1          1  holds              10    200   3000  40000",
            "     2          2  lost               10    200   3000  40000",
            "     3          3  out-of-order       10    200   3000  40000",
            "     4          4  unlogged           10    200   3000  40000",
            "     5          5  clean              10    200   3000  40000",
            "     6          6  written-twice      10    200   3000  40000",
            "     7          7  logged-twice       10    200   3000  40000",
            "     8          8  empty              10    200   3000  40000",
            "page 1 of 1                                                  ",
        ])
    );
}

/// 59 rows: the last one alone on the second page.
#[test]
fn second_page() {
    let text = text(&vec![finding(8, [0, 0, 0, 0, 3]); 59].concat());
    let lines: Vec<&str> = text.split_inclusive('\n').collect();
    assert_eq!(lines.len(), 63);
    assert_eq!((lines[0], lines[60]), (HEADING, HEADING));
    let row =
        |event: &str| format!("{event}          3  empty               0      0      0      0\n");
    assert_eq!(lines[1], row("     1"));
    assert_eq!(lines[58], row("    58"));
    assert_eq!(
        lines[59],
        "page 1 of 2                                                  \n"
    );
    assert_eq!(lines[61], row("    59"));
    assert_eq!(
        lines[62],
        "page 2 of 2                                                  \n"
    );
}

/// The whole run of the request: the listing's rows.
#[test]
fn whole_run() {
    let findings = [
        finding(3, [0, 64, 2, 1, 14]),
        finding(2, [64, 0, 6, 2, 15]),
        finding(6, [0, 0, 0, 0, 16]),
        finding(0, [0, 0, 0, 0, 17]),
        finding(1, [0, 0, 0, 0, 18]),
    ];
    let fences: Vec<u8> = (10..14)
        .flat_map(|site| finding(0, [0, 0, 0, 0, site]))
        .collect();
    assert_eq!(
        text(&[fences, findings.concat()].concat()),
        lines(&[
            " event       site  finding          lost   kept moment  store",
            "     5         14  out-of-order        0     64      2      1",
            "     6         15  lost               64      0      6      2",
            "     7         16  written-twice       0      0      0      0",
            "     9         18  holds               0      0      0      0",
            "page 1 of 1                                                  ",
        ])
    );
}

/// What an earlier version left for `store 0/8` and `ordered 0/8 before 0/8`, which 18 now refuses.
#[test]
fn earlier_findings() {
    let findings = [finding(0, [0, 0, 0, 0, 10]), finding(1, [0, 0, 0, 0, 11])];
    let page = lines(&[
        " event       site  finding          lost   kept moment  store",
        "     2         11  holds               0      0      0      0",
        "page 1 of 1                                                  ",
    ]);
    assert_eq!(text(&findings.concat()), page);
    let mut entries = made().entries.iter();
    let entry = entries.find(|entry| entry.case.group == "earlier");
    let answers = &entry.expect("the calls have it").answers;
    assert_eq!((answers.len(), &answers[0].text[..]), (1, page.as_bytes()));
}

#[test]
fn no_whole_number_or_too_many() {
    for length in [
        1, 11, 13, 23, 25, 786_419, 786_421, 786_431, 786_432, 786_444,
    ] {
        for room in [0, 124, ANY] {
            assert_eq!(refused(&vec![0; length], room), (5, 0), "{length}");
            assert_eq!(refused(&vec![255; length], room), (5, 0), "{length}");
        }
    }
    assert_eq!(
        lay_out(&vec![0; 786_420], 124).expect("laid out").len(),
        124
    );
}

#[test]
fn damaged_findings() {
    let good = area([1, 0, 2, 3, 0], 3);
    for position in 1..=5 {
        let at = 12 * (position - 1);
        for room in [0, 1, 310, ANY] {
            for byte in [9, 10, 128, 255] {
                let mut findings = good.clone();
                findings[at] = byte;
                assert_eq!(refused(&findings, room), (6, position));
                findings[at + 1] = 1;
                assert_eq!(refused(&findings, room), (6, position));
            }
            for byte in [1, 128, 255] {
                let mut findings = good.clone();
                findings[at + 1] = byte;
                assert_eq!(refused(&findings, room), (7, position));
            }
        }
    }
}

#[test]
fn first_damaged_finding() {
    let damaged = |first: (usize, u8), second: (usize, u8)| {
        let mut findings = area([1, 2, 3, 4], 4);
        findings[first.0] = first.1;
        findings[second.0] = second.1;
        refused(&findings, 0)
    };
    // Places 12 and 24 are kinds, 13 and 25 zero bytes.
    assert_eq!(damaged((13, 1), (24, 9)), (7, 2));
    assert_eq!(damaged((12, 9), (25, 1)), (6, 2));
    assert_eq!(damaged((12, 9), (24, 10)), (6, 2));
    assert_eq!(damaged((13, 1), (25, 1)), (7, 2));
    assert_eq!(damaged((13, 1), (12, 9)), (6, 2));
    assert_eq!(damaged((13, 1), (12, 0)), (7, 2));
}

#[test]
fn page_area_too_short() {
    let cases = [
        (area([0; 3], 5), 124),
        (area([1], 5), 186),
        (area([1; 58], 5), 3_720),
        (area([1; 59], 5), 3_906),
        (area(vec![1; 65_535], 5), 4_203_290),
    ];
    for (findings, needed) in cases {
        for room in [0, 1, 61, 62, 123, needed - 62, needed - 1] {
            assert_eq!(refused(&findings, room), (16, 0), "{needed} {room}");
        }
        for room in [needed, needed + 1, 2 * needed] {
            assert_eq!(lay_out(&findings, room).expect("laid out").len(), needed);
        }
    }
}

/// A lent area: nothing changes behind the pages, and nothing at all if refused.
#[test]
fn lent_area() {
    let mut findings = area([1, 0, 2], 6);
    let before: Vec<u8> = (0..=255).cycle().take(400).collect();
    for room in 0..before.len() {
        let mut after = before[..room].to_vec();
        let answer = write(&findings, &mut after);
        match answer {
            Ok(length) => {
                assert_eq!(length, 248);
                assert_eq!(after[..248], *text(&findings).as_bytes());
                assert_eq!(after[248..], before[248..room]);
            }
            Err(refused) => {
                assert_eq!(refused, Refused::new(16, 0));
                assert!(room < 248 && after == before[..room]);
            }
        }
        read_back::check(&findings, &before[..room], answer, &after).expect("right");
    }
    findings[12] = 9;
    let mut after = before.clone();
    assert_eq!(write(&findings, &mut after), Err(Refused::new(6, 2)));
    assert_eq!(after, before);
}

/// So many shown, with findings of kind 0 at random places among them or none.
fn area_with_shown(shown: usize, seed: u64, among: bool) -> Vec<u8> {
    let mut random = Random::new(seed);
    let mut kinds = Vec::new();
    for _ in 0..shown {
        while among && random.chance(1, 4) {
            kinds.push(0);
        }
        kinds.push(1 + random.below(8) as u8);
    }
    kinds.truncate(65_535);
    area(kinds, seed)
}

#[test]
fn pages_read_back() {
    for shown in (0..=400).chain([65_534, 65_535]) {
        for among in [false, true] {
            let among = among && shown <= 400;
            let findings = area_with_shown(shown, shown as u64, among);
            let pages = lay_out(&findings, ANY).expect("laid out");
            read_back::check_pages(&findings, &pages).expect("right");
            let lines = pages.split_inclusive(|&byte| byte == b'\n');
            assert!(lines.clone().all(|line| line.len() == 62));
            let feet = lines.filter(|line| line.starts_with(b"page ")).count();
            assert_eq!(feet, shown.div_ceil(58).max(1));
            assert_eq!(pages.len(), 62 * (2 * feet + shown));
        }
    }
}

/// Every byte of pages matters to the check that reads them back.
#[test]
fn changed_pages_are_found() {
    let findings = area_with_shown(60, 1, true);
    let pages = lay_out(&findings, ANY).expect("laid out");
    for at in 0..pages.len() {
        for byte in [b' ', b'0', b'1', b'\n', 0] {
            let mut changed = pages.clone();
            changed[at] = byte;
            let found = read_back::check_pages(&findings, &changed).is_err();
            assert_eq!(found, changed != pages, "byte {at} becomes {byte}");
        }
    }
    for lines in [1, 2, 59, 60, 61] {
        let rest = &pages[62 * lines..];
        assert!(read_back::check_pages(&findings, rest).is_err());
        let front = &pages[..pages.len() - 62 * lines];
        assert!(read_back::check_pages(&findings, front).is_err());
    }
}

/// The rows of the pages of every accepted trace are the finding lines of its listing.
#[test]
fn rows_of_the_listing() {
    let corpus = Corpus::build(&papers_folder(), &mut |_| {}).expect("the corpus is made");
    let (mut traces, mut rows) = (0, 0);
    for entry in &corpus.entries {
        let Some(report) = entry.outcome.report() else {
            continue;
        };
        let findings = findings_bytes(&entry.outcome);
        let text = text(&findings);
        read_back::check_pages(&findings, text.as_bytes()).expect("right");
        let words = text.lines().map(|line| {
            let words: Vec<&str> = line.split_whitespace().collect();
            words.join(" ")
        });
        let heading = "event site finding lost kept moment store";
        let of_pages: Vec<String> = words
            .filter(|line| line != heading && !line.starts_with("page "))
            .collect();
        let listing = listing(&entry.outcome);
        let lines: Vec<&str> = listing.lines().collect();
        assert_eq!(of_pages, lines[1..lines.len() - 1], "{}", entry.case.name);
        assert_eq!(of_pages.len(), report.totals.found);
        traces += 1;
        rows += of_pages.len();
    }
    println!("{traces} accepted traces, {rows} rows");
    assert!(traces > 500 && rows > 5_000);
}

#[test]
fn bytes_of_a_finding() {
    let mut random = Random::new(7);
    for _ in 0..1_000 {
        let kind = random.pick(&Kind::ALL);
        let mut field = || random.bits() as u16;
        let finding = Finding {
            kind,
            lost: field(),
            kept: field(),
            moment: field(),
            store: field(),
            site: field(),
        };
        assert_eq!(Finding::from_bytes(&finding.to_bytes()), Ok(finding));
    }
}

fn build() -> PageCalls {
    PageCalls::build().expect("the calls are made")
}

/// The calls, made once for all tests.
fn made() -> &'static PageCalls {
    static MADE: OnceLock<PageCalls> = OnceLock::new();
    MADE.get_or_init(build)
}

#[test]
fn stored_calls_are_the_same() {
    let stored = Path::new(env!("CARGO_MANIFEST_DIR")).join("../crates/page_runs");
    let (stdin, stdout) = (stored.join("stdin"), stored.join("stdout"));
    let calls = made();
    let stored = std::fs::read(stdin).expect("the stored calls are readable");
    assert!(stored == calls.to_bytes(), "the stored calls differ");
    let stored = std::fs::read(stdout).expect("the stored answers are readable");
    assert!(stored == calls.text(), "the stored answers differ");
}

#[test]
fn calls_are_the_same_each_time() {
    let (one, other) = (made(), build());
    assert_eq!(one.to_bytes(), other.to_bytes());
    assert_eq!(one.text(), other.text());
}

#[test]
fn calls_file_reads_back() {
    let made = made();
    let calls = page_calls::read(&made.to_bytes()).expect("a file of calls");
    assert!(calls.iter().copied().eq(made.calls()));
    // The findings area goes on from case to case, and each case empties it.
    let read = answers(&calls).expect("within the bounds");
    assert!(read.iter().eq(made.answers()));
    for entry in &made.entries {
        assert_eq!(entry.case.calls[0], Call::Length(0));
    }
}

#[test]
fn calls_stay_in_their_bounds() {
    let made = made();
    assert!(made.to_bytes().len() < 100_000);
    let printed: usize = made.answers().map(|answer| answer.text.len()).sum();
    assert!((10_000..=60_000).contains(&printed), "{printed}");
    for answer in made.answers() {
        assert!(answer.findings <= MOST_FINDINGS && answer.room <= MOST_ROOM);
    }
}

#[test]
fn calls_cover_every_answer() {
    let made = made();
    let count = |number: u8| {
        let refused = made.answers().filter_map(|answer| answer.result.err());
        refused.filter(|refused| refused.number == number).count()
    };
    for number in [5, 6, 7, 16] {
        assert!(count(number) >= 40, "refused {number}: {}", count(number));
    }
    let lengths = || made.answers().filter_map(|answer| answer.result.ok());
    assert!(lengths().count() >= 200);
    for shown in [
        0, 1, 2, 57, 58, 59, 60, 115, 116, 117, 173, 174, 175, 65_535,
    ] {
        let length = read_back::length(shown);
        assert!(lengths().any(|found| found == length), "{shown}");
    }
    let largest = |number| {
        let at_last = |refused: Refused| (refused.number, refused.position) == (number, 65_535);
        made.answers()
            .filter_map(|answer| answer.result.err())
            .any(at_last)
    };
    assert!(largest(6) && largest(7));
}

#[test]
fn bytes_of_calls() {
    let finding = [3, 1, 2, 3, 4, 5, 6, 7, 8, 9, 10, 11];
    let put = Call::Put {
        finding,
        count: 0x0403_0201,
        step: 0x0605,
    };
    let mut bytes = [0; CALL];
    bytes[..8].copy_from_slice(&[1, 0, 5, 6, 1, 2, 3, 4]);
    bytes[12..].copy_from_slice(&finding);
    assert_eq!(put.to_bytes(), bytes);
    let calls = [
        (Call::Length(0x0403_0201), [2, 0, 0, 0, 1, 2, 3, 4]),
        (
            Call::Set {
                place: 513,
                byte: 7,
            },
            [3, 7, 0, 0, 1, 2, 0, 0],
        ),
        (Call::Pages(124), [4, 0, 0, 0, 124, 0, 0, 0]),
        (Call::Text(256), [5, 0, 0, 0, 0, 1, 0, 0]),
    ];
    for (call, front) in calls {
        let mut bytes = [0; CALL];
        bytes[..8].copy_from_slice(&front);
        assert_eq!(call.to_bytes(), bytes);
        assert_eq!(Call::from_bytes(&bytes), Some(call));
        bytes[8] = 1;
        assert_eq!(Call::from_bytes(&bytes), None);
    }
    for kind in [0, 6, 255] {
        let mut bytes = [0; CALL];
        bytes[0] = kind;
        assert_eq!(Call::from_bytes(&bytes), None);
    }
    assert_eq!(page_calls::read(&[2; CALL - 1]), None);
}

/// Findings put with a step, a byte set, the area cut and extended; the sum by hand.
#[test]
fn what_calls_do() {
    let mut area = Vec::new();
    let finding = [2, 0, 255, 255, 1, 0, 0, 1, 0, 0, 9, 0];
    let put = Call::Put {
        finding,
        count: 3,
        step: 2,
    };
    put.change(&mut area).expect("within the bounds");
    let second = [2, 0, 1, 0, 3, 0, 2, 1, 2, 0, 11, 0];
    let third = [2, 0, 3, 0, 5, 0, 4, 1, 4, 0, 13, 0];
    assert_eq!(area, [finding, second, third].concat());
    let set = Call::Set { place: 12, byte: 8 };
    set.change(&mut area).expect("within the bounds");
    assert_eq!(area[12..14], [8, 0]);
    Call::Length(14)
        .change(&mut area)
        .expect("within the bounds");
    Call::Length(16)
        .change(&mut area)
        .expect("within the bounds");
    assert_eq!(area[12..], [8, 0, 0, 0]);
    let past = Call::Set { place: 16, byte: 0 };
    assert!(past.change(&mut area).is_err());
    // 165; 31 × 165 + 165 = 5,280; 31 × 5,280 + 165 = 163,845, which is 32,773 in 16 bits.
    let answers = answers(&[Call::Pages(3)]).expect("within the bounds");
    assert_eq!(
        String::from_utf8(answers[0].to_bytes()).expect("text"),
        "pages of 0 bytes in 3: refused 16 at 0 sum 32773\n"
    );
}
