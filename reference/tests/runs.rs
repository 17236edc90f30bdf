//! The runs of the request, both ways, and the byte layouts.

use reference::check::check;
use reference::corpus::{no_bytes, shared, torn};
use reference::direct::Run;
use reference::images::History;
use reference::script::Script;
use reference::{area_after, findings_bytes, judge, judge_by_images, listing};
use reference::{Event, Kind, Outcome, Range, Record, Report, Way};

/// Checks a script whose every event has its `expect`, or which has a `refused` line.
fn holds(events: &str) {
    let text = format!("lines 2\n{}", events.replace("; ", "\n"));
    let script = Script::parse(&text).expect("the script is good");
    let checked = check(&script);
    assert_eq!(checked.differences, Vec::<String>::new(), "{text}");
    assert!(checked.both_ways);
    let expected = match script.refused {
        Some(_) => 1,
        None => script.events.len(),
    };
    assert_eq!(checked.compared, expected, "{text}");
}

const WHOLE: &str = "lines 2
store 0/8 site 10
store 64/8 site 11
write-back 0/8 site 12
fence site 13
ordered 0/8 before 64/8 site 14
persisted 64/8 site 15
write-back 0/128 site 16
fence site 17
persisted 0/128 site 18
";

const WHOLE_LISTING: &str = "trace 9 events 2 lines
5 14 out-of-order 0 64 2 1
6 15 lost 64 0 6 2
7 16 written-twice 0 0 0 0
9 18 holds 0 0 0 0
end 4
";

fn whole(free: &str) -> Vec<u8> {
    let text = WHOLE.replacen('\n', &format!("\n{free}"), 1);
    Script::parse(&text).expect("the script is good").trace()
}

#[test]
fn whole_run() {
    for free in ["", "free 00\n", "free 50 54 52 41\nfree ff ff\n"] {
        let trace = whole(free);
        for outcome in [judge(&trace, 108), judge_by_images(&trace, 108)] {
            assert_eq!(listing(&outcome), WHOLE_LISTING);
            let totals = outcome.report().expect("accepted").totals;
            assert_eq!((totals.events, totals.fences, totals.found), (9, 2, 4));
        }
    }
}

#[test]
fn whole_run_bytes() {
    let trace = whole("");
    assert_eq!(trace.len(), 9 * 12 + 16);
    assert_eq!(trace[..12], [1, 0, 0, 0, 8, 0, 0, 0, 0, 0, 10, 0]);
    assert_eq!(trace[48..60], [8, 0, 0, 0, 8, 0, 64, 0, 8, 0, 14, 0]);
    let trailer = [0x50, 0x54, 0x52, 0x41, 0, 0, 0, 0, 9, 0, 0, 0, 2, 0, 0, 0];
    assert_eq!(trace[108..], trailer);
    let outcome = judge(&trace, 110);
    let bytes = findings_bytes(&outcome);
    assert_eq!(bytes.len(), 108);
    assert_eq!(bytes[..12], [0, 0, 0, 0, 0, 0, 0, 0, 0, 0, 10, 0]);
    assert_eq!(bytes[48..60], [3, 0, 0, 0, 64, 0, 2, 0, 1, 0, 14, 0]);
    assert_eq!(bytes[60..72], [2, 0, 64, 0, 0, 0, 6, 0, 2, 0, 15, 0]);
    assert_eq!(bytes[72..84], [6, 0, 0, 0, 0, 0, 0, 0, 0, 0, 16, 0]);
    assert_eq!(bytes[96..], [1, 0, 0, 0, 0, 0, 0, 0, 0, 0, 18, 0]);
    let area = area_after(&outcome, 110, 0xa5);
    assert_eq!(area[..108], bytes);
    assert_eq!(area[108..], [0xa5, 0xa5]);
}

#[test]
fn small_runs_of_persisted() {
    holds("persisted 0/128; expect holds 0 0 0 0");
    holds("store 0/8; expect none 0 0 0 0; persisted 0/8; expect lost 0 0 2 1");
    holds(
        "store 0/8; expect none; write-back 0/8; expect none; persisted 0/8; expect lost 0 0 3 1",
    );
    holds(
        "store 0/8; expect none; write-back 0/8; expect none; fence; expect none; persisted 0/8; \
         expect holds 0 0 0 0",
    );
    holds(
        "write-back 0/8; expect clean 0 0 0 0; store 0/8; expect none; fence; expect none; \
         persisted 0/8; expect lost 0 0 4 2",
    );
    holds(
        "store 0/8; expect none; write-back 0/8; expect none; store 0/8; expect none; \
         fence; expect none; persisted 0/8; expect lost 0 0 5 3",
    );
}

#[test]
fn small_runs_of_ordered() {
    holds(
        "store 0/8; expect none; store 8/8; expect none; ordered 0/8 before 8/8; \
         expect holds 0 0 0 0",
    );
    holds(
        "store 0/8; expect none; store 8/8; expect none; ordered 8/8 before 0/8; \
         expect out-of-order 8 0 1 2",
    );
    holds("store 60/8; expect none; ordered 60/4 before 64/4; expect out-of-order 60 64 1 1");
    holds("store 0/8; ordered 0/8 before 0/8; refused 18 at 2");
    holds("store 0/16; expect none; ordered 0/8 before 8/8; expect out-of-order 0 8 1 1");
}

/// The runs of torn stores in the corpus, with the answers that stand beside them.
#[test]
fn torn_stores() {
    let runs = torn::runs();
    let by_hand = torn::by_hand();
    assert_eq!((by_hand.len(), runs.len()), (22, 22 + 1 + 81));
    assert_eq!(by_hand, runs[..22]);
    let (mut asserted, mut out_of_order) = (Vec::new(), 0);
    for run in runs {
        let script = run.read();
        let checked = check(&script);
        assert_eq!(checked.differences, Vec::<String>::new(), "{run:?}");
        // Every two lines of this one would have 257 × 257 images.
        let too_many = run.name == "window-of-64-halves";
        assert_eq!(checked.both_ways, !too_many, "{run:?}");
        let report = checked.outcome.report().expect("the run is accepted");
        assert_others_get_none(&script, report);
        for finding in &report.findings {
            out_of_order += usize::from(finding.kind == Kind::OutOfOrder);
        }
        asserted.push(checked.compared);
    }
    let all: usize = asserted.iter().sum();
    let by_hand: usize = asserted[..by_hand.len()].iter().sum();
    println!(
        "{all} answers of torn stores, {by_hand} of them by hand, {out_of_order} out of order"
    );
}

/// Every event but those with an `expect` gets none.
fn assert_others_get_none(script: &Script, report: &Report) {
    for (event, finding) in script.events.iter().zip(&report.findings) {
        let none = finding.kind == Kind::None;
        assert_eq!(event.expect.is_none(), none, "line {}", event.at);
    }
}

/// The runs of the corpus with ranges of no bytes, with the answers that stand beside them.
#[test]
fn ranges_of_no_bytes() {
    let (by_hand, runs) = (no_bytes::by_hand(), no_bytes::runs());
    assert_eq!((by_hand.len(), runs.len()), (61, 61 + 2 * 13));
    assert_eq!(by_hand, runs[..61]);
    let (mut asserted, mut nones) = (Vec::new(), 0);
    for run in runs {
        let script = run.read();
        let checked = check(&script);
        assert_eq!(checked.differences, Vec::<String>::new(), "{run:?}");
        assert!(checked.both_ways, "{run:?}");
        if let Some(report) = checked.outcome.report() {
            assert_others_get_none(&script, report);
            let none = report.findings.iter().filter(|f| f.kind == Kind::None);
            nones += none.count();
        }
        asserted.push(checked.compared);
    }
    let all: usize = asserted.iter().sum();
    let by_hand: usize = asserted[..by_hand.len()].iter().sum();
    println!("{all} answers beside no bytes, {by_hand} of them by hand; {nones} events get none");
}

/// The runs of the corpus with orders between ranges that share a byte, or touch, or have none, with
/// the answers that stand beside them.
#[test]
fn shared_bytes() {
    let (by_hand, runs) = (shared::by_hand(), shared::runs());
    assert_eq!((by_hand.len(), runs.len()), (55, 55 + 45 * 3));
    assert_eq!(by_hand, runs[..55]);
    let (mut asserted, mut refused) = (Vec::new(), [0; 19]);
    for run in runs {
        let script = run.read();
        let checked = check(&script);
        assert_eq!(checked.differences, Vec::<String>::new(), "{run:?}");
        assert!(checked.both_ways, "{run:?}");
        match checked.outcome {
            Outcome::Accepted(report) => assert_others_get_none(&script, &report),
            Outcome::Refused(refusal) => refused[usize::from(refusal.number)] += 1,
        }
        asserted.push(checked.compared);
    }
    let all: usize = asserted.iter().sum();
    let by_hand: usize = asserted[..by_hand.len()].iter().sum();
    println!("{all} answers of shared bytes, {by_hand} of them by hand; refused {refused:?}");
    assert!(refused[18] > 100 && refused[9] > 10);
}

#[test]
fn small_runs_of_transactions() {
    holds("begin; expect none; store 0/8; expect unlogged 0 0 0 0; end; expect lost 0 0 3 2");
    let eight = ["begin"; 8].join("; ");
    holds(&format!("{eight}; refused 13 at 0"));
    holds(&format!("{eight}; begin; refused 12 at 9"));
    let begins = ["begin; expect none"; 8].join("; ");
    let inner_ends = ["end; expect none"; 7].join("; ");
    holds(&format!(
        "{begins}; {inner_ends}; end; expect empty 0 0 0 0"
    ));
}

#[test]
fn small_runs_of_ranges() {
    holds("store 120/8; expect none");
    holds("store 121/8; refused 9 at 1");
    holds("write-back 120/8; expect clean 64 0 0 0");
    holds("write-back 121/8; refused 9 at 1");
    holds("persisted 120/8; expect holds");
    holds("persisted 121/8; refused 9 at 1");
    holds("ordered 120/8 before 112/8; expect holds");
    holds("ordered 112/8 before 120/8; expect holds");
    holds("ordered 121/8 before 120/8; refused 9 at 1");
    holds("ordered 120/8 before 121/8; refused 9 at 1");
    holds("begin; expect none; log 120/8; expect none; end; expect empty");
    holds("begin; log 121/8; end; refused 9 at 2");
}

/// Rules of the request that its small runs do not show.
#[test]
fn subtle_points() {
    // Log marks last to the outermost end, and no longer.
    holds(
        "begin; expect none; log 0/8; expect none; begin; expect none; end; expect none; \
         store 0/8; expect none; log 4/8; expect logged-twice 4 0 0 0; end; expect lost 0 0 7 5; \
         begin; expect none; store 4/8; expect unlogged 4 0 0 0; log 0/8; expect none; \
         end; expect lost 4 0 11 9",
    );
    // An end speaks of the bytes stored in its transaction only.
    holds(
        "store 0/8; expect none; begin; expect none; log 64/8; expect none; store 64/8; \
         expect none; write-back 64/8; expect none; fence; expect none; end; \
         expect holds 0 0 0 0; persisted 0/8; expect lost 0 0 8 1",
    );
    // The lowest line that fits either kind of warning.
    holds(
        "store 64/8; expect none; write-back 64/8; expect none; write-back 0/128; \
         expect clean 0 0 0 0; store 0/8; expect none; write-back 63/2; \
         expect written-twice 64 0 0 0; write-back 0/128; expect written-twice 0 0 0 0",
    );
    // The moment of the kept byte's store, not the assertion's: at the end both are durable.
    holds(
        "store 0/8; expect none; store 64/8; expect none; write-back 0/128; expect none; \
         fence; expect none; ordered 0/8 before 64/8; expect out-of-order 0 64 2 1; \
         persisted 0/128; expect holds",
    );
    // Bytes never stored to are neither lost nor kept.
    holds("store 0/8; expect none; ordered 0/8 before 64/8; expect holds");
    holds("store 64/8; expect none; ordered 0/8 before 64/8; expect holds");
}

/// Refusal 10 and event 65,535, which no trace is long enough to reach.
#[test]
fn events_given_singly() {
    let fence = Record {
        event: Event::Fence,
        site: 7,
    };
    let mut run = Run::fresh(1);
    for _ in 0..65_533 {
        run.give(&fence).expect("an event is left");
    }
    let of = |event| Record { event, site: 7 };
    run.give(&of(Event::Store(Range::new(0, 1))))
        .expect("an event is left");
    let lost = run.give(&of(Event::Persisted(Range::new(0, 1))));
    let lost = lost.expect("event 65,535 is taken");
    assert_eq!((lost.moment, lost.store), (65_535, 65_534));
    assert_eq!(run.give(&fence), Err(10));
    assert_eq!(run.give(&of(Event::End)), Err(10));
    let totals = run.close().expect("nothing is open");
    assert_eq!(totals.events, 65_535);
    assert_eq!((totals.fences, totals.found), (65_533, 1));
}

/// A refused event changes nothing, and closing neither.
#[test]
fn refused_events_change_nothing() {
    fn given<W: Way>() {
        let mut way = W::fresh(2);
        let of = |event| Record { event, site: 1 };
        let range = Range::new(0, 8);
        assert_eq!(way.give(&of(Event::End)), Err(11));
        assert_eq!(way.give(&of(Event::Log(range))), Err(11));
        for _ in 0..8 {
            way.give(&of(Event::Begin)).expect("depth 8 is allowed");
        }
        assert_eq!(way.give(&of(Event::Begin)), Err(12));
        assert_eq!(way.close(), Err(13));
        way.give(&of(Event::Store(range))).expect("a good store");
        let lost = way.give(&of(Event::Persisted(range))).expect("taken");
        assert_eq!((lost.moment, lost.store), (10, 9));
        for _ in 0..7 {
            assert_eq!(way.give(&of(Event::End)).expect("open").kind.number(), 0);
        }
        let lost = way.give(&of(Event::End)).expect("open");
        assert_eq!((lost.kind.number(), lost.moment, lost.store), (2, 18, 9));
        let totals = way.close().expect("closed");
        assert_eq!((totals.events, totals.fences, totals.found), (18, 0, 3));
    }
    given::<Run>();
    given::<History>();
}

/// A refused trace writes nothing.
#[test]
fn refused_area() {
    let text = "lines 2\nstore 0/8\npersisted 0/8\npersisted 0/129\n";
    let trace = Script::parse(text).expect("the script is good").trace();
    let outcome = judge(&trace, 36);
    assert_eq!(outcome, Outcome::refused(9, 3));
    assert_eq!(listing(&outcome), "refused 9 at 3\n");
    assert_eq!(area_after(&outcome, 36, 0xa5), [0xa5; 36]);
}
