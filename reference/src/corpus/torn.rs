//! Torn stores: orders between the words of one store, and of stores beside and over it.

use super::run::Run;
use super::Cases;
use crate::event::{LINE, WORD};

pub(super) fn add(cases: &mut Cases) {
    for run in runs() {
        cases.run(&format!("torn/{}", run.name), run.lines, &run.events());
    }
}

/// All runs of the group.
pub fn runs() -> Vec<Run> {
    let mut runs = by_hand();
    runs.push(each_word_against_each());
    for address in 0..=8 {
        runs.extend((2..=10).map(|length| first_and_last(address, length)));
    }
    runs
}

/// The runs whose answers are worked out by hand; they come first.
pub fn by_hand() -> Vec<Run> {
    let run = |&(name, lines, script): &(&str, u16, &str)| Run::new(name, lines, script);
    BY_HAND.iter().map(run).collect()
}

const BY_HAND: [(&str, u16, &str); 22] = [
    (
        "two-words",
        2,
        "store 0/16; ordered 0/8 before 8/8; expect out-of-order 0 8 1 1;
        ordered 8/8 before 0/8; expect out-of-order 8 0 1 1;
        ordered 0/12 before 12/4; expect out-of-order 0 12 1 1;
        ordered 4/12 before 0/4; expect out-of-order 8 0 1 1;
        ordered 6/10 before 2/4; expect out-of-order 8 2 1 1;
        persisted 0/16; expect lost 0 0 7 1",
    ),
    (
        "one-word",
        2,
        "store 0/16; ordered 0/4 before 4/4; expect holds; ordered 12/4 before 8/4; expect holds;
        ordered 3/1 before 7/1; expect holds; ordered 7/1 before 3/1; expect holds;
        ordered 7/1 before 8/1; expect out-of-order 7 8 1 1;
        ordered 8/1 before 7/1; expect out-of-order 8 7 1 1",
    ),
    (
        "unaligned",
        2,
        "store 4/8; ordered 4/4 before 8/4; expect out-of-order 4 8 1 1;
        ordered 8/4 before 4/4; expect out-of-order 8 4 1 1;
        ordered 4/2 before 6/2; expect holds; ordered 10/2 before 8/2; expect holds;
        ordered 6/6 before 4/2; expect out-of-order 8 4 1 1;
        ordered 0/4 before 4/8; expect holds; ordered 4/8 before 12/4; expect holds",
    ),
    (
        "three-words",
        2,
        "store 4/16; ordered 4/4 before 8/8; expect out-of-order 4 8 1 1;
        ordered 8/8 before 4/4; expect out-of-order 8 4 1 1;
        ordered 8/8 before 16/4; expect out-of-order 8 16 1 1;
        ordered 16/4 before 8/8; expect out-of-order 16 8 1 1;
        ordered 4/4 before 16/4; expect out-of-order 4 16 1 1;
        ordered 16/4 before 4/4; expect out-of-order 16 4 1 1;
        ordered 4/6 before 10/1; expect out-of-order 4 10 1 1;
        ordered 11/9 before 10/1; expect out-of-order 16 10 1 1",
    ),
    (
        "across-lines",
        2,
        "store 60/8; ordered 60/4 before 64/4; expect out-of-order 60 64 1 1;
        ordered 64/4 before 60/4; expect out-of-order 64 60 1 1;
        ordered 60/2 before 62/2; expect holds; ordered 62/2 before 60/2; expect holds;
        ordered 64/2 before 66/2; expect holds; ordered 66/2 before 64/2; expect holds;
        ordered 61/7 before 60/1; expect out-of-order 64 60 1 1",
    ),
    (
        "across-lines-and-words",
        2,
        "store 52/24; ordered 52/4 before 56/8; expect out-of-order 52 56 1 1;
        ordered 56/8 before 52/4; expect out-of-order 56 52 1 1;
        ordered 64/8 before 72/4; expect out-of-order 64 72 1 1;
        ordered 72/4 before 64/8; expect out-of-order 72 64 1 1;
        ordered 52/4 before 64/4; expect out-of-order 52 64 1 1;
        ordered 72/4 before 52/4; expect out-of-order 72 52 1 1;
        ordered 54/22 before 52/2; expect out-of-order 56 52 1 1;
        ordered 62/6 before 60/2; expect out-of-order 64 60 1 1",
    ),
    (
        "durable-later",
        2,
        "store 0/16; write-back 0/16; fence; persisted 0/16; expect holds;
        ordered 0/8 before 8/8; expect out-of-order 0 8 1 1;
        ordered 8/8 before 0/8; expect out-of-order 8 0 1 1;
        ordered 0/4 before 4/4; expect holds",
    ),
    (
        "stored-again",
        2,
        "store 0/16; write-back 0/16; fence; store 0/16;
        ordered 0/8 before 8/8; expect out-of-order 0 8 4 4;
        ordered 8/8 before 0/8; expect out-of-order 8 0 4 4;
        persisted 0/16; expect lost 0 0 7 4",
    ),
    (
        "word-stored-again",
        2,
        "store 0/16; write-back 0/1; fence; store 0/8;
        ordered 0/8 before 8/8; expect out-of-order 0 8 1 4;
        ordered 8/8 before 0/8; expect holds; persisted 8/8; expect holds;
        persisted 0/16; expect lost 0 0 8 4",
    ),
    (
        "two-stores",
        2,
        "store 0/16; store 16/16; ordered 0/8 before 16/8; expect holds;
        ordered 16/8 before 0/8; expect out-of-order 16 0 1 2;
        ordered 16/8 before 24/8; expect out-of-order 16 24 2 2;
        ordered 24/8 before 16/8; expect out-of-order 24 16 2 2;
        ordered 0/8 before 8/8; expect out-of-order 0 8 1 1;
        ordered 8/8 before 0/8; expect out-of-order 8 0 1 1;
        ordered 0/16 before 16/16; expect holds;
        ordered 16/16 before 0/16; expect out-of-order 16 0 1 2;
        ordered 4/28 before 0/4; expect out-of-order 8 0 1 1;
        ordered 0/20 before 20/12; expect out-of-order 16 24 2 2;
        ordered 0/20 before 20/4; expect holds",
    ),
    (
        "stored-over-a-word",
        2,
        "store 0/16; store 4/8; ordered 0/4 before 4/4; expect holds;
        ordered 4/4 before 0/4; expect out-of-order 4 0 1 2;
        ordered 0/4 before 12/4; expect out-of-order 0 12 1 1;
        ordered 12/4 before 0/4; expect out-of-order 12 0 1 1;
        ordered 4/4 before 8/4; expect out-of-order 4 8 2 2;
        ordered 8/4 before 4/4; expect out-of-order 8 4 2 2;
        ordered 12/4 before 8/4; expect holds;
        ordered 8/4 before 12/4; expect out-of-order 8 12 1 2;
        ordered 4/12 before 0/4; expect out-of-order 4 0 1 2;
        ordered 8/8 before 4/4; expect out-of-order 8 4 2 2",
    ),
    (
        "stored-over-all",
        2,
        "store 0/16; store 0/16; ordered 0/8 before 8/8; expect out-of-order 0 8 2 2;
        store 0/8; ordered 0/8 before 8/8; expect out-of-order 0 8 2 4;
        store 8/8; ordered 0/8 before 8/8; expect holds;
        ordered 8/8 before 0/8; expect out-of-order 8 0 4 6",
    ),
    (
        "words-apart",
        2,
        "store 0/24; ordered 0/8 before 16/8; expect out-of-order 0 16 1 1; write-back 0/1;
        store 8/8; fence; ordered 0/8 before 16/8; expect out-of-order 0 16 1 1;
        ordered 8/8 before 16/8; expect out-of-order 8 16 1 4;
        ordered 16/8 before 8/8; expect holds; persisted 0/24; expect lost 8 0 9 4",
    ),
    (
        "lowest-pair",
        2,
        "store 8/16; store 40/16; ordered 12/52 before 0/12; expect out-of-order 16 8 1 1;
        ordered 44/20 before 0/44; expect out-of-order 44 8 1 2;
        ordered 44/20 before 40/4; expect out-of-order 48 40 2 2;
        ordered 0/48 before 48/16; expect out-of-order 40 48 2 2;
        ordered 0/40 before 40/24; expect holds",
    ),
    (
        "other-line-durable",
        2,
        "store 0/16; write-back 0/1; fence; store 64/16;
        ordered 0/16 before 64/16; expect holds;
        ordered 64/16 before 0/16; expect out-of-order 64 0 1 4;
        ordered 64/8 before 72/8; expect out-of-order 64 72 4 4;
        ordered 4/12 before 0/4; expect out-of-order 8 0 1 1;
        ordered 0/68 before 68/12; expect out-of-order 64 72 4 4",
    ),
    (
        "other-line-open",
        2,
        "store 0/16; write-back 0/1; store 64/16; fence;
        ordered 8/8 before 64/16; expect out-of-order 8 64 3 1;
        ordered 0/16 before 72/8; expect out-of-order 0 72 3 1;
        persisted 0/16; expect holds; persisted 64/16; expect lost 64 0 8 3",
    ),
    (
        "transaction",
        2,
        "begin; log 0/16; store 0/16; end; expect lost 0 0 4 3; begin; log 64/16; store 64/16;
        ordered 64/8 before 72/8; expect out-of-order 64 72 7 7; write-back 64/16; fence;
        end; expect holds; ordered 64/8 before 72/8; expect out-of-order 64 72 7 7;
        persisted 64/16; expect holds",
    ),
    (
        "window-of-1",
        1,
        "store 0/64; ordered 0/32 before 32/32; expect out-of-order 0 32 1 1;
        ordered 32/32 before 0/32; expect out-of-order 32 0 1 1;
        ordered 4/60 before 0/4; expect out-of-order 8 0 1 1; persisted 0/64; expect lost 0 0 5 1",
    ),
    (
        "window-of-2",
        2,
        "store 0/128; ordered 4/124 before 0/4; expect out-of-order 8 0 1 1;
        ordered 0/64 before 64/8; expect out-of-order 0 64 1 1;
        ordered 64/64 before 0/8; expect out-of-order 64 0 1 1;
        ordered 0/8 before 8/8; expect out-of-order 0 8 1 1;
        ordered 64/8 before 120/8; expect out-of-order 64 120 1 1;
        ordered 0/4 before 4/4; expect holds; ordered 124/4 before 120/4; expect holds;
        persisted 0/128; expect lost 0 0 9 1; write-back 0/128; fence;
        persisted 0/128; expect holds",
    ),
    (
        "window-of-64",
        64,
        "store 0/4096; ordered 0/8 before 8/8; expect out-of-order 0 8 1 1;
        ordered 4032/8 before 4088/8; expect out-of-order 4032 4088 1 1;
        ordered 4088/8 before 4032/8; expect out-of-order 4088 4032 1 1;
        ordered 4088/4 before 4092/4; expect holds;
        ordered 2048/8 before 4032/8; expect out-of-order 2048 4032 1 1;
        ordered 4032/8 before 2048/8; expect out-of-order 4032 2048 1 1;
        ordered 63/1 before 64/1; expect out-of-order 63 64 1 1;
        persisted 0/4096; expect lost 0 0 9 1; write-back 0/4096; fence;
        persisted 0/4096; expect holds; ordered 0/8 before 8/8; expect out-of-order 0 8 1 1",
    ),
    (
        "window-of-64-halves",
        64,
        "store 0/4096; ordered 0/2048 before 2048/2048; expect out-of-order 0 2048 1 1;
        ordered 2048/2048 before 0/2048; expect out-of-order 2048 0 1 1",
    ),
    (
        "last-line-of-64",
        64,
        "store 4080/16; ordered 4080/8 before 4088/8; expect out-of-order 4080 4088 1 1;
        ordered 4088/8 before 4080/8; expect out-of-order 4088 4080 1 1;
        ordered 4080/4 before 4084/4; expect holds;
        store 4028/8; ordered 4028/4 before 4032/4; expect out-of-order 4028 4032 5 5;
        store 4087/2; ordered 4087/1 before 4088/1; expect out-of-order 4087 4088 7 7;
        ordered 4080/7 before 4089/7; expect out-of-order 4080 4089 1 1;
        ordered 4088/1 before 4089/1; expect out-of-order 4088 4089 1 7;
        persisted 4080/16; expect lost 4080 0 11 1",
    ),
];

/// A store of a whole line, and each of its eight words before each other, and the halves of each.
fn each_word_against_each() -> Run {
    let words = || (0..LINE).step_by(WORD);
    let mut script = vec!["store 0/64".to_string()];
    for first in words() {
        let others = words().filter(|&second| second != first);
        script.extend(others.map(|second| ordered(first, second, WORD)));
        script.push(ordered(first, first + WORD / 2, WORD / 2));
    }
    Run::new("eight-words", 2, &script.join("; "))
}

/// A store, and its first byte before its last one and back.
fn first_and_last(address: usize, length: usize) -> Run {
    let last = address + length - 1;
    let (there, back) = (ordered(address, last, 1), ordered(last, address, 1));
    let script = format!("store {address}/{length}; {there}; {back}");
    Run::new(&format!("store-{address}-{length}"), 2, &script)
}

/// An order between two parts of the first event's store, each inside a word of one line, and what
/// it gets: they are out of order if their words are not the same one.
fn ordered(first: usize, second: usize, length: usize) -> String {
    let expect = if first / WORD == second / WORD {
        "holds".to_string()
    } else {
        format!("out-of-order {first} {second} 1 1")
    };
    format!("ordered {first}/{length} before {second}/{length}; expect {expect}")
}
