//! Lines and their answers.

use super::*;

/// The answer to a line of a new run.
fn answered(line: &str) -> String {
    answers(&[line]).remove(0)
}

/// The answers to the lines of one run, none of which is skipped.
fn answers(lines: &[&str]) -> Vec<String> {
    let mut session = Session::default();
    let mut answer = |line: &&str| session.answer(line.as_bytes());
    lines.iter().map(|line| answer(line).expect("the line is not skipped")).collect()
}

const ZEROS: &str = "000000000000000000000000000000000000";

#[test]
fn sizes_are_answered() {
    assert_eq!(answered("size 0 1 2 63 0"), "size 1 21");
    assert_eq!(answered("size 0 1 29 63 0"), "refused 5");
    assert_eq!(answered("size 0 1 2 63 4"), "refused 3");
}

#[test]
fn lists_are_coded_and_decoded() {
    assert_eq!(answered("code scramble 0000 2 2"), "list 0ef2");
    assert_eq!(answered("decode scramble 0ef2 2 2"), "list 0000");
    assert_eq!(answered("code rs 4 01 9 9"), "list 01e32cb247ac08e025");
    assert_eq!(answered("code unpack-bits 42 8 8"), "list 0001000000000100");
    assert_eq!(answered("code convolution 01 14 14"), "list 0101010001010101000000010101");
    assert_eq!(answered("code fill 1 3 01 3 3"), "list 010000");
    assert_eq!(answered("code interleave 6 1 1 000100000001 6 6"), "list 000100000001");
    assert_eq!(answered("code map 2 0100 2 2"), "list 06");
    let difference = "code difference 6 000102030405 010101010107 6 6";
    assert_eq!(answered(difference), "list 010203040504");
}

#[test]
fn the_empty_list_is_written_as_a_dash() {
    assert_eq!(answered("code scramble - 0 0"), "list -");
    assert_eq!(answered("code fill 0 0 - 0 0"), "list -");
    assert_eq!(answered("code check - 0 0"), "refused 13");
    assert_eq!(answered("decode check - 0 0"), "refused 10 stage 1 place 0 depth 0");
}

#[test]
fn repeat_by_4_receiving_1_1_0_1_is_refused_with_place_2() {
    let expected = "refused 10 stage 7 place 2 depth 0";
    assert_eq!(answered("decode repeat 4 01010001 4 4"), expected);
}

#[test]
fn settings_are_checked_before_list_and_buffers() {
    assert_eq!(answered("code repeat 5 02 0 0"), "refused 1");
    assert_eq!(answered("code rs 5 - 0 0"), "refused 1");
    assert_eq!(answered("code interleave 36 253 1 02 0 0"), "refused 1");
    assert_eq!(answered("decode map 0 02 0 0"), "refused 1");
    assert_eq!(answered("code difference 6 - 02 0 0"), "refused 1");
    assert_eq!(answered("code fill 4294967295 4294967295 - 0 0"), "refused 1");
    assert_eq!(answered("code header - 02 0 0"), "refused 1");
    assert_eq!(answered("decode header 800000000000000000000000000000000000 02 0 0"), "refused 1");
}

#[test]
fn the_payload_chain_is_refused_as_its_size_and_then_for_its_row() {
    let answered = |numbers: &str| answered(&format!("code payload {numbers} 02 0 0"));
    assert_eq!(answered("4 2 0 8"), "refused 1");
    assert_eq!(answered("1 2 0 8"), "refused 2");
    assert_eq!(answered("1 1 63 8"), "refused 4");
    assert_eq!(answered("1 29 63 8"), "refused 5");
    assert_eq!(answered("1 2 63 8"), "refused 1");
    assert_eq!(answered(&format!("1 3 63 {ZEROS}")), "refused 13");
    assert_eq!(answered(&format!("1 2 63 {ZEROS}")), "refused 7");
}

#[test]
fn a_line_is_read_whole_before_settings_are_checked() {
    assert_eq!(answered("code repeat 5 0 0 0"), "unreadable");
    assert_eq!(answered("code repeat 5 00 0"), "unreadable");
    assert_eq!(answered("code repeat 5 00 0 0 0"), "unreadable");
    assert_eq!(answered("begin 0 4 2 63 0 A 0"), "unreadable");
}

#[test]
fn long_buffers_are_served_as_65536() {
    let line = |length: usize| format!("decode scramble {} 4294967295 65537", "00".repeat(length));
    assert_eq!(answered(&line(65_536)), "refused 10 stage 2 place 0 depth 0");
    assert_eq!(answered(&line(65_537)), "refused 7");
    let begin = format!("begin 0 1 2 63 0 {ZEROS} 4294967295");
    assert_eq!(answered(&begin), "begun");
}

#[test]
fn blanks_of_both_kinds_separate_words_and_may_stand_at_the_ends() {
    assert_eq!(answered("\t size  0\t1 \t 2 63 0 \t"), "size 1 21");
    assert_eq!(answered("size 0\u{b}1 2 63 0"), "unreadable");
    assert_eq!(answered("size 0 1 2 63 0\r"), "unreadable");
}

#[test]
fn only_empty_lines_and_lines_that_begin_with_a_hash_are_skipped() {
    assert_eq!(Session::default().answer(b""), None);
    assert_eq!(Session::default().answer(b"# size 0 1 2 63 0"), None);
    assert_eq!(answered(" "), "unreadable");
    assert_eq!(answered("\t#"), "unreadable");
}

#[test]
fn headers_are_packed_and_unpacked() {
    assert_eq!(answered("pack 0 1 2 63 0 5"), "bytes 00423f0780");
    assert_eq!(answered("pack 0 0 10 63 0 6"), "bytes 000a3f0600");
    assert_eq!(answered("pack 0 1 2 63 0 4"), "refused 7");
    assert_eq!(answered("unpack 00423f0780"), "header 0 1 2 63 0");
    assert_eq!(answered("unpack 00423f0700"), "refused 10 stage 1 place 32 depth 0");
    assert_eq!(answered("unpack 00423f07"), "refused 13");
}

#[test]
fn a_recording_is_handed_out_in_rows_of_36_cells() {
    assert_eq!(answered("record -"), "rows 0");
    assert_eq!(answered("record 8z"), "rows 0 short 2");
    assert_eq!(answered(&format!("record {ZEROS}")), format!("rows 1 {ZEROS}"));
    assert_eq!(answered(&format!("record {ZEROS}9")), format!("rows 1 {ZEROS} short 1"));
}

#[test]
fn a_begun_frame_is_finished_once() {
    let begin = format!("begin 0 1 2 63 0 {ZEROS} 756");
    let all = answers(&["finish 00", &begin, "finish", "finish -", "finish 0e", "finish 0e"]);
    let (front, behind) = all.split_at(4);
    assert_eq!(front, ["unreadable", "begun", "unreadable", "refused 6"]);
    let words: Vec<&str> = behind[0].split(' ').collect();
    assert_eq!((words[0], words.len()), ("rows", 1 + 21));
    assert!(words[14..].iter().all(|row| *row == words[13]));
    assert_eq!(behind[1], "unreadable");
}

#[test]
fn a_refused_begin_keeps_the_begun_frame_and_an_accepted_one_drops_it() {
    let small = format!("begin 0 1 2 63 0 {ZEROS} 756");
    let refused = format!("begin 0 2 1 63 0 {ZEROS} 611");
    let other = format!("begin 0 1 3 63 0 {ZEROS} 900");
    let all = answers(&[&small, &refused, "finish 0e"]);
    assert_eq!(all[1], "refused 7");
    assert_eq!(all[2].split(' ').count(), 22);
    let all = answers(&[&small, &other, "finish 0e"]);
    assert_eq!(all[1..], ["begun", "refused 6"]);
}

#[test]
fn rows_that_were_sent_are_received() {
    let begin = format!("begin 9 3 3 33 2 {ZEROS} 900");
    let sent = answers(&[&begin, "finish 0102030405060708090a"]).remove(1);
    let mut session = Session::default();
    assert_eq!(session.answer(b"feed 0"), Some("refused 11".to_string()));
    assert_eq!(session.answer(b"take 0"), Some("refused 12".to_string()));
    let start = format!("start {ZEROS}");
    assert_eq!(session.answer(start.as_bytes()), Some("listening".to_string()));
    let mut missing = vec![];
    for row in sent.split(' ').skip(1) {
        missing.push(session.answer(format!("feed {row}").as_bytes()).unwrap());
    }
    assert_eq!((missing[0].as_str(), missing[11].as_str()), ("missing 12", "missing 1"));
    assert_eq!((missing[12].as_str(), missing[24].as_str()), ("missing 12", "missing 0"));
    assert_eq!(session.answer(b"take 9"), Some("refused 7".to_string()));
    let frame = Some("frame 9 3 3 33 2 0102030405060708090a".to_string());
    assert_eq!(session.answer(b"take 10"), frame);
    assert_eq!(session.answer(b"take 10"), Some("refused 12".to_string()));
}
