//! Frames that are sent and received, whole and damaged.

use super::*;
use crate::refusal::Fault;
use crate::sending::begin;

const HEADER: Header = Header { pdc: 7, modulation: 1, fl: 2, tm: 63, dt: 3 };
const REFERENCE: Row = [3; 36];

/// The rows of a frame from the reference.
fn rows(header: &Header, payload: &[u8]) -> Vec<Row> {
    let mut buffer = vec![0; size(header).unwrap().rows as usize * CARRIERS];
    let begun = begin(header, &REFERENCE, &mut buffer).unwrap();
    begun.finish(payload, &mut buffer).unwrap();
    buffer.chunks(CARRIERS).map(|row| row.try_into().unwrap()).collect()
}

/// The rows of a header that need not be legal.
fn header_rows(header: &Header) -> Vec<Row> {
    let cells = header_chain(&REFERENCE).code(&packing::bits(header));
    cells.chunks(CARRIERS).map(|row| row.try_into().unwrap()).collect()
}

/// A receiver that listens.
fn listening() -> Receiver {
    let mut receiver = Receiver::default();
    receiver.start(&REFERENCE).unwrap();
    receiver
}

/// The answer to the last of the rows, when those before it are accepted.
fn last_answer(receiver: &mut Receiver, rows: &[Row]) -> Result<usize, Refusal> {
    let (last, front) = rows.split_last().unwrap();
    for row in front {
        receiver.feed(row).unwrap();
    }
    receiver.feed(last)
}

/// Every MOD and tone map with the first and the last frame length that is legal.
fn headers() -> Vec<Header> {
    let mut headers = vec![];
    for modulation in 0..4 {
        for tm in 1..64 {
            let with_fl = |fl| Header { pdc: tm + fl, modulation, fl, tm, dt: tm % 4 };
            let legal = (0..64).map(with_fl).filter(|header| size(header).is_ok());
            let legal: Vec<Header> = legal.collect();
            headers.push(legal[0]);
            headers.push(legal[legal.len() - 1]);
        }
    }
    headers
}

#[test]
fn frames_of_every_mod_and_tone_map_are_received_as_sent() {
    for header in headers() {
        let Header { modulation, fl, tm, .. } = header;
        let bytes = size(&header).unwrap().bytes;
        let payload: Vec<u8> = (0..bytes).map(|at| (at * at + tm) as u8).collect();
        let mut receiver = listening();
        let answer = last_answer(&mut receiver, &rows(&header, &payload));
        assert_eq!(answer, Ok(0), "MOD {modulation} FL {fl} TM {tm}");
        assert_eq!(receiver.take(bytes as usize), Ok((header, payload)));
    }
}

#[test]
fn each_row_answers_how_many_of_its_part_are_missing() {
    let mut receiver = listening();
    let missing: Vec<usize> =
        rows(&HEADER, &[5]).iter().map(|row| receiver.feed(row).unwrap()).collect();
    let counts: Vec<usize> = (1..13).rev().chain((0..=8).rev()).collect();
    assert_eq!(missing, counts);
}

#[test]
fn cells_of_silent_carriers_do_not_matter() {
    let header = Header { fl: 12, tm: 1, ..HEADER };
    let mut rows = rows(&header, &[42]);
    for (at, row) in rows[13..].iter_mut().enumerate() {
        assert!(row[6..].iter().all(|&cell| cell == SILENT));
        row[6..].fill(at as u8 % 9);
    }
    let mut receiver = listening();
    assert_eq!(last_answer(&mut receiver, &rows), Ok(0));
    assert_eq!(receiver.take(1), Ok((header, vec![42])));
}

#[test]
fn a_cell_turned_by_an_eighth_is_no_increment_of_dbpsk() {
    let sent = rows(&HEADER, &[5]);
    for (row, carrier) in [(0, 0), (5, 35), (12, 17), (13, 0), (16, 20), (20, 35)] {
        let mut received = sent.clone();
        let cell = &mut received[row][carrier];
        *cell = (*cell + 1) % 8;
        let (last, part, place) = if row < 13 {
            (13, Part::Header, row * 36 + carrier)
        } else {
            (21, Part::Payload, (row - 13) * 36 + carrier)
        };
        let mut receiver = listening();
        let fault = Fault { stage: 9, place, depth: 1 };
        let answer = last_answer(&mut receiver, &received[..last]);
        assert_eq!(answer, Err(Refusal::Received(fault, part)));
        assert_eq!(receiver.feed(&sent[0]), Err(Refusal::NotListening));
        assert_eq!(receiver.take(255), Err(Refusal::NoFrame));
    }
}

#[test]
fn a_wrong_row_changes_nothing() {
    let header = Header { fl: 12, tm: 0b10_0000, ..HEADER };
    let mut high = [0; 36];
    let mut receiver = listening();
    for row in rows(&header, &[9]) {
        let in_header = matches!(receiver, Receiver::Header { .. });
        for cells in [&row[..35], &[row.as_slice(), &[0]].concat(), &[]] {
            assert_eq!(receiver.feed(cells), Err(Refusal::Row));
        }
        high[35] = 8;
        assert_eq!(receiver.feed(&high), Err(Refusal::Row));
        high[35] = 0;
        high[29] = if in_header { 8 } else { 9 };
        assert_eq!(receiver.feed(&high), Err(Refusal::Row));
        high[29] = 0;
        receiver.feed(&row).unwrap();
    }
    assert_eq!(receiver.take(1), Ok((header, vec![9])));
}

#[test]
fn a_header_that_is_not_legal_ends_listening() {
    let refusals = [
        (Header { tm: 64 + 63, dt: 4, ..HEADER }, Refusal::ToneMap),
        (Header { tm: 256 + 63, ..HEADER }, Refusal::ToneMap),
        (Header { tm: 0, fl: 0, ..HEADER }, Refusal::ToneMap),
        (Header { dt: 4, fl: 0, ..HEADER }, Refusal::Reserved),
        (Header { fl: 1, ..HEADER }, Refusal::BlockTooShort),
        (Header { fl: 0, ..HEADER }, Refusal::BlockTooShort),
        (Header { fl: 29, ..HEADER }, Refusal::BlockTooLong),
    ];
    for (header, refusal) in refusals {
        let mut receiver = listening();
        assert_eq!(last_answer(&mut receiver, &header_rows(&header)), Err(refusal));
        assert_eq!(receiver, Receiver::Idle);
    }
}

#[test]
fn a_start_drops_rows_and_an_untaken_frame_and_a_refused_one_does_not() {
    let sent = rows(&HEADER, &[5]);
    let mut receiver = listening();
    assert_eq!(last_answer(&mut receiver, &sent[..17]), Ok(4));
    assert_eq!(receiver.start(&[8; 36]), Err(Refusal::Reference));
    assert_eq!(receiver.start(&[0; 35]), Err(Refusal::Reference));
    assert_eq!(receiver.feed(&sent[17]), Ok(3));
    receiver.start(&REFERENCE).unwrap();
    assert_eq!(last_answer(&mut receiver, &sent), Ok(0));
    assert_eq!(receiver.start(&[9; 36]), Err(Refusal::Reference));
    assert_eq!(receiver.feed(&sent[0]), Err(Refusal::NotListening));
    assert_eq!(receiver.take(0), Err(Refusal::Room));
    receiver.start(&REFERENCE).unwrap();
    assert_eq!(receiver.take(1), Err(Refusal::NoFrame));
    assert_eq!(last_answer(&mut receiver, &sent), Ok(0));
    assert_eq!(receiver.take(1), Ok((HEADER, vec![5])));
    assert_eq!(receiver.take(1), Err(Refusal::NoFrame));
    assert_eq!(receiver.feed(&sent[0]), Err(Refusal::NotListening));
}
