//! End marks between phrases: marks as items, which of them a section reaches,
//! and what plays up to there.

mod shared;

use second::file::open;
use second::item::{read_sequence, Item, Voice};
use second::play::Performance;
use shared::*;

#[test]
fn marks_are_items() {
    let body = joined(&[&note(5, 1), &MARK, &note(3, 2), &MARK, &MARK, &rest(2)]);
    let sequence = read_sequence(&body, Voice::Score).unwrap();
    let placed = |items: &[Item]| -> Vec<(usize, u64)> {
        items.iter().map(|item| (item.start, item.onset)).collect()
    };
    assert_eq!(placed(&sequence.marks), [(3, 5), (10, 8), (14, 8)]);
    let items = [(0, 5), (3, 5), (7, 8), (10, 8), (14, 8), (18, 10)];
    assert_eq!(placed(&sequence.items), items);
    assert_eq!(sequence.addresses, [0, 3, 7, 10, 14, 18, 21]);
    let times = [0, 5, 5, 8, 8, 8, 10];
    for (address, time) in sequence.addresses.iter().zip(times) {
        assert_eq!(sequence.time_of(*address as u32), time);
    }
}

#[test]
fn a_mark_stands_wherever_an_item_may() {
    let bodies = [
        joined(&[&MARK]),
        joined(&[&MARK, &MARK]),
        joined(&[&MARK, &note(1, 1)]),
        joined(&[&note(1, 1), &MARK, &note(1, 2)]),
        joined(&[&note(1, 1), &MARK, &MARK, &note(1, 2), &MARK]),
    ];
    for body in bodies {
        assert_eq!(refusal(&stream(&[], &body)), (0, 0), "{body:02x?}");
        let list = [(b"Atsq", &body[..]), (b"Awa\x01", &[])];
        assert_eq!(refusal(&pcm(STREAM, &list)), (0, 0), "{body:02x?}");
    }
}

/// Each mark's first byte is an address, and its other bytes are none.
#[test]
fn marks_have_addresses() {
    let body = joined(&[&note(1, 1), &MARK, &MARK, &note(1, 2)]);
    for address in 0..=15 {
        let expected = if [0, 3, 7, 11, 14].contains(&address) { (0, 0) } else { (13, 43) };
        assert_eq!(refusal(&stream(&point(b"st", address), &body)), expected, "{address}");
        assert_eq!(refusal(&stream(&point(b"sp", address), &body)), expected, "{address}");
    }
}

#[test]
fn a_stream_stops_at_its_first_mark() {
    let body = joined(&[&note(5, 1), &rest(2), &MARK, &note(3, 2), &MARK, &note(4, 3)]);
    let (first, second) = (vec![(5, 1)], vec![(3, 2)]);
    assert_eq!(notes(&stream(&[], &body)), (first.clone(), 7));
    assert_eq!(notes(&stream(&point(b"sp", 20), &body)), (first, 7));
    assert_eq!(notes(&stream(&point(b"st", 10), &body)), (second.clone(), 3));
    let both = entries(&[point(b"st", 10), point(b"sp", 20)]);
    assert_eq!(notes(&stream(&both, &body)), (second, 3));
    assert_eq!(notes(&stream(&point(b"st", 17), &body)), (vec![(0, 2), (4, 3)], 4));
}

#[test]
fn a_mark_after_each_phrase_is_not_reached() {
    let all = vec![(1, 3), (11, 1), (21, 2), (31, 2)];
    assert_eq!(notes(&karaoke(b"cabb")), (all, 40));
    assert_eq!(notes(&karaoke(b"")), (vec![], 0));
}

#[test]
fn playing_as_a_whole_stops() {
    assert_eq!(notes(&karaoke(b"S")), (vec![(1, 2)], 10));
    assert_eq!(notes(&karaoke(b"Sab")), (vec![(1, 2)], 10));
    assert_eq!(notes(&karaoke(b"aSb")), (vec![(1, 1), (11, 2)], 20));
    assert_eq!(notes(&karaoke(b"aSS")), (vec![(1, 1), (11, 2)], 20));
    assert_eq!(notes(&karaoke(b"acS")), (vec![(1, 1), (11, 3), (21, 2)], 30));
}

#[test]
fn letters_outside_the_points_do_not_stop() {
    let line = |name: u8| [note(1, name), rest(9), MARK.to_vec()].concat();
    let body = [line(1), line(2)].concat();
    let file = |points: &[u8]| {
        let phrases = [points.to_vec(), phrase(b'a', 0, 6), phrase(b'S', 0, 16)];
        song(&phrases, b"SaaS", &body)
    };
    assert_eq!(notes(&file(b"st:\x00")), (vec![(1, 1)], 10));
    assert_eq!(notes(&file(b"st:\x01")), (vec![(1, 1), (11, 1), (21, 1)], 30));
    assert_eq!(notes(&file(b"st:\x01,sp:\x03")), (vec![(1, 1), (11, 1)], 20));
}

/// Two notes at the mark's onset stand before it, one behind it.
#[test]
fn what_stands_before_the_mark_plays() {
    let body = joined(&[&note(5, 1), &note(0, 2), &MARK, &note(0, 3), &rest(4)]);
    let two = (vec![(5, 1), (5, 2)], 5);
    assert_eq!(notes(&stream(&[], &body)), two);
    assert_eq!(notes(&stream(&point(b"sp", 16), &body)), two);
    assert_eq!(notes(&song(&[phrase(b'a', 0, 16)], b"aa", &body)), two);
}

/// Times go by addresses, and a mark is reached by its own.
#[test]
fn marks_at_the_start_time() {
    let body = joined(&[&note(5, 1), &MARK, &note(0, 2), &MARK, &note(0, 3), &rest(4)]);
    let from = |start: u32| notes(&stream(&point(b"st", start), &body));
    assert_eq!(from(0), (vec![(5, 1)], 5));
    assert_eq!(from(3), (vec![(0, 1)], 0));
    assert_eq!(from(7), (vec![(0, 1), (0, 2)], 0));
    assert_eq!(from(10), (vec![(0, 1), (0, 2)], 0));
    assert_eq!(from(14), (vec![(0, 1), (0, 2), (0, 3)], 4));
    assert_eq!(from(17), (vec![(0, 1), (0, 2), (0, 3)], 4));
    assert_eq!(from(20), (vec![], 0));
}

/// The mark stands before the stop's address, but its onset is the stop's time.
#[test]
fn marks_at_the_stop_time() {
    let body = joined(&[&note(1, 1), &rest(4), &MARK, &note(0, 2), &rest(1), &MARK]);
    for stop in [6, 10, 13] {
        let file = song(&[phrase(b'a', 0, stop)], b"aa", &body);
        assert_eq!(notes(&file), (vec![(1, 1), (6, 1)], 10), "stop {stop}");
    }
    let file = song(&[phrase(b'a', 0, 16)], b"aa", &body);
    assert_eq!(notes(&file), (vec![(1, 1)], 5));
    let empty = song(&[phrase(b'a', 6, 10), phrase(b'b', 0, 6)], b"ab", &body);
    assert_eq!(notes(&empty), (vec![(1, 1)], 5));
}

/// At the last onset a mark is reached where there is no stop.
#[test]
fn without_a_stop_every_onset_is_reached() {
    let body = joined(&[&note(5, 1), &MARK, &note(0, 2)]);
    assert_eq!(notes(&stream(&[], &body)), (vec![(5, 1)], 5));
    assert_eq!(notes(&stream(&point(b"st", 3), &body)), (vec![(0, 1)], 0));
    assert_eq!(notes(&stream(&point(b"st", 7), &body)), (vec![(0, 1), (0, 2)], 0));
    assert_eq!(notes(&stream(&point(b"sp", 10), &body)), (vec![], 5));
}

#[test]
fn marks_alone() {
    assert_eq!(notes(&stream(&[], &[0; 8])), (vec![], 0));
    assert_eq!(plain(&stream(&[], &[0; 8])), MARK);
    let file = song(&[phrase(b'a', 0, 8), phrase(b'b', 4, 4)], b"abab", &[0; 8]);
    assert_eq!(notes(&file), (vec![], 0));
}

/// The plain form goes as far as playing does, and its one mark is its last
/// item.
#[test]
fn the_plain_form_has_one_mark() {
    let line = [note(1, 1), rest(9), MARK.to_vec()].concat();
    assert_eq!(plain(&stream(&[], &[&line[..], &line].concat())), line);
    let twice = [note(1, 1), note(10, 2), rest(9), MARK.to_vec()].concat();
    assert_eq!(plain(&karaoke(b"ab")), twice);
    assert_eq!(plain(&karaoke(b"aSc")), twice);
    let file = stream(&[], &twice);
    assert_eq!(plain(&file), twice);
}

/// 60,000 letters, of which the first, a middle or the last one stops: none
/// behind it is looked at.
#[test]
fn long_lists_end_where_they_stop() {
    let body = joined(&[&note(0, 1), &rest(1), &MARK, &rest(1)]);
    let phrases = [phrase(b'a', 0, 6), phrase(b'S', 0, 13)];
    for place in [0, 1, 30_000, 59_999] {
        let mut list = vec![b'a'; 60_000];
        list[place] = b'S';
        let file = song(&phrases, &list, &body);
        let melody = open(&file, file.len() as u32).unwrap();
        let performance = Performance::of(&melody.tracks[0].1).unwrap();
        assert_eq!(performance.order.len(), place + 1);
        let (rows, end) = notes(&file);
        assert_eq!((rows.len(), end), (place + 1, place as u64 + 1));
    }
}

/// What the tunes with end marks play, by how many rows and where they end.
#[test]
fn tunes_with_marks() {
    let expected = [
        ("karaoke", 5 + 5 + 12 + 5 + 12 + 5, 6 * 288),
        ("karaoke_without_points", 5, 288),
        ("stopped_order", 5 + 5 + 12, 3 * 288),
        ("another_makers_file", 1, 150),
    ];
    let tunes = second::tunes::all();
    for (name, rows, end) in expected {
        let tune = tunes.iter().find(|tune| tune.name == name).expect("it is a tune");
        let melody = open(&tune.file, tune.file.len() as u32).unwrap();
        assert!(melody.verdict, "{name}");
        assert!(melody.tracks[0].1.sequence.marks.len() > 1, "{name}");
        let (played, last) = played(&tune.file);
        assert_eq!((played.len(), last), (rows, end), "{name}");
    }
}
