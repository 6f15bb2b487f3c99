//! Ticket 3 and its points 8 to 12, in vectors made by hand: what the writer
//! takes, what it gives, and what it refuses, where and in which order.

mod shared;

use second::case::{answer_stream, Case, Operation};
use second::check_code::check_code;
use second::check_writer::{body_reads_back, file_reads_back};
use second::description::{BodyDescription, Description, ItemTable, ScoreTrack, SeekEntry};
use second::frame::{chunk, whole_file};
use second::item::Voice;
use second::tune::worked_tune;
use second::word::{Word, WordItem};
use second::write::{write_body, write_file};
use shared::*;

const ROOM: usize = 70_000;

const NOTE_WORD: u32 = 0x0852_0050;
const SHORT_BEND: u32 = 12 << 27 | 7 << 17;

fn item(duration: u32, word: u32) -> WordItem {
    WordItem { duration, word: Word(word) }
}

fn nop(duration: u32) -> WordItem {
    item(duration, 15 << 27)
}

fn end_mark() -> WordItem {
    item(0, 16 << 27)
}

fn table(items: &[WordItem]) -> ItemTable {
    ItemTable { items: items.to_vec(), source: Vec::new() }
}

fn track(number: u8, sequence_type: u8, entries: &[SeekEntry], items: &[WordItem]) -> ScoreTrack {
    let fixed = [0, sequence_type, 2, 2, 0, 0];
    ScoreTrack { number, fixed, entries: entries.to_vec(), table: table(items) }
}

fn described(tracks: &[ScoreTrack]) -> Description {
    Description { contents: [1, 2, 3, 4, 5], tracks: tracks.to_vec() }
}

/// A stream of one note with number 0.
fn plain_track() -> ScoreTrack {
    track(0, STREAM, &[], &[item(0, NOTE_WORD)])
}

fn numbered(numbers: &[u8]) -> Vec<ScoreTrack> {
    numbers.iter().map(|number| ScoreTrack { number: *number, ..plain_track() }).collect()
}

/// The refusal of these tracks with room for anything.
fn refused(tracks: &[ScoreTrack]) -> (u32, usize) {
    outcome(write_file(&described(tracks), ROOM))
}

/// The refusal of a stream with these items, and of a body of them.
fn refused_items(items: &[WordItem], source: &[u8]) -> (u32, usize) {
    let table = ItemTable { items: items.to_vec(), source: source.to_vec() };
    let body = BodyDescription { voice: Voice::Score, table: table.clone() };
    let of_body = outcome(write_body(&body, ROOM));
    let of_file = refused(&[plain_track(), ScoreTrack { number: 1, table, ..plain_track() }]);
    assert_eq!(of_file, if of_body.0 == 0 { (0, 0) } else { (of_body.0, 1) });
    of_body
}

fn refused_word(duration: u32, word: u32) -> u32 {
    refused_items(&[nop(3), item(duration, word)], &[]).0
}

fn refused_pcm(items: &[WordItem]) -> (u32, usize) {
    outcome(write_body(&BodyDescription { voice: Voice::Pcm, table: table(items) }, ROOM))
}

/// The refusal of a track over the note (3 bytes), a mark (4) and a NOP (3).
fn refused_entries(sequence_type: u8, entries: &[SeekEntry]) -> u32 {
    let items = [item(0, NOTE_WORD), end_mark(), nop(5)];
    let (number, place) = refused(&[plain_track(), track(9, sequence_type, entries, &items)]);
    assert_eq!(place, usize::from(number > 0));
    number
}

fn tune_description() -> Description {
    let items =
        [item(0, 0x180A_0000), item(10, NOTE_WORD), item(258, 0x0858_0200), nop(32), end_mark()];
    let entries = [
        SeekEntry::phrase(b'A', 0, 7),
        SeekEntry::phrase(b'S', 7, 15),
        SeekEntry::list(b"ASS".to_vec()),
    ];
    Description { contents: [0; 5], tracks: vec![track(0, PHRASES, &entries, &items)] }
}

fn case(operation: Operation, row: u32, room: u32, buffer: &[u8]) -> Case {
    let stated = if operation.reads_file() { buffer.len() as u32 } else { 0 };
    Case { operation, stated, row, room, buffer: buffer.to_vec() }
}

fn hex(bytes: &[u8]) -> String {
    bytes.iter().map(|byte| format!("{byte:02x}")).collect()
}

fn answers(cases: &[u8]) -> String {
    let mut text = String::new();
    answer_stream(cases, |answer| text.push_str(answer));
    text
}

#[test]
fn the_tune_is_written() {
    let tune = worked_tune();
    assert_eq!(write_file(&tune_description(), tune.len()), Ok(tune.clone()));
    let expected = format!("bytes 102\n{}\n-- kept\n", hex(&tune));
    let buffer = tune_description().bytes();
    assert_eq!(case(Operation::Write, 0, 102, &buffer).answer_text(), expected);
    assert_eq!(case(Operation::Write, 0, 101, &buffer).answer_text(), "refused 24 0\n-- kept\n");
}

#[test]
fn the_tune_is_given() {
    let items = "rows 5\n0 180a0000\n10 08520050\n258 08580200\n32 78000000\n0 80000000\n-- kept\n";
    assert_eq!(case(Operation::Items, 2, 5, &worked_tune()).answer_text(), items);
    let entries = "rows 3\n2 41 0 7\n2 53 7 15\n3 00 3 0\n415353\n-- kept\n";
    assert_eq!(case(Operation::Entries, 2, 3, &worked_tune()).answer_text(), entries);
    for (operation, room) in [(Operation::Items, 4), (Operation::Entries, 2)] {
        let short = case(operation, 2, room, &worked_tune());
        assert_eq!(short.answer_text(), "refused 15 0\n-- kept\n");
        let other_row = case(operation, 3, 0, &worked_tune());
        assert_eq!(other_row.answer_text(), "refused 16 0\n-- kept\n");
    }
}

/// A description byte by byte.
#[test]
fn descriptions_are_read() {
    let bytes = [
        &[1, 2, 3, 4, 5, 1][..],
        &[7, 0, 1, 2, 2, 0x80, 0x90],
        &[0, 3],
        &[1, 0xAA, 0, 0, 0, 0, 0xBB, 0xBB, 0xBB, 0xBB],
        &[2, b'k', 0, 0, 0, 0, 0, 0, 0, 3],
        &[3, 0xCC, 0, 0, 0, 2, 0xDD, 0xDD, 0xDD, 0xDD, b'k', b'k'],
        &[0, 0, 0, 1, 0, 0, 0, 10, 0x08, 0x52, 0x00, 0x50],
        &[0, 0, 0, 2, 0xEE, 0xEE],
    ]
    .concat();
    let description = Description::from_bytes(&bytes).unwrap();
    let entries = [
        SeekEntry { letter: 0xAA, to: 0xBBBB_BBBB, ..SeekEntry::stop(0) },
        SeekEntry::phrase(b'k', 0, 3),
        SeekEntry { letter: 0xCC, to: 0xDDDD_DDDD, ..SeekEntry::list(b"kk".to_vec()) },
    ];
    let mut expected = track(7, PHRASES, &entries, &[item(10, NOTE_WORD)]);
    expected.fixed = [0, 1, 2, 2, 0x80, 0x90];
    expected.table.source = vec![0xEE, 0xEE];
    assert_eq!(description, described(&[expected]));
    assert_eq!(description.bytes(), bytes);
    let sequence = chunk(b"Mtsq", &[10, 0x29, 0x14]);
    let seek = chunk(b"MspI", b"sp:\0,Pk:\0\0\0\0\0\0\0\x03,SL:kk");
    let track = chunk(b"MTR\x07", &[&[0, 1, 2, 2, 0x80, 0x90][..], &seek, &sequence].concat());
    let file = whole_file(&[chunk(b"CNTI", &[1, 2, 3, 4, 5]), track].concat());
    assert_eq!(write_file(&description, ROOM), Ok(file));
}

#[test]
fn cut_descriptions_are_bad_cases() {
    let body = BodyDescription { voice: Voice::Pcm, table: table(&[nop(1)]) };
    let cases =
        [(Operation::Write, tune_description().bytes()), (Operation::WriteBody, body.bytes())];
    for (operation, buffer) in cases {
        let whole = answers(&case(operation, 0, 102, &buffer).bytes());
        assert!(whole.starts_with("bytes "));
        for length in 0..buffer.len() {
            let cut = case(operation, 0, 102, &buffer[..length]);
            assert_eq!(answers(&cut.bytes()), "bad case\n", "{length} bytes");
        }
        let longer = case(operation, 0, 102, &[&buffer[..], &[0xFF; 3]].concat());
        assert_eq!(answers(&longer.bytes()), whole);
        let other_numbers = Case { stated: 5, row: u32::MAX, ..case(operation, 0, 102, &buffer) };
        assert_eq!(answers(&other_numbers.bytes()), whole);
    }
    let no_voice = [&[2][..], &body.bytes()[1..]].concat();
    assert_eq!(answers(&case(Operation::WriteBody, 0, 102, &no_voice).bytes()), "bad case\n");
    let huge_counts = [&[0; 5][..], &[1], &[0; 7], &[0, 0], &[0xFF; 40]].concat();
    assert_eq!(answers(&case(Operation::Write, 0, 0, &huge_counts).bytes()), "bad case\n");
}

#[test]
fn the_largest_descriptions() {
    for operation in [Operation::Write, Operation::WriteBody] {
        let largest = case(operation, 0, 0, &vec![0; 300_000]);
        assert!(answers(&largest.bytes()).starts_with("refused "));
        let larger = case(operation, 0, 0, &vec![0; 300_001]);
        assert_eq!(answers(&larger.bytes()), "bad case\n");
    }
    for operation in [Operation::Items, Operation::Entries] {
        let larger = case(operation, 0, 0, &vec![0; 70_001]);
        assert_eq!(answers(&larger.bytes()), "bad case\n");
    }
}

/// Point 8: every kind of word and the bytes that it makes.
#[test]
fn words_and_their_bytes() {
    let control = |kind: u32, value: u32| item(0, kind << 27 | 2 << 25 | value << 17);
    let source = [9, 9, 9, 0x43, 0x02, 0xF7];
    let exclusive = (14 << 27) | (3 << 3);
    let pairs: [(WordItem, &[u8]); 20] = [
        (item(127, NOTE_WORD), &[0x7F, 0x29, 0x14]),
        (item(128, 1 << 27 | 3 << 25 | 0x3C << 17 | 128 << 2), &[0x80, 0x00, 0xFC, 0x80, 0x00]),
        (item(16_511, 1 << 27 | 1 << 17 | 16_511 << 2), &[0xFF, 0x7F, 0x01, 0xFF, 0x7F]),
        (item(0, 1 << 27 | 1 << 17 | 127 << 2), &[0x00, 0x01, 0x7F]),
        (control(3, 0x7F), &[0x00, 0x00, 0xB0, 0x7F]),
        (control(4, 0xFF), &[0x00, 0x00, 0xB1, 0xFF]),
        (control(5, 0x84), &[0x00, 0x00, 0xB2, 0x84]),
        (control(6, 0), &[0x00, 0x00, 0xB3, 0x00]),
        (control(7, 1), &[0x00, 0x00, 0xB4, 0x01]),
        (control(8, 2), &[0x00, 0x00, 0xB7, 0x02]),
        (control(9, 3), &[0x00, 0x00, 0xBA, 0x03]),
        (control(10, 4), &[0x00, 0x00, 0xBB, 0x04]),
        (control(11, 14), &[0x00, 0x00, 0xAE]),
        (control(12, 1), &[0x00, 0x00, 0x91]),
        (control(13, 2), &[0x00, 0x00, 0x82]),
        (item(5, exclusive), &[0x05, 0xFF, 0xF0, 0x03, 0x43, 0x02, 0xF7]),
        (nop(0), &[0x00, 0xFF, 0x00]),
        (nop(16_511), &[0xFF, 0x7F, 0xFF, 0x00]),
        (end_mark(), &[0, 0, 0, 0]),
        (item(2, SHORT_BEND), &[0x02, 0x00, 0x17]),
    ];
    let items: Vec<WordItem> = pairs.iter().map(|(item, _)| *item).collect();
    let body: Vec<u8> = pairs.iter().flat_map(|(_, bytes)| bytes.iter().copied()).collect();
    let table = ItemTable { items, source: source.to_vec() };
    let written = write_body(&BodyDescription { voice: Voice::Score, table }, body.len());
    assert_eq!(written, Ok(body));
}

#[test]
fn waves_and_their_bytes() {
    let wave = |number: u32, gate: u32| item(1, 2 << 27 | 1 << 25 | number << 17 | gate << 2);
    let items = [wave(1, 1), end_mark(), wave(62, 16_511), item(0, SHORT_BEND), nop(2)];
    let body = BodyDescription { voice: Voice::Pcm, table: table(&items) };
    let bytes = [
        &[0x01, 0x41, 0x01][..],
        &MARK,
        &[0x01, 0x7E, 0xFF, 0x7F],
        &[0x00, 0x00, 0x17],
        &[0x02, 0xFF, 0x00],
    ];
    assert_eq!(write_body(&body, ROOM), Ok(bytes.concat()));
}

/// Point 9, fault by fault; the good words next to each are let through.
#[test]
fn faults_of_items() {
    let note = |value: u32, gate: u32| 1 << 27 | value << 17 | gate << 2;
    let control = |kind: u32, value: u32| kind << 27 | value << 17;
    for duration in [16_512, 65_536, u32::MAX] {
        assert_eq!(refused_word(duration, NOTE_WORD), 23);
    }
    assert_eq!(refused_word(1, 16 << 27), 23);
    for kind in [0, 2, 17, 18, 31] {
        assert_eq!(refused_word(0, note(0x29, 1) & 0x07FF_FFFF | kind << 27), 22, "kind {kind}");
    }
    for value in [0x00, 0x0D, 0x1E, 0x3F, 0x30, 0x4D] {
        assert_eq!(refused_word(0, note(value, 1)), 21);
    }
    for value in [0x41, 0x4C, 0x81, 0xF1] {
        assert_eq!(refused_word(0, note(value, 1)), 21);
    }
    for (gate, number) in [(0, 21), (1, 0), (16_511, 0), (16_512, 23), (32_767, 23)] {
        assert_eq!(refused_word(0, note(0x3C, gate)), number, "gate {gate}");
    }
    for kind in [3, 6, 7, 8, 9, 10] {
        assert_eq!(refused_word(0, control(kind, 0x7F)), 0);
        assert_eq!(refused_word(0, control(kind, 0x80)), 23);
    }
    assert_eq!(refused_word(0, control(4, 0xFF)), 0);
    for (value, number) in [(4, 0), (5, 23), (0x80, 23), (0x81, 0), (0x84, 0), (0x85, 23)] {
        assert_eq!(refused_word(0, control(5, value)), number, "shift {value}");
    }
    for kind in [11, 12, 13] {
        for (value, number) in [(0, 23), (1, 0), (14, 0), (15, 23), (17, 23), (255, 23)] {
            assert_eq!(refused_word(0, control(kind, value)), number);
        }
    }
}

/// Point 9: the bytes from place + 3 on count, and nothing in front of them.
#[test]
fn faults_of_exclusives() {
    let exclusive = |place: u32, size: u32| item(0, 14 << 27 | place << 11 | size << 3);
    let source = [0, 0, 0, 0x43, 0x02, 0xF7];
    let told = |place, size, source: &[u8]| refused_items(&[exclusive(place, size)], source).0;
    assert_eq!(told(0, 3, &source), 0);
    assert_eq!(told(0, 4, &source), 23);
    assert_eq!(told(1, 3, &source), 23);
    assert_eq!(told(0xFFFF, 3, &source), 23);
    assert_eq!(told(0, 3, &source[..5]), 23);
    assert_eq!(told(0, 3, &[]), 23);
    assert_eq!(told(0, 3, &[0, 0, 0, 0x43, 0x02, 0xF6, 0xF7]), 23);
    assert_eq!(told(1, 3, &[0, 0, 0, 0x43, 0x02, 0xF6, 0xF7]), 0);
    for size in 0..3 {
        assert_eq!(told(0, size, &[0xF7; 9]), 23);
    }
    let largest = [&[0; 257][..], &[0xF7]].concat();
    assert_eq!(told(0, 255, &largest), 0);
    assert_eq!(told(0, 255, &largest[1..]), 23);
}

/// Point 9: any bit that the kind has no use for.
#[test]
fn stray_bits() {
    let source = [0, 0, 0, 0x43, 0x02, 0xF7];
    let unused: [(u32, u32); 6] = [
        (NOTE_WORD, 2),
        (3 << 27, 17),
        (SHORT_BEND, 17),
        (14 << 27 | 3 << 3, 3),
        (15 << 27, 27),
        (16 << 27, 27),
    ];
    for (word, bits) in unused {
        assert_eq!(refused_items(&[item(0, word)], &source), (0, 0));
        for bit in 0..bits {
            let stray = item(0, word | 1 << bit);
            assert_eq!(refused_items(&[nop(0), stray], &source), (23, 1), "bit {bit} of {word:x}");
        }
    }
}

/// Point 9: the first item at fault counts, and in it the first fault.
#[test]
fn which_fault_counts() {
    assert_eq!(refused_word(16_512, 0), 23);
    assert_eq!(refused_word(16_512, 1 << 27), 23);
    assert_eq!(refused_word(0, 3), 22);
    assert_eq!(refused_word(0, 31 << 27 | 0xFFFF), 22);
    assert_eq!(refused_word(0, 1 << 27 | 0x0D << 17 | 32_767 << 2 | 3), 21);
    assert_eq!(refused_word(0, 1 << 27 | 0x29 << 17 | 3), 21);
    assert_eq!(refused_word(1, 16 << 27 | 7), 23);
    let (stray, unknown, forbidden) = (item(0, 15 << 27 | 1), item(0, 0), item(0, 1 << 27 | 4));
    assert_eq!(refused_items(&[nop(0), stray, unknown], &[]), (23, 1));
    assert_eq!(refused_items(&[unknown, stray], &[]), (22, 0));
    assert_eq!(refused_items(&[nop(0), nop(0), forbidden, unknown], &[]), (21, 2));
    assert_eq!(refused_items(&[], &[]), (11, 0));
}

/// The kinds that a PCM body has, and its wave numbers.
#[test]
fn faults_of_pcm_items() {
    for kind in [1, 3, 4, 5, 6, 11] {
        let word = kind << 27 | 1 << 17 | if kind == 1 { 4 } else { 0 };
        assert_eq!(refused_items(&[item(0, word)], &[]), (0, 0));
        assert_eq!(refused_pcm(&[nop(0), item(0, word)]), (22, 1), "kind {kind}");
        assert_eq!(refused_pcm(&[item(16_512, word)]), (23, 0));
    }
    for kind in [7, 8, 9, 10, 12, 13] {
        assert_eq!(refused_pcm(&[item(0, kind << 27 | 14 << 17)]), (0, 0));
    }
    let wave = |number: u32, gate: u32| item(0, 2 << 27 | number << 17 | gate << 2);
    for (number, told) in [(0, 21), (1, 0), (62, 0), (63, 21), (64, 21), (255, 21)] {
        assert_eq!(refused_pcm(&[wave(number, 1)]).0, told);
    }
    for (gate, told) in [(0, 21), (1, 0), (16_511, 0), (16_512, 23)] {
        assert_eq!(refused_pcm(&[wave(13, gate)]).0, told);
    }
    assert_eq!(refused_pcm(&[item(0, wave(63, 0).word.0 | 1)]), (21, 0));
    assert_eq!(refused_pcm(&[item(0, wave(62, 1).word.0 | 1)]), (23, 0));
    assert_eq!(refused_pcm(&[]), (11, 0));
}

/// Point 10, refusal 12.
#[test]
fn faults_of_entries() {
    let (start, stop) = (SeekEntry::start(0), SeekEntry::stop(0));
    let (one, two) = (SeekEntry::phrase(b'a', 0, 3), SeekEntry::phrase(b'R', 3, 7));
    let list = SeekEntry::list(Vec::new());
    let all = [start.clone(), stop.clone(), two.clone(), one.clone(), list.clone()];
    for sequence_type in [STREAM, PHRASES] {
        let told = |entries: &[SeekEntry]| refused_entries(sequence_type, entries);
        assert_eq!(told(&all), 0);
        for (before, after) in [(&start, &stop), (&stop, &one), (&one, &list), (&start, &list)] {
            assert_eq!(told(&[before.clone(), after.clone()]), 0);
            assert_eq!(told(&[after.clone(), before.clone()]), 12);
            assert_eq!(told(&[before.clone(), before.clone()]), 12);
            assert_eq!(told(&[before.clone(), after.clone(), before.clone()]), 12);
        }
        assert_eq!(told(&[list.clone(), list.clone()]), 12);
        for letter in [b'C', b'Z', b'0', 0, b',', b':', 0xE1] {
            assert_eq!(told(&[SeekEntry::phrase(letter, 0, 3)]), 12);
            let letters = vec![b'a', letter, b'a'];
            assert_eq!(told(&[one.clone(), SeekEntry::list(letters)]), 12);
        }
        for kind in [4, 5, 255] {
            assert_eq!(told(&[SeekEntry { kind, ..start.clone() }]), 12);
        }
    }
}

/// Point 10: a point of one byte in a list, of four in a stream.
#[test]
fn widths_of_points() {
    let letters = SeekEntry::list(vec![b'a'; 255]);
    let phrase = SeekEntry::phrase(b'a', 0, 10);
    for point in [SeekEntry::start, SeekEntry::stop] {
        let told =
            |value| refused_entries(PHRASES, &[point(value), phrase.clone(), letters.clone()]);
        assert_eq!((told(255), told(256), told(511), told(u32::MAX)), (0, 12, 12, 12));
        let told = |value| refused_entries(STREAM, &[point(value)]);
        assert_eq!((told(10), told(256), told(u32::MAX)), (0, 13, 13));
    }
    let largest = [&[0; 257][..], &[0xF7]].concat();
    let exclusive = item(0, 14 << 27 | 255 << 3);
    let mut long = track(0, STREAM, &[SeekEntry::stop(259)], &[exclusive, nop(0)]);
    long.table.source = largest;
    assert_eq!(refused(&[long]), (0, 0));
}

/// Point 10: what an entry does not use is not looked at, and not written.
#[test]
fn unused_fields() {
    let junk = |entry: SeekEntry| SeekEntry { letter: b',', to: 0xFFFF_FFFF, ..entry };
    for sequence_type in [STREAM, PHRASES] {
        let clean = [SeekEntry::start(0), SeekEntry::stop(0), SeekEntry::list(Vec::new())];
        let used = described(&[track(1, sequence_type, &clean, &[nop(1)])]);
        let unused = described(&[track(1, sequence_type, &clean.map(junk), &[nop(1)])]);
        assert_eq!(write_file(&unused, ROOM), write_file(&used, ROOM));
        assert!(write_file(&unused, ROOM).is_ok());
    }
}

/// Point 10: 13 and 14 on the body that the items make, addresses 0, 3, 7, 10.
#[test]
fn faults_of_points() {
    for address in 0..=11 {
        let told = if [0, 3, 7, 10].contains(&address) { 0 } else { 13 };
        assert_eq!(refused_entries(STREAM, &[SeekEntry::start(address)]), told);
        assert_eq!(refused_entries(STREAM, &[SeekEntry::stop(address)]), told);
        for sequence_type in [STREAM, PHRASES] {
            let phrase = SeekEntry::phrase(b'a', address, 10);
            assert_eq!(refused_entries(sequence_type, &[phrase]), told);
            let phrase = SeekEntry::phrase(b'a', 0, address);
            assert_eq!(refused_entries(sequence_type, &[phrase]), told);
        }
    }
    let points = |start, stop| [SeekEntry::start(start), SeekEntry::stop(stop)];
    assert_eq!(refused_entries(STREAM, &points(7, 7)), 0);
    assert_eq!(refused_entries(STREAM, &points(7, 3)), 13);
    assert_eq!(refused_entries(PHRASES, &[SeekEntry::phrase(b'a', 7, 3)]), 13);
    let listed = |start, stop, letters: &[u8]| {
        let [start, stop] = points(start, stop);
        let list = SeekEntry::list(letters.to_vec());
        refused_entries(PHRASES, &[start, stop, SeekEntry::phrase(b'a', 0, 3), list])
    };
    assert_eq!(listed(2, 2, b"aa"), 0);
    assert_eq!(listed(3, 2, b"aa"), 13);
    assert_eq!(listed(2, 3, b"aa"), 13);
    assert_eq!(listed(2, 1, b"aa"), 13);
    assert_eq!(listed(0, 0, b"aab"), 14);
    assert_eq!(listed(1, 0, b"aab"), 13);
    assert_eq!(refused_entries(PHRASES, &[SeekEntry::start(1)]), 13);
    assert_eq!(refused_entries(STREAM, &[SeekEntry::list(b"ab".to_vec())]), 0);
}

/// Refusal 8, for format types that the reader leaves closed too.
#[test]
fn faults_of_fixed_bytes() {
    let with = |place: usize, value: u8| {
        let mut bad = ScoreTrack { number: 1, ..plain_track() };
        bad.fixed[place] = value;
        refused(&[plain_track(), bad])
    };
    for format in [1, 2, 3, 255] {
        assert_eq!(with(0, format), (8, 1));
    }
    assert_eq!((with(1, 1), with(1, 2), with(1, 255)), ((0, 0), (8, 1), (8, 1)));
    for place in [2, 3] {
        for code in 0..=255 {
            let known = [0x00, 0x01, 0x02, 0x03, 0x10, 0x11, 0x12, 0x13].contains(&code);
            assert_eq!(with(place, code), if known { (0, 0) } else { (8, 1) });
        }
    }
    assert_eq!((with(4, 255), with(5, 255)), ((0, 0), (0, 0)));
}

/// Point 11: 6 at the first track whose number stood before.
#[test]
fn numbers_that_come_again() {
    assert_eq!(refused(&numbered(&[7, 1, 1, 7])), (6, 2));
    assert_eq!(refused(&numbered(&[7, 1, 7, 1])), (6, 2));
    assert_eq!(refused(&numbered(&[0, 255, 1, 255])), (6, 3));
    assert_eq!(refused(&numbered(&[5, 5])), (6, 1));
    assert_eq!(refused(&numbered(&[255, 0, 128, 127])), (0, 0));
}

/// Point 11: one thing after the other is mended, and the next one is told.
#[test]
fn order_in_one_track() {
    let entries = [SeekEntry::start(1), SeekEntry::stop(300), SeekEntry::list(vec![b'a'])];
    let mut bad = track(9, PHRASES, &entries, &[]);
    bad.fixed[3] = 4;
    let told = |bad: &ScoreTrack| {
        let tracks = [&numbered(&[4])[..], std::slice::from_ref(bad)].concat();
        outcome(write_file(&described(&tracks), 0))
    };
    assert_eq!(told(&bad), (8, 1));
    bad.fixed[3] = 3;
    assert_eq!(told(&bad), (11, 1));
    bad.table.items = vec![item(0, 0)];
    assert_eq!(told(&bad), (22, 1));
    bad.table.items = vec![nop(0)];
    assert_eq!(told(&bad), (12, 1));
    bad.entries[1] = SeekEntry::stop(2);
    assert_eq!(told(&bad), (13, 1));
    bad.entries[1] = SeekEntry::stop(1);
    assert_eq!(told(&bad), (14, 1));
    bad.entries.insert(2, SeekEntry::phrase(b'a', 0, 0));
    assert_eq!(told(&bad), (24, 0));
}

/// Point 11: 6 before the faults of tracks, these track by track, 24 behind all.
#[test]
fn order_of_tracks() {
    let late = track(1, PHRASES, &[SeekEntry::list(vec![b'a'])], &[nop(0)]);
    let early = track(2, 9, &[], &[]);
    let told = |tracks: &[ScoreTrack]| outcome(write_file(&described(tracks), 0));
    assert_eq!(told(&[]), (7, 0));
    assert_eq!(told(&[late.clone(), early.clone()]), (14, 0));
    assert_eq!(told(&[early.clone(), late.clone()]), (8, 0));
    assert_eq!(told(&[plain_track(), late.clone(), early.clone()]), (14, 1));
    assert_eq!(told(&[early.clone(), late.clone(), early.clone()]), (6, 2));
    let many: Vec<ScoreTrack> = numbered(&(3..=18).collect::<Vec<u8>>());
    assert_eq!(told(&[&many[..], std::slice::from_ref(&late)].concat()), (14, 16));
    assert_eq!(told(&[&many[..], &[many[0].clone(), late]].concat()), (6, 16));
}

#[test]
fn sixteen_tracks_and_no_more() {
    for (count, told) in [(1, (0, 0)), (16, (0, 0)), (17, (24, 0)), (255, (24, 0))] {
        let numbers: Vec<u8> = (0..count).collect();
        assert_eq!(refused(&numbered(&numbers)), told, "{count} tracks");
    }
}

/// A file of one note: header 8, contents 13, track 14, sequence 11, code 2.
#[test]
fn room_for_the_whole_file() {
    let description = described(&[plain_track()]);
    assert_eq!(write_file(&description, 48).map(|file| file.len()), Ok(48));
    assert_eq!(outcome(write_file(&description, 47)), (24, 0));
    assert_eq!(outcome(write_file(&description, 46)), (24, 0));
    assert_eq!(outcome(write_file(&description, 0)), (24, 0));
}

/// Items of so many bytes: exclusives of 259 and smaller ones.
fn items_of_length(length: usize) -> ItemTable {
    let exclusive =
        |size: usize| item(0, 14 << 27 | (255 - size as u32) << 11 | (size as u32) << 3);
    let last = 7 + (length - 7) % 259;
    let mut items = vec![exclusive(255); (length - last) / 259];
    match last {
        260.. => items.extend([nop(0), nop(0), nop(0), exclusive(last - 9 - 4)]),
        _ => items.push(exclusive(last - 4)),
    }
    ItemTable { items, source: [&[0; 257][..], &[0xF7]].concat() }
}

#[test]
fn the_largest_file_and_body() {
    for (length, told) in [(65_535, (0, 0)), (65_536, (0, 0)), (65_537, (24, 0))] {
        let long = ScoreTrack { table: items_of_length(length - 45), ..plain_track() };
        assert_eq!(refused(std::slice::from_ref(&long)), told, "{length} bytes");
        let of_file = outcome(write_file(&described(&[long]), length - 1));
        assert_eq!(of_file, (24, 0));
        for voice in [Voice::Score, Voice::Pcm] {
            let body = BodyDescription { voice, table: items_of_length(length) };
            assert_eq!(outcome(write_body(&body, length)), told, "{length} bytes");
            assert_eq!(outcome(write_body(&body, length - 1)), (24, 0));
        }
    }
    let mut faulty = BodyDescription { voice: Voice::Score, table: items_of_length(65_537) };
    faulty.table.items.push(item(0, 0));
    let last = faulty.table.items.len() - 1;
    assert_eq!(outcome(write_body(&faulty, 0)), (22, last));
}

/// Point 12: every readable track, PCM and without a list too; other rows are 16.
#[test]
fn what_is_given_back() {
    let note = [0x05, 0x45, 0x07];
    let given = |operation, row, file: &[u8]| case(operation, row, 9, file).answer_text();
    let waves: [Leaf; 2] = [(b"Atsq", &note), (b"Awa\x01", &[])];
    let file = pcm(STREAM, &waves);
    assert_eq!(given(Operation::Items, 2, &file), "rows 1\n5 120a001c\n-- kept\n");
    assert_eq!(given(Operation::Entries, 2, &file), "rows 0\n-- kept\n");
    for row in [0, 1, 3, 4, 5, u32::MAX] {
        assert_eq!(given(Operation::Items, row, &file), "refused 16 0\n-- kept\n");
        assert_eq!(given(Operation::Entries, row, &file), "refused 16 0\n-- kept\n");
    }
    let file = score(PHRASES, &[(b"MspI", b"st:\0,sp:\0,SL:,"), (b"Mtsq", &[0, 0, 0, 0])]);
    let entries = "rows 3\n0 00 0 0\n1 00 0 0\n3 00 0 0\n\n-- kept\n";
    assert_eq!(given(Operation::Entries, 2, &file), entries);
    let file = score(PHRASES, &[(b"Mtsq", &[0x00, 0x29, 0x14])]);
    assert_eq!(given(Operation::Items, 2, &file), "rows 1\n0 08520050\n-- kept\n");
    assert_eq!(given(Operation::Entries, 2, &file), "rows 0\n-- kept\n");
    let file = score(PHRASES, &[(b"MspI", b"SL:a"), (b"Mtsq", &[0; 4])]);
    assert_eq!(given(Operation::Items, 9, &file), "refused 14 46\n-- kept\n");
}

/// An exclusive is given by the place of its FF byte in the body.
#[test]
fn exclusives_that_are_given_back() {
    let body = [0x80, 0x00, 0xFF, 0xF0, 0x03, 0x43, 0x02, 0xF7];
    let file = score(STREAM, &[(b"Mtsq", &body)]);
    let text = case(Operation::Items, 2, 1, &file).answer_text();
    assert_eq!(text, "rows 1\n128 70001018\n-- kept\n");
    let table = ItemTable { items: vec![item(128, 0x7000_1018)], source: body.to_vec() };
    let description = BodyDescription { voice: Voice::Score, table };
    assert_eq!(write_body(&description, 8), Ok(body.to_vec()));
}

/// Files that a wrong reading of the ticket would give are not what is written,
/// and the checks find each of them.
#[test]
fn wrong_files_are_found() {
    let description = tune_description();
    let tune = worked_tune();
    assert_eq!(file_reads_back(&description, &tune), Ok(()));
    let fixed = [0, 1, 2, 2, 0, 0];
    let (seek, sequence) = (&tune[35..73], &tune[73..100]);
    let file = |list: &[u8]| {
        let track = chunk(b"MTR\0", &[&fixed[..], list].concat());
        whole_file(&[chunk(b"CNTI", &[0; 5]), track].concat())
    };
    let without_colon: Vec<u8> = [&seek[8..32], &b"SLASS"[..]].concat();
    let mut early_code = tune.clone();
    early_code[100..].copy_from_slice(&check_code(&tune[..73]).to_be_bytes());
    let mut short_size = tune.clone();
    short_size[7] -= 2;
    let wrong = [
        (early_code, "the written file has the verdict no"),
        (short_size, "the written file is refused: refused 3 4"),
        (file(&[sequence, seek].concat()), "the written file has other chunks"),
        (file(sequence), "the written file has other chunks"),
        (
            file(&[&chunk(b"MspI", &without_colon)[..], sequence].concat()),
            "the written file is refused: refused 12 67",
        ),
        (
            file(&[&chunk(b"MspI", b"SL:")[..], sequence].concat()),
            "a written track has other seek entries",
        ),
    ];
    for (other, what) in wrong {
        assert_ne!(Ok(other.clone()), write_file(&description, ROOM));
        assert_eq!(file_reads_back(&description, &other), Err(String::from(what)));
    }
}

#[test]
fn no_seek_chunk_without_entries() {
    let description = described(&[plain_track()]);
    let written = write_file(&description, ROOM).unwrap();
    let sequence = chunk(b"Mtsq", &[0x00, 0x29, 0x14]);
    let with_seek = |seek: &[u8]| {
        let track = chunk(b"MTR\0", &[&plain_track().fixed[..], seek, &sequence].concat());
        whole_file(&[chunk(b"CNTI", &[1, 2, 3, 4, 5]), track].concat())
    };
    assert_eq!(written, with_seek(&[]));
    let empty = with_seek(&chunk(b"MspI", b""));
    let told = file_reads_back(&description, &empty).unwrap_err();
    assert_eq!(told, "the written file is refused: refused 12 43");
}

#[test]
fn other_contents_and_items_are_found() {
    let tune = worked_tune();
    let told = |change: fn(&mut Description)| {
        let mut description = tune_description();
        change(&mut description);
        file_reads_back(&description, &tune).unwrap_err()
    };
    assert_eq!(told(|other| other.contents[4] = 1), "the written file has other contents");
    assert_eq!(told(|other| other.tracks[0].number = 1), "the written file has other chunks");
    assert_eq!(told(|other| other.tracks.clear()), "the written file has other chunks");
    let fixed = "a written track has other fixed bytes";
    assert_eq!(told(|other| other.tracks[0].fixed[5] = 1), fixed);
    let items = "a written track has other items";
    assert_eq!(told(|other| other.tracks[0].table.items[1].duration = 9), items);
    assert_eq!(told(|other| other.tracks[0].table.items.truncate(4)), items);
    let entries = "a written track has other seek entries";
    assert_eq!(told(|other| other.tracks[0].entries[0].to = 0), entries);
    let mut unused = tune_description();
    unused.tracks[0].entries[2].to = 5;
    assert_eq!(file_reads_back(&unused, &tune), Ok(()));
}

#[test]
fn other_bodies_are_found() {
    let source = [7, 7, 7, 0x43, 0x02, 0xF7];
    let items = vec![item(1, 14 << 27 | 3 << 3), nop(2)];
    let table = ItemTable { items, source: source.to_vec() };
    let description = BodyDescription { voice: Voice::Pcm, table };
    let body = write_body(&description, 10).unwrap();
    assert_eq!(body, [1, 0xFF, 0xF0, 3, 0x43, 0x02, 0xF7, 2, 0xFF, 0]);
    assert_eq!(body_reads_back(&description, &body), Ok(()));
    let other = "the written body has other items";
    let changed = |place: usize, value: u8| {
        let mut other = body.clone();
        other[place] = value;
        body_reads_back(&description, &other).unwrap_err()
    };
    assert_eq!(
        (changed(0, 2), changed(4, 0x44), changed(7, 3)),
        (other.into(), other.into(), other.into())
    );
    assert_eq!(changed(6, 0xF6), "the written body is refused: refused 23 6");
    let marked = [&body[..], &MARK].concat();
    assert_eq!(body_reads_back(&description, &marked).unwrap_err(), other);
}
