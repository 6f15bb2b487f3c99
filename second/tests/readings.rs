//! How the paper's open points are read, each as a small file.

mod shared;

use second::file::{open, read};
use second::frame::{chunk, whole_file};
use second::listing::listing;
use second::plain::flatten;
use second::play::play;
use shared::*;
use std::time::{Duration, Instant};

const NOTE: [u8; 3] = [0x00, 0x29, 0x14];
const EXCLUSIVE: [u8; 6] = [0xFF, 0xF0, 0x03, 0x43, 0x02, 0xF7];

/// Where the sequence stands first, so that the seek body's faults show.
fn with_seek(sequence_type: u8, seek: &[u8]) -> (u32, usize) {
    refusal(&score(sequence_type, &[(b"MspI", seek), (b"Mtsq", &NOTE)]))
}

#[test]
fn places_of_empty_bodies() {
    assert_eq!(refusal(&score(STREAM, &[(b"Mtsq", &[])])), (11, 43));
    assert_eq!(refusal(&score(STREAM, &[(b"Mtsu", &[]), (b"Mtsq", &NOTE)])), (10, 43));
    assert_eq!(with_seek(STREAM, b""), (12, 43));
    assert_eq!(refusal(&file_of(&[chunk(b"MTR0", &[])])), (8, 29));
    assert_eq!(refusal(&file_of(&[chunk(b"ATR0", &[])])), (8, 29));
}

#[test]
fn place_of_a_fault_is_its_byte() {
    let body = [0x00, 0x29, 0x14, 0x81, 0x00, 0x2D, 0x14];
    assert_eq!(refusal(&score(STREAM, &[(b"Mtsq", &body)])), (21, 48));
    assert_eq!(refusal(&score(STREAM, &[(b"Mtsq", &body[..4])])), (20, 47));
}

#[test]
fn place_of_bad_setup_message() {
    let setup = [&EXCLUSIVE[..], &[0xFF, 0x00]].concat();
    assert_eq!(refusal(&score(STREAM, &[(b"Mtsu", &setup), (b"Mtsq", &NOTE)])), (10, 49));
}

#[test]
fn commas_start_entries() {
    let start = point(b"st", 0);
    assert_eq!(with_seek(STREAM, &[&start[..], b",,"].concat()), (12, 51));
    assert_eq!(with_seek(STREAM, &[&start[..], b","].concat()), (0, 0));
    assert_eq!(with_seek(STREAM, &[&start[..], b";"].concat()), (12, 43));
    assert_eq!(with_seek(STREAM, b","), (12, 43));
    assert_eq!(with_seek(STREAM, b"SL:A,x"), (12, 48));
    assert_eq!(with_seek(STREAM, b"SL:AC"), (12, 43));
    assert_eq!(with_seek(STREAM, b"SL:,"), (0, 0));
}

#[test]
fn repeated_and_misplaced_tags() {
    assert_eq!(with_seek(STREAM, b"SL:A,SL:A"), (12, 48));
    let swapped = entries(&[point(b"sp", 3), point(b"st", 0)]);
    assert_eq!(with_seek(STREAM, &swapped), (12, 51));
    let after_list = entries(&[b"SL:".to_vec(), phrase(b'a', 0, 0)]);
    assert_eq!(with_seek(STREAM, &after_list), (12, 47));
    let any_order = entries(&[phrase(b'z', 0, 0), phrase(b'B', 0, 0), phrase(b'a', 0, 0)]);
    assert_eq!(with_seek(STREAM, &any_order), (0, 0));
    let again = entries(&[phrase(b'z', 0, 0), phrase(b'B', 0, 0), phrase(b'z', 0, 0)]);
    assert_eq!(with_seek(STREAM, &again), (12, 67));
    let unknown = entries(&[phrase(b'z', 0, 0), phrase(b'C', 0, 0)]);
    assert_eq!(with_seek(STREAM, &unknown), (12, 55));
}

#[test]
fn malformed_entry_before_bad_address() {
    let seek = entries(&[point(b"st", 99), b"SL:AC".to_vec()]);
    assert_eq!(with_seek(STREAM, &seek), (12, 51));
}

#[test]
fn start_over_stop() {
    let seek = entries(&[point(b"st", 3), point(b"sp", 0)]);
    assert_eq!(with_seek(STREAM, &seek), (13, 51));
    let list = |text: &[u8]| entries(&[text.to_vec(), phrase(b'A', 0, 3), b"SL:AA".to_vec()]);
    assert_eq!(with_seek(PHRASES, &list(b"st:\x02,sp:\x01")), (13, 48));
    assert_eq!(with_seek(PHRASES, &list(b"st:\x03,sp:\x01")), (13, 43));
    assert_eq!(with_seek(PHRASES, &list(b"st:\x02,sp:\x03")), (13, 48));
    assert_eq!(with_seek(PHRASES, &list(b"st:\x02,sp:\x02")), (0, 0));
}

/// All items at step 0, so the times are the same.
#[test]
fn at_most_compares_addresses() {
    let body = [NOTE, NOTE].concat();
    let seek = phrase(b'A', 3, 0);
    assert_eq!(refusal(&score(PHRASES, &[(b"MspI", &seek), (b"Mtsq", &body)])), (13, 43));
}

#[test]
fn order_of_play_and_flatten() {
    let long_list = [&phrase(b'A', 0, 6)[..], b",SL:AA"].concat();
    let body = [0x00, 0x29, 0x14, 0x01, 0xFF, 0x00];
    let file = score(PHRASES, &[(b"MspI", &long_list), (b"Mtsq", &body)]);
    let length = file.len() as u32;
    assert_eq!(outcome(play(&file, length, 2, 2)), (0, 0));
    assert_eq!(outcome(play(&file, length, 2, 1)), (15, 21));
    assert_eq!(outcome(flatten(&file, length, 2, 0)), (18, 21));
    assert_eq!(outcome(play(&file, length, 1, 0)), (16, 0));
    assert_eq!(outcome(play(&file, length, 99, 0)), (16, 0));
    assert_eq!(outcome(play(&file, length, u32::MAX, 0)), (16, 0));
    assert_eq!(outcome(flatten(&file, length, 0, 0)), (16, 0));
    assert_eq!(outcome(play(&file, length + 1, 99, 0)), (1, 0));
    assert_eq!(outcome(read(&file, length, 4)), (15, 0));
}

#[test]
fn bad_later_track_refuses_first() {
    let good = score_track(STREAM, &[(b"Mtsq", &NOTE)]);
    let place = 21 + good.len();
    let file = file_of(&[good, chunk(b"MTR1", &[3])]);
    assert_eq!(outcome(play(&file, file.len() as u32, 2, 9)), (8, place + 8));
}

#[test]
fn stated_lengths() {
    let file = score(STREAM, &[(b"Mtsq", &NOTE)]);
    let length = file.len() as u32;
    assert_eq!(outcome(open(&file, length + 1)), (1, 0));
    assert_eq!(outcome(open(&file, u32::MAX)), (1, 0));
    assert_eq!(outcome(open(&vec![0; 70_000], 65_537)), (1, 0));
    assert_eq!(outcome(open(&file, 9)), (2, 0));
    assert_eq!(outcome(open(&file, 0)), (2, 0));
    assert_eq!(outcome(open(&file, length - 1)), (3, 4));
    let longer = [&file[..], &[7; 5]].concat();
    assert_eq!(outcome(open(&longer, length)), (0, 0));
    assert_eq!(outcome(open(&longer, length + 5)), (3, 4));
}

#[test]
fn top_list_is_one_walk() {
    let track = score_track(STREAM, &[(b"Mtsq", &NOTE)]);
    let place = 21 + track.len();
    let again = chunk(b"CNTI", &[]);
    let file = file_of(&[track.clone(), again.clone(), vec![1, 2, 3]]);
    assert_eq!(refusal(&file), (6, place));
    let file = file_of(&[track, vec![1, 2, 3]]);
    assert_eq!(refusal(&file), (4, place));
    assert_eq!(refusal(&whole_file(&[])), (5, 8));
    assert_eq!(refusal(&whole_file(&chunk(b"CNTI", &[0; 4]))), (5, 8));
    assert_eq!(refusal(&whole_file(&chunk(b"OPDA", &[0; 9]))), (5, 8));
    assert_eq!(refusal(&whole_file(&chunk(b"CNTI", &[0; 5]))), (7, 21));
    let closed = file_of(&[chunk(b"OPDA", &[]), chunk(b"ABCD", &[0; 2])]);
    assert_eq!(refusal(&closed), (7, closed.len() - 2));
}

#[test]
fn track_list_is_one_walk() {
    let mut past_end = chunk(b"XXXX", &[]);
    past_end[7] = 1;
    let track = |list: &[u8]| chunk(b"MTR0", &[&[0, 0, 2, 2, 0, 0][..], list].concat());
    assert_eq!(refusal(&file_of(&[track(&past_end)])), (4, 35));
    assert_eq!(refusal(&file_of(&[track(&chunk(b"XXXX", &[]))])), (9, 35));
    let twice = [chunk(b"Mtsq", &NOTE), chunk(b"Mtsq", &NOTE)].concat();
    assert_eq!(refusal(&file_of(&[track(&twice)])), (6, 46));
    assert_eq!(refusal(&file_of(&[track(&chunk(b"Mtsu", &[]))])), (9, 21));
    assert_eq!(refusal(&pcm(STREAM, &[(b"Atsq", &[0; 4])])), (9, 21));
    assert_eq!(refusal(&pcm(STREAM, &[(b"Atsq", &[0; 4]), (b"Awa\0", &[])])), (9, 47));
    assert_eq!(refusal(&pcm(STREAM, &[(b"Atsq", &[0; 4]), (b"Awa?", &[])])), (9, 47));
    assert_eq!(refusal(&pcm(STREAM, &[(b"Atsq", &[0; 4]), (b"Awa>", &[])])), (0, 0));
}

#[test]
fn setup_then_sequence_then_seek() {
    let bad_all: [Leaf; 3] = [(b"MspI", b""), (b"Mtsq", b""), (b"Mtsu", b"")];
    assert_eq!(refusal(&score(STREAM, &bad_all)), (10, 59));
    assert_eq!(refusal(&score(STREAM, &bad_all[..2])), (11, 51));
}

#[test]
fn closed_chunks_are_not_checked() {
    for (id, body) in [(b"MTR0", &[1][..]), (b"MTR0", &[2]), (b"GTR\xFF", &[]), (b"MSTR", &[])] {
        assert_eq!(refusal(&file_of(&[chunk(id, body)])), (0, 0));
    }
    assert_eq!(refusal(&file_of(&[chunk(b"MTR0", &[3])])), (8, 29));
    assert_eq!(refusal(&file_of(&[chunk(b"ATR0", &[1])])), (8, 29));
    assert_eq!(refusal(&file_of(&[chunk(b"MTR0", &[0, 0, 2, 2, 0])])), (8, 29));
}

#[test]
fn stream_phrases_are_checked_but_not_its_letters() {
    assert_eq!(with_seek(STREAM, &phrase(b'A', 0, 1)), (13, 43));
    assert_eq!(with_seek(STREAM, &phrase(b'A', 1, 3)), (13, 43));
    assert_eq!(with_seek(STREAM, b"SL:ASA"), (0, 0));
    assert_eq!(with_seek(PHRASES, b"SL:ASA"), (14, 46));
}

#[test]
fn letters_outside_the_points_need_phrases() {
    let seek = entries(&[b"sp:\x01".to_vec(), phrase(b'A', 0, 3), b"SL:AS".to_vec()]);
    assert_eq!(with_seek(PHRASES, &seek), (14, 43 + 5 + 12 + 4));
}

#[test]
fn empty_and_missing_lists() {
    let file = score(PHRASES, &[(b"MspI", b"SL:"), (b"Mtsq", &NOTE)]);
    assert_eq!(steps(&file), (vec![], 0));
    for leaves in [&[(b"Mtsq", &NOTE[..])][..], &[(b"MspI", b"st:\0"), (b"Mtsq", &NOTE)]] {
        let file = score(PHRASES, leaves);
        let length = file.len() as u32;
        assert_eq!(refusal(&file), (0, 0));
        assert_eq!(outcome(play(&file, length, 2, 0)), (17, 21));
        assert_eq!(outcome(flatten(&file, length, 2, 0)), (17, 21));
        assert_eq!(listing(&file).unwrap_err().text(), "refused 17 21\n");
    }
    assert_eq!(with_seek(PHRASES, b"sp:\x01"), (13, 43));
    assert_eq!(with_seek(PHRASES, b"st:\x01"), (13, 43));
}

#[test]
fn final_comma_is_no_letter() {
    let seek = |stop: u8| {
        let stop = vec![b's', b'p', b':', stop];
        entries(&[stop, phrase(b'A', 0, 3), b"SL:AA,".to_vec()])
    };
    assert_eq!(with_seek(PHRASES, &seek(2)), (0, 0));
    assert_eq!(with_seek(PHRASES, &seek(3)), (13, 43));
}

#[test]
fn what_is_free() {
    let body = [0x00, 0x3E, 0x01, 0x00, 0xFF, 0xF0, 0x04, 0xF7, 0xF7, 0xF7, 0xF7];
    assert_eq!(refusal(&pcm(STREAM, &[(b"Awa\x01", &[]), (b"Atsq", &body)])), (0, 0));
    let fixed = [0, 0, 0xFF, 0xFF, 2, 2];
    let list = leaves(&[(b"Awa\x01", &[]), (b"Atsq", &body)]);
    let file = file_of(&[chunk(b"ATR0", &[&fixed[..], &list].concat())]);
    assert_eq!(refusal(&file), (0, 0));
}

#[test]
fn what_pcm_tracks_keep() {
    let kept: [&[u8]; 8] = [
        &[0, 0xFF, 0x00],
        &[0, 0xFF, 0xF0, 0x03, 1, 2, 0xF7],
        &[0, 0x00, 0x34, 0x7F],
        &[0, 0x00, 0x37, 0x7F],
        &[0, 0x00, 0x3A, 0x7F],
        &[0, 0x00, 0x3B, 0x7F],
        &[0, 0x00, 0x01],
        &[0, 0x00, 0x1E],
    ];
    for body in kept {
        assert_eq!(refusal(&pcm(STREAM, &[(b"Atsq", body), (b"Awa\x01", &[])])), (0, 0));
    }
    let forbidden: [(&[u8], (u32, usize)); 6] = [
        (&[0, 0x00, 0x30, 0], (22, 45)),
        (&[0, 0x00, 0x31, 0], (22, 45)),
        (&[0, 0x00, 0x32, 0], (22, 45)),
        (&[0, 0x00, 0x33, 0], (22, 45)),
        (&[0, 0x00, 0x21], (22, 45)),
        (&[0, 0x40, 0x01], (21, 44)),
    ];
    for (body, told) in forbidden {
        assert_eq!(refusal(&pcm(STREAM, &[(b"Atsq", body), (b"Awa\x01", &[])])), told);
    }
}

#[test]
fn what_is_an_address() {
    let body = [0x05, 0x29, 0x14, 0x00, 0x00, 0x00, 0x00];
    for address in 0..=8 {
        let file = score(STREAM, &[(b"MspI", &point(b"sp", address)), (b"Mtsq", &body)]);
        let expected = if [0, 3, 7].contains(&address) { (0, 0) } else { (13, 43) };
        assert_eq!(refusal(&file), expected, "address {address}");
    }
    assert_eq!(with_seek(STREAM, &point(b"st", u32::MAX)), (13, 43));
}

#[test]
fn playing_goes_by_time() {
    let body = [0x05, 0x29, 0x14, 0x00, 0x2A, 0x14, 0x03, 0x2B, 0x14];
    let stream = |seek: &[u8]| steps(&score(STREAM, &[(b"MspI", seek), (b"Mtsq", &body)]));
    assert_eq!(stream(&point(b"st", 3)), (vec![0, 0, 3], 3));
    assert_eq!(stream(&point(b"st", 6)), (vec![0, 0, 3], 3));
    assert_eq!(stream(&point(b"st", 9)), (vec![0], 0));
    assert_eq!(stream(&entries(&[point(b"st", 9), point(b"sp", 9)])), (vec![], 0));
    assert_eq!(stream(&point(b"sp", 9)), (vec![5, 5], 8));
    assert_eq!(stream(&point(b"sp", 3)), (vec![], 5));
    let seek = entries(&[phrase(b'A', 0, 9), phrase(b'B', 3, 9), b"SL:ABA".to_vec()]);
    let file = score(PHRASES, &[(b"MspI", &seek), (b"Mtsq", &body)]);
    assert_eq!(steps(&file), (vec![5, 5, 8, 8, 16, 16], 19));
}

#[test]
fn list_points_cut_the_list() {
    let seek = entries(&[b"st:\x01,sp:\x03".to_vec(), phrase(b'A', 0, 6), phrase(b'B', 0, 0)]);
    let seek = [&seek[..], b",SL:ABAA"].concat();
    let body = [0x05, 0x29, 0x14, 0x03, 0xFF, 0x00];
    let file = score(PHRASES, &[(b"MspI", &seek), (b"Mtsq", &body)]);
    assert_eq!(steps(&file), (vec![5], 8));
}

#[test]
fn setup_is_neither_played_nor_flattened() {
    let file = score(STREAM, &[(b"Mtsu", &EXCLUSIVE), (b"Mtsq", &NOTE)]);
    assert_eq!(steps(&file), (vec![0], 0));
    assert_eq!(plain(&file), [&NOTE[..], &[0; 4]].concat());
}

#[test]
fn long_gaps_and_rests() {
    let rest = [0xFF, 0x7F, 0xFF, 0x00];
    let flat = |body: &[u8]| plain(&score(STREAM, &[(b"Mtsq", body)]));
    let longest = [0xFF, 0x7F, 0x29, 0x14, 0, 0, 0, 0];
    assert_eq!(flat(&longest), longest);
    let one_more = [0x01, 0xFF, 0x00, 0xFF, 0x7F, 0x29, 0x14];
    assert_eq!(flat(&one_more), [&rest[..], &[0x01, 0x29, 0x14, 0, 0, 0, 0]].concat());
    let two_rests = [&rest[..], &rest, &[0; 4]].concat();
    assert_eq!(flat(&two_rests), two_rests);
    assert_eq!(flat(&[&rest[..], &rest, &[0x01, 0xFF, 0x00]].concat()).len(), 8 + 3 + 4);
    assert_eq!(flat(&[0x00, 0xFF, 0x00]), [0; 4]);
}

/// A phrase of one exclusive takes 4 + size bytes, the rest and mark 7 more.
#[test]
fn plain_form_of_exactly_the_largest() {
    let body = |size: u8| {
        let inside = vec![0; usize::from(size) - 1];
        [&[0x00, 0xFF, 0xF0, size][..], &inside, &[0xF7, 0x01, 0xFF, 0x00]].concat()
    };
    let file = |size: u8, letters: usize| {
        let sequence = body(size);
        let list = [&b"SL:"[..], &vec![b'a'; letters]].concat();
        let seek = entries(&[phrase(b'a', 0, sequence.len() as u32), list]);
        score(PHRASES, &[(b"MspI", &seek), (b"Mtsq", &sequence)])
    };
    let exact = file(77, 809);
    assert_eq!(plain(&exact).len(), 65_536);
    let length = exact.len() as u32;
    assert_eq!(outcome(flatten(&exact, length, 2, 65_536)), (0, 0));
    assert_eq!(outcome(flatten(&exact, length, 2, 65_535)), (18, 21));
    let over = file(77, 810);
    assert_eq!(outcome(flatten(&over, over.len() as u32, 2, 70_000)), (18, 21));
}

/// 30,000 letters over a phrase of 8,000 items.
#[test]
fn large_refusals_come_at_once() {
    let seek = [&phrase(b'a', 0, 32_000)[..], b",SL:", &vec![b'a'; 30_000]].concat();
    let long_items = [0xFF, 0x7F, 0x29, 0x14].repeat(8_000);
    let file = score(PHRASES, &[(b"MspI", &seek), (b"Mtsq", &long_items)]);
    let length = file.len() as u32;
    let before = Instant::now();
    assert_eq!(outcome(play(&file, length, 2, 70_000)), (15, 21));
    assert_eq!(outcome(flatten(&file, length, 2, 70_000)), (18, 21));
    let silent = [0xFF, 0x7F, 0xFF, 0x00].repeat(8_000);
    let file = score(PHRASES, &[(b"MspI", &seek), (b"Mtsq", &silent)]);
    assert_eq!(steps(&file), (vec![], 30_000 * 8_000 * 16_511));
    assert!(before.elapsed() < Duration::from_secs(1));
}

#[test]
fn listing_of_refusals() {
    assert_eq!(listing(&[]).unwrap_err().text(), "refused 2 0\n");
    assert_eq!(listing(&vec![0; 65_537]).unwrap_err().text(), "refused 1 0\n");
    let closed = file_of(&[chunk(b"MTR0", &[1])]);
    assert_eq!(listing(&closed).unwrap_err().text(), "refused 16 0\n");
    let refused_first = score_track(PHRASES, &[(b"Mtsq", &NOTE)]);
    let mut second = score_track(STREAM, &[(b"Mtsq", &NOTE)]);
    second[3] = b'1';
    let file = file_of(&[refused_first, second]);
    assert_eq!(listing(&file).unwrap_err().text(), "refused 17 21\n");
}

/// 4,096 rows with the file's own and `CNTI`: 4,094 more fit.
#[test]
fn listing_table_of_chunks() {
    let leaves = |count: u32| -> Vec<u8> {
        (0..count).flat_map(|number| chunk(&(0xF000_0000 + number).to_be_bytes(), &[])).collect()
    };
    let file = |count| file_of(&[leaves(count), chunk(b"MTR0", &[1])]);
    assert_eq!(listing(&file(4_093)).unwrap_err().text(), "refused 16 0\n");
    assert_eq!(listing(&file(4_094)).unwrap_err().text(), "refused 15 0\n");
}

#[test]
fn listing_table_of_played_rows() {
    let file = |letters: usize| {
        let list = [&b"SL:"[..], &vec![b'a'; letters]].concat();
        let seek = entries(&[phrase(b'a', 0, 6), list]);
        let body = [0x00, 0x29, 0x14, 0x01, 0xFF, 0x00];
        score(PHRASES, &[(b"MspI", &seek), (b"Mtsq", &body)])
    };
    assert_eq!(listing(&file(4_096)).unwrap().lines().count(), 4_098);
    assert_eq!(listing(&file(4_097)).unwrap_err().text(), "refused 15 21\n");
}

#[test]
fn listing_of_pcm() {
    let list = leaves(&[(b"Atsq", &[0x02, 0x45, 0x07]), (b"Awa\x01", &[])]);
    let fixed = [0, 0, 0x10, 0x10, 0x03, 0x13];
    let file = file_of(&[chunk(b"ATR0", &[&fixed[..], &list].concat())]);
    let expected = "step ms ch kind value gate\n2 10 1 wave 5 7\nend 2 10\n";
    assert_eq!(listing(&file).unwrap(), expected);
}

#[test]
fn listing_of_every_kind() {
    let body = [
        &[0x00, 0x00, 0x72, 0x81][..],
        &[0x00, 0x69, 0x01, 0x00, 0x29, 0x01],
        &[0x00, 0x00, 0x32, 0x04, 0x00, 0x29, 0x01],
        &[0x01, 0xFF, 0xF0, 0x03, 0x43, 0x02, 0xF7],
        &[0x00, 0x00, 0xAE, 0x00, 0x00, 0x91, 0x00, 0x00, 0x82],
        &[0x00, 0x00, 0xB4, 0x40, 0x00, 0x00, 0xB1, 0xFF],
    ];
    let expected = "step ms ch kind value gate
0 0 1 octaveshift 129 0
0 0 1 note -12 1
0 0 0 note 0 1
0 0 0 octaveshift 4 0
0 0 0 note 48 1
1 4 - exclusive 3 0
1 4 2 modulation 127 0
1 4 2 pitchbend 8 0
1 4 2 expression 31 0
1 4 2 pitchbend 64 0
1 4 2 bank 255 0
end 1 4
";
    assert_eq!(listing(&score(STREAM, &[(b"Mtsq", &body.concat())])).unwrap(), expected);
}

/// The first playing of the note comes before the shift, the second after it.
#[test]
fn shifts_count_in_played_order() {
    let body = [0x00, 0x29, 0x01, 0x01, 0x00, 0x32, 0x01, 0x01, 0xFF, 0x00];
    let seek = entries(&[phrase(b'b', 0, 10), b"SL:bb".to_vec()]);
    let file = score(PHRASES, &[(b"MspI", &seek), (b"Mtsq", &body)]);
    let expected = "step ms ch kind value gate
0 0 0 note 0 1
1 4 0 octaveshift 1 0
2 8 0 note 12 1
3 12 0 octaveshift 1 0
end 4 16
";
    assert_eq!(listing(&file).unwrap(), expected);
}

#[test]
fn shifts_that_are_not_played_do_not_count() {
    let body = [0x00, 0x00, 0x32, 0x01, 0x01, 0x29, 0x01, 0x00, 0xFF, 0x00];
    let file = score(STREAM, &[(b"MspI", &point(b"st", 7)), (b"Mtsq", &body)]);
    let expected = "step ms ch kind value gate\n0 0 0 note 0 1\nend 0 0\n";
    assert_eq!(listing(&file).unwrap(), expected);
}
