//! What the boundary promises: how much is printed doesn't depend on the room lent, and only whole lines are written.

use buoy::{cases, play, sys};

const UNTOUCHED: u8 = 0xa5;

fn check_room(input: &[u8], room: usize) {
    let whole = play(input);
    let mut out = vec![UNTOUCHED; room];
    assert_eq!(sys::play_into(input, &mut out), (whole.len() <= room).then_some(whole.len()));
    let fits = room.min(whole.len());
    let lines = whole[..fits].iter().rposition(|&b| b == b'\n').map_or(0, |end| end + 1);
    assert_eq!(out[..lines], whole[..lines], "whole lines that fit are written");
    if room < whole.len() {
        assert!(out[lines..].iter().all(|&b| b == UNTOUCHED), "nothing but whole lines is written");
    } else {
        assert!(out[whole.len()..].iter().all(|&b| b == UNTOUCHED), "nothing is written beyond what is printed");
    }
}

#[test]
fn nothing_for_nothing() {
    assert_eq!(play(b""), b"");
    assert_eq!(sys::play_into(b"", &mut []), Some(0));
}

#[test]
fn every_room_is_enough_for_some() {
    let input = b"part 0\npart 1 needs 0 from 1 2 most 5\nrun\n0 want 1 2\ntick 1\nleast\n?\n";
    for room in 0..=play(input).len() + 3 {
        check_room(input, room);
    }
}

#[test]
fn room_is_lent_again() {
    for seed in 0..200 {
        let input = cases::case(seed);
        let whole = play(&input).len();
        for room in [0, 1, whole / 3, whole.saturating_sub(1), whole, whole + 100] {
            check_room(&input, room);
        }
    }
}

#[test]
fn more_is_printed_than_was_read() {
    let mut input = b"part 0\n".to_vec();
    for x in 1..64 {
        input.extend(format!("part {x} needs {} from 15 most 15\n", x - 1).bytes());
    }
    input.extend(b"run\n".iter());
    for _ in 0..100 {
        input.extend(b"0 want 63 15\ntick 2\n0 give\ntick 40\n".iter());
    }
    let whole = play(&input);
    assert!(whole.len() > 10 * input.len());
    check_room(&input, whole.len() / 2);
}
