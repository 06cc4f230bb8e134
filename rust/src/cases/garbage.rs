//! Lines that are none, and plans that make no sense.

use super::pen::Pen;
use super::plans::{self, Part, part_line};

const STRANGE: &[&[u8]] = &[
    b"",
    b" ",
    b"\t \r",
    b"\r\r",
    b"part",
    b"part x",
    b"part -1",
    b"part 0 needs",
    b"part 1 needs 0",
    b"part 1 needs 0 from most 3",
    b"part 1 needs 0 from 1",
    b"part 1 needs 0 from 1 most",
    b"part 1 needs 0 from 1 most 3 and",
    b"part 1 needs 0 from 1 most 3 4",
    b"part 1 needs 0 from 99 most x",
    b"part 1 needs and 0 from 1 most 3",
    b"part 1 needs 0 from 1 most most 3",
    b"part 1 wants 0",
    b"part draws 1",
    b"part 0 draws",
    b"part 0 draws x",
    b"part 0 draws -1",
    b"part 0 draws 1 2x",
    b"part 0 draws 1 draws 2",
    b"part 0 draws 1 and 2",
    b"part 0 draws 1 most 2",
    b"part 0 draws 1 needs",
    b"part 0 drawn 1",
    b"part 1 draws needs 0 from 1 most 3",
    b"part 1 draws 1 0 from 1 most 3",
    b"part 1 needs 0 from 1 most 3 draws 1",
    b"part 1 needs 0 from 1 draws 1 most 3",
    b"part 1 needs draws 1 0 from 1 most 3",
    b"gives",
    b"gives x",
    b"gives -1",
    b"gives 1 2",
    b"gives 1x",
    b"Gives 1",
    b"0 gives 1",
    b"give 1",
    b"drawn 0",
    b"0 drawn",
    b"Drawn",
    b"draws",
    b"draws 1",
    b"new plan",
    b"run 1",
    b"tick",
    b"tick x",
    b"tick 1 1",
    b"tick +1",
    b"tick 1x",
    b"0 want",
    b"0 want 1",
    b"0 want 1 x",
    b"0 want 1 1 1",
    b"x want 0 1",
    b"0 give 1",
    b"give",
    b"0",
    b"bad",
    b"bad x",
    b"bad 64",
    b"bad 99999999999999999999",
    b"slow 0",
    b"slow 0 0",
    b"slow 64 1",
    b"slow 0 x",
    b"least 0",
    b"Least",
    b"NEW",
    b"taken",
    b"0 done",
    b"\xff\xfe",
    b"\xc3\xa4",
    b"\0",
    b"least\0",
    b"least\x0b",
];

const LONGEST: usize = 4096;

fn strange(pen: &mut Pen) {
    match pen.rng.below(12) {
        0 => {
            let line: Vec<u8> = (0..pen.rng.below(60)).map(|_| pen.rng.below(256) as u8).filter(|b| *b != b'\n').collect();
            pen.raw(&line);
        }
        1 => long(pen),
        _ => {
            let line = pen.rng.pick(STRANGE);
            pen.raw(line);
        }
    }
}

/// Lines about as long as a line may be. `tick 0` does nothing, `least` and calls of no user neither.
fn long(pen: &mut Pen) {
    let length = LONGEST + pen.rng.below(4) as usize - 2;
    let text: &[u8] = pen.rng.pick(&[b"least", b"32 give", b"tick 0"]);
    let mut line = text.to_vec();
    match pen.rng.below(4) {
        0 => line.resize(length, b' '),
        1 => {
            line.resize(length - 1, b'\t');
            line.push(b'\r');
        }
        2 => line.splice(0..0, std::iter::repeat_n(b' ', length - text.len())).for_each(drop),
        _ => {
            line = vec![b'9'; length - b" give".len()];
            line.extend_from_slice(b" give");
        }
    }
    pen.raw(&line);
}

/// A plan and a script with strange lines in them.
pub fn script(pen: &mut Pen) {
    let plan = plans::random(&mut pen.rng);
    for line in plan.lines() {
        while pen.rng.percent(30) {
            strange(pen);
        }
        if pen.rng.percent(10) {
            let misplaced = pen.rng.pick(&["tick 5", "least", "drawn", "0 want 0 1", "bad 0", "slow 0 1", "0 give", "tick 4294967295"]);
            pen.line(misplaced);
        }
        pen.line(&line);
    }
    pen.line("run");
    for _ in 0..pen.rng.from_to(5, 40) {
        while pen.rng.percent(40) {
            strange(pen);
        }
        match pen.rng.below(9) {
            0 => pen.line("run"),
            1 => {
                let misplaced = pen.rng.pick(&["part 0", "part 0 draws 1", "gives 0", "gives 5", "gives 4294967296"]);
                pen.line(misplaced);
            }
            2 => pen.line("tick 0"),
            3 => {
                let user = pen.rng.pick(&["31", "32", "4294967295", "4294967296", "99999999999999999999999"]);
                let part = pen.rng.pick(&["0", "1", "63", "64", "4294967296"]);
                let level = pen.rng.pick(&["1", "15", "16", "0", "4294967297"]);
                pen.line(&format!("{user} want {part} {level}"));
            }
            4 => pen.line("drawn"),
            5 => {
                let askings = pen.rng.pick(&["4294967295", "4294967296", "18446744073709551617", "2"]);
                pen.line(&format!("slow 0 {askings}"));
            }
            _ => {
                let user = pen.rng.below(4);
                let part = pen.rng.below(plan.len().max(1));
                pen.want(user, part, 1);
                pen.give(3);
            }
        }
        pen.tick();
    }
}

/// A plan with one thing wrong, or almost; and lines that are passed over after it.
pub fn plan(pen: &mut Pen) {
    let plan = plans::random(&mut pen.rng);
    let mut lines: Vec<String> = plan.lines();
    let at = pen.rng.below(plan.len() + 1) as usize;
    let x = at as u32;
    match pen.rng.below(16) {
        0 => lines.insert(at, part_line(x + 1, &Part::default())),
        1 => lines.insert(at, part_line(x.saturating_sub(1), &Part::default())),
        2 => lines = (0..pen.rng.from_to(64, 66)).map(|x| part_line(x, &Part::default())).collect(),
        3 if at > 0 => lines.truncate(at - 1),
        4..8 => {
            lines.truncate(at);
            lines.push(wrong_draws(pen, x));
        }
        _ => {
            lines.truncate(at);
            lines.push(wrong_need(pen, x));
        }
    }
    for line in &lines {
        pen.line(line);
        if pen.rng.percent(3) {
            strange(pen);
        }
    }
    pen.line("run");
    for _ in 0..pen.rng.below(8) {
        strange(pen);
        pen.want(0, 0, 1);
        pen.tick();
    }
}

/// A part whose draws are wrong in one way, or at the edge of being so.
fn wrong_draws(pen: &mut Pen, x: u32) -> String {
    let draws = pen.rng.pick(&[
        "0",
        "2 1",
        "1 0",
        "0 0 1 0",
        "16 15",
        "4294967295 4294967294",
        "4294967296 4294967295",
        "4294967295 99999999999999999999",
        "99999999999999999999 1",
        "1 4294967297 2",
        "1 2 3 4 5 6 7 8 9 10 11 12 13 14 15",
        "1 2 3 4 5 6 7 8 9 10 11 12 13 14 13",
        "1 2 3 4 5 6 7 8 9 10 11 12 13 14 15 16",
        "0 0 0 0 0 0 0 0 0 0 0 0 0 0 0 0",
        "1 2 3 4 5 6 7 8 9 10 11 12 13 14 15 0 0 0 0",
    ]);
    match x.checked_sub(1) {
        Some(on) if pen.rng.percent(40) => format!("part {x} draws {draws} needs {on} from 1 most 15"),
        _ => format!("part {x} draws {draws}"),
    }
}

/// A part whose needs are wrong in one way, or at the edge of being so.
fn wrong_need(pen: &mut Pen, x: u32) -> String {
    let on = x.saturating_sub(1);
    let tail = pen.rng.pick(&[
        "from 0 most 15",
        "from 1 0 most 15",
        "from 2 3 2 most 15",
        "from 16 most 15",
        "from 15 most 15",
        "from 1 most 16",
        "from 1 most 0",
        "from 1 most 4294967296",
        "from 4294967297 most 1",
        "from 1 1 1 1 1 1 1 1 1 1 1 1 1 1 1 most 2",
        "from 1 1 1 1 1 1 1 1 1 1 1 1 1 1 1 1 most 2",
        "from 1 1 1 1 1 1 1 1 1 1 1 1 1 1 2 2 2 2 most 2",
    ]);
    match pen.rng.below(6) {
        0 => format!("part {x} needs {x} from 1 most 15"),
        1 => format!("part {x} needs 4294967296 from 1 most 15"),
        2 => format!("part {x} needs {on} from 1 most 15 and {on} from 1 most 15"),
        3 => {
            let needs: Vec<String> = (0..5).map(|i| format!("{} from 1 most 15", x.saturating_sub(i + 1))).collect();
            let count = pen.rng.from_to(4, 5) as usize;
            format!("part {x} needs {}", needs[..count].join(" and "))
        }
        _ => format!("part {x} needs {on} {tail}"),
    }
}
