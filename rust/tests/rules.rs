//! The judge itself: it passes what keeps the rules, and finds each that is broken.

use buoy::rules::{Broken, judge};

/// 1 needs 0 at its own level, at most 3; 2 needs 0 at most 1; 3 needs nothing.
const PLAN: &str = "part 0\npart 1 needs 0 from 1 2 3 most 3\npart 2 needs 0 from 1 most 1\npart 3\nrun\n";

/// 1 needs 0, and draws nothing at level 1; there is enough for 0 at 3 with 1 at 1, and for any two of 2, 3 and 4 but not for all three.
const DRAWING: &str =
    "part 0 draws 1 2 6\npart 1 draws 0 4 needs 0 from 1 most 15\npart 2 draws 2 3\npart 3 draws 3\npart 4 draws 3\ngives 6\nrun\n";

fn verdict(plan: &str, script: &str, printed: &str) -> Result<(), Broken> {
    let lines = |text: &str| text.split(' ').filter(|l| !l.is_empty()).map(|l| l.replace('_', " ") + "\n").collect::<String>();
    judge((plan.to_string() + &lines(script)).as_bytes(), lines(printed).as_bytes()).map(drop).map_err(|fault| fault.broken)
}

/// Lines with `_` for gaps, and spaces between lines.
fn passes(script: &str, printed: &str) {
    assert_eq!(verdict(PLAN, script, printed), Ok(()));
}

fn finds(broken: Broken, script: &str, printed: &str) {
    assert_eq!(verdict(PLAN, script, printed), Err(broken));
}

/// The same on the plan that draws.
fn draws_and_passes(script: &str, printed: &str) {
    assert_eq!(verdict(DRAWING, script, printed), Ok(()));
}

fn draws_and_finds(broken: Broken, script: &str, printed: &str) {
    assert_eq!(verdict(DRAWING, script, printed), Err(broken));
}

const UP: &str = "taken raise_0 good_0 raise_1 good_1 0_done";

#[test]
fn what_keeps_the_rules() {
    passes("0_want_1_1 tick_1", UP);
    passes("0_want_1_1 tick_1 least", &format!("{UP} 1_1_0_0"));
    passes("0_want_1_1 tick_1 1_want_2_1 tick_1", &format!("{UP} taken raise_2 good_2 1_done"));
    passes("0_want_1_2 tick_1 1_want_2_1 tick_1", "taken raise_0 good_0 level_0_2 raise_1 good_1 level_1_2 0_done taken 1_no_5");
    passes("bad_0 0_want_1_1 tick_1", "taken raise_0 0_no_6");
    passes("0_want_4_1 0_give 32_give ? tick_x", "away_1 away_3 away_1 line_9? line_10?");
}

#[test]
fn wrong_answers() {
    finds(Broken::Expected("taken".into()), "0_want_1_1", "away_1");
    finds(Broken::Expected("away 2".into()), "0_want_1_1 0_want_1_1", "taken taken");
    finds(Broken::Expected("away 3".into()), "0_give", "taken");
    finds(Broken::Expected("line 6?".into()), "run", "");
    finds(Broken::Expected("0 0 0 0".into()), "least", "0_0_0_1");
    finds(Broken::TooMuch, "0_give", "away_3 away_3");
    finds(Broken::TooMuch, "0_want_1_1 tick_1", "taken raise_0 good_0 raise_01");
}

#[test]
fn steps_that_are_forbidden() {
    let up = |steps: &str| format!("taken raise_0 good_0 raise_1 good_1 {steps}");
    let after = |broken, steps: &str| finds(broken, "0_want_1_1 tick_1", &up(steps));
    after(Broken::NotOff, "raise_1");
    after(Broken::NotRising, "good_1");
    after(Broken::NotServed, "level_1_2");
    after(Broken::NoStep, "level_1_3");
    after(Broken::NoStep, "level_1_0");
    after(Broken::Needed, "lower_0");
    after(Broken::IsOff, "lower_3");
    after(Broken::NotOn, "level_3_1");
    after(Broken::NoSuchPart, "raise_4");
    after(Broken::DoesNotSuit, "level_0_2 level_0_3 level_0_4");
    after(Broken::DoesNotSuit, "level_0_2 level_1_2 level_0_1");
    after(Broken::TakenAway, "0_done lower_1");
    after(Broken::TakenAway, "level_0_2 level_1_2 level_1_1 0_done lower_1");
    after(Broken::DoesNotSuit, "raise_2 level_0_2");
    finds(Broken::NotServed, "0_want_1_1 tick_1", "taken raise_1");
    finds(Broken::NotServed, "0_want_1_1 tick_1", "taken raise_0 raise_1");
    finds(Broken::NotServed, "0_want_1_1 tick_1", "taken raise_0 good_0 level_0_2 raise_2");
}

#[test]
fn what_may_not_be_told() {
    let told = |broken, script: &str, printed: &str| finds(broken, &format!("{script} tick_1"), &format!("taken {printed}"));
    told(Broken::NotDone, "0_want_3_2", "raise_3 good_3 0_done");
    told(Broken::NotDone, "0_want_3_1", "raise_3 0_done");
    told(Broken::NothingToTell, "0_want_3_1", "raise_3 good_3 1_done");
    told(Broken::NothingToTell, "0_want_3_1", "raise_3 good_3 0_done 0_done");
    told(Broken::CanBe, "0_want_3_1", "0_no_5");
    told(Broken::NotTried, "0_want_3_1", "0_no_6");
    told(Broken::NotTried, "slow_3_64 0_want_3_1", "raise_3 0_no_6");
    told(Broken::NotTried, "bad_3 0_want_0_1", "raise_3 0_no_6");
    finds(Broken::CannotBe, "0_want_0_2 tick_1 bad_2 1_want_2_1 tick_1", "taken raise_0 good_0 level_0_2 0_done taken 1_no_6");
    finds(Broken::NoTick, "0_want_3_1 tick_0", "taken raise_3");
    passes("slow_3_65 0_want_3_1 tick_1", "taken raise_3 0_no_6");
}

#[test]
fn parts_that_are_slow_or_bad() {
    finds(Broken::CannotBeGood, "bad_3 0_want_3_1 tick_1", "taken raise_3 good_3");
    passes("bad_3 slow_3_1 0_want_3_1 tick_1", "taken raise_3 good_3 0_done");
    finds(Broken::CannotBeGood, "slow_3_9 0_want_3_1 tick_1 32_give bad_3 tick_1", "taken raise_3 away_1 good_3");
    finds(Broken::TooManyAskings, "slow_3_1024 0_want_3_1 tick_1", "taken raise_3 good_3 0_done");
    passes("slow_3_1023 0_want_3_1 tick_1", "taken raise_3 good_3 0_done");
    // Asked 64 times more after each 6: 128 in all, and good at the 129th.
    let sixes = "taken raise_3 0_no_6 taken 0_no_6 taken good_3 0_done";
    passes("slow_3_129 0_want_3_1 tick_1 0_want_3_1 tick_1 0_want_3_1 tick_1", sixes);
    finds(Broken::NotTried, "slow_3_128 0_want_3_1 tick_1 0_want_3_1 tick_1 0_want_3_1 tick_1", sixes);
}

#[test]
fn time() {
    passes("0_want_3_1 tick_255 32_give", "taken away_1");
    finds(Broken::Late, "0_want_3_1 tick_256 32_give", "taken away_1");
    passes("0_want_3_1 tick_255 32_give tick_1", "taken away_1 raise_3 good_3 0_done");
    finds(Broken::Late, "0_want_3_1 tick_255 32_give tick_1", "taken away_1 raise_3 good_3");
}

#[test]
fn quiet() {
    let up = "taken raise_3 good_3 0_done";
    passes("0_want_3_1 tick_1 0_give tick_64 32_give", &format!("{up} taken away_1"));
    finds(Broken::NotLean(vec![0, 0, 0, 1]), "0_want_3_1 tick_1 0_give tick_65 32_give", &format!("{up} taken away_1"));
    passes("0_want_3_1 tick_1 0_give tick_65 32_give", &format!("{up} taken lower_3 away_1"));
    passes("0_want_3_1 tick_1 tick_100 32_give", &format!("{up} away_1"));
    finds(Broken::NotQuiet, "0_want_3_1 tick_1 32_give tick_66 32_give tick_1", &format!("{up} away_1 away_1 raise_0"));
}

/// 2 and 3 are granted, which draw 5 of 6.
const TWO: &str = "0_want_2_1 tick_1 1_want_3_1 tick_1";
const TWO_UP: &str = "taken raise_2 good_2 0_done taken raise_3 good_3 1_done";

#[test]
fn what_draws_no_more_than_is_given() {
    draws_and_passes("drawn 0_want_0_3 tick_1 drawn", "0 taken raise_0 good_0 level_0_2 level_0_3 0_done 6");
    draws_and_passes(
        "0_want_0_3 tick_1 1_want_1_1 tick_1 drawn",
        "taken raise_0 good_0 level_0_2 level_0_3 0_done taken raise_1 good_1 1_done 6",
    );
    draws_and_passes(&format!("{TWO} drawn 2_want_4_1 tick_1"), &format!("{TWO_UP} 5 taken 2_no_5"));
    draws_and_passes("0_want_3_1 tick_1 1_want_4_1 tick_1 drawn", "taken raise_3 good_3 0_done taken raise_4 good_4 1_done 6");
    // A rising part draws as at 1, and one that was lowered nothing.
    draws_and_passes(
        "bad_2 0_want_2_2 tick_1 drawn 1_want_3_1 tick_1 drawn",
        "taken raise_2 0_no_6 2 taken lower_2 raise_3 good_3 1_done 3",
    );
    // The last draw holds for all levels that follow.
    let far = "taken raise_2 good_2 level_2_2 level_2_3 level_2_4 0_done";
    draws_and_passes("0_want_2_4 tick_1 drawn 1_want_3_1 tick_1 drawn", &format!("{far} 3 taken raise_3 good_3 1_done 6"));
}

#[test]
fn steps_that_draw_too_much() {
    let after =
        |steps: &str| draws_and_finds(Broken::DrawsTooMuch, &format!("{TWO} 2_want_4_1 tick_1"), &format!("{TWO_UP} taken {steps}"));
    after("raise_4");
    after("raise_0 good_0 raise_4");
    after("raise_0 good_0 level_0_2");
    after("raise_0 good_0 raise_1 good_1 level_1_2");
    after("level_2_2 raise_0");
    // What is there already has to come down first.
    let script = "0_want_0_3 tick_1 0_give 1_want_2_1 tick_1";
    let up = "taken raise_0 good_0 level_0_2 level_0_3 0_done taken taken";
    draws_and_passes(script, &format!("{up} lower_0 raise_2 good_2 1_done"));
    draws_and_passes(script, &format!("{up} level_0_2 raise_2 good_2 lower_0 1_done"));
    draws_and_finds(Broken::DrawsTooMuch, script, &format!("{up} raise_2"));
    draws_and_finds(Broken::DrawsTooMuch, script, &format!("{up} raise_1 good_1 level_1_2"));
}

#[test]
fn what_can_be_with_what_is_drawn() {
    // Done where it can't be: a step draws too much, or the part isn't on.
    let three = format!("{TWO} 2_want_4_1 tick_1");
    draws_and_finds(Broken::DrawsTooMuch, &three, &format!("{TWO_UP} taken raise_4 good_4 2_done"));
    draws_and_finds(Broken::NotDone, &three, &format!("{TWO_UP} taken 2_done"));
    // 6 where it can't be.
    draws_and_finds(Broken::CannotBe, &format!("bad_4 {three}"), &format!("{TWO_UP} taken 2_no_6"));
    // 5 where it can be: each two of three, and when what is in the way isn't granted any more.
    draws_and_finds(Broken::CanBe, "0_want_3_1 tick_1 1_want_4_1 tick_1", "taken raise_3 good_3 0_done taken 1_no_5");
    draws_and_finds(Broken::CanBe, &format!("{TWO} 0_give 2_want_4_1 tick_1"), &format!("{TWO_UP} taken taken 2_no_5"));
    // What it needs draws, too: 1 at level 2 draws 4, and 0 draws 1.
    draws_and_passes("0_want_3_1 tick_1 1_want_1_2 tick_1", "taken raise_3 good_3 0_done taken 1_no_5");
    draws_and_finds(Broken::CanBe, "0_want_3_1 tick_1 1_want_1_1 tick_1", "taken raise_3 good_3 0_done taken 1_no_5");
    draws_and_finds(Broken::CanBe, "0_want_1_2 tick_1", "taken 0_no_5");
}

#[test]
fn what_is_drawn_is_told_right() {
    let expected = |number: &str| Broken::Expected(number.into());
    draws_and_finds(expected("5"), &format!("{TWO} drawn"), &format!("{TWO_UP} 6"));
    draws_and_finds(expected("5"), &format!("{TWO} drawn"), &format!("{TWO_UP} 05"));
    draws_and_finds(expected("5"), &format!("{TWO} drawn"), TWO_UP);
    draws_and_finds(expected("0"), "drawn", "1");
    draws_and_finds(expected("line 8?"), "gives_9", "");
    passes("0_want_1_1 tick_1 drawn", &format!("{UP} 0"));
    assert_eq!(verdict("run\n", "drawn", "0"), Ok(()));
}

#[test]
fn sums_of_large_numbers() {
    let plan = "part 0 draws 4294967295\npart 1 draws 1\npart 2 draws 99999999999\nrun\n";
    let up = "taken raise_0 good_0 0_done";
    assert_eq!(verdict(plan, "0_want_0_1 tick_1 drawn", &format!("{up} 4294967295")), Ok(()));
    for other in [1, 2] {
        let script = format!("0_want_0_1 tick_1 1_want_{other}_1 tick_1");
        assert_eq!(verdict(plan, &script, &format!("{up} taken 1_no_5")), Ok(()));
        assert_eq!(verdict(plan, &script, &format!("{up} taken raise_{other}")), Err(Broken::DrawsTooMuch));
    }
    assert_eq!(verdict(plan, "0_want_2_1 tick_1 drawn", "taken raise_2 good_2 0_done 4294967295"), Ok(()));
}

#[test]
fn lines_of_draws() {
    let line = |line: &str, printed: &str| assert_eq!(verdict(line, "", printed), Ok(()), "{line}");
    for bad in [
        "part 0 draws",
        "part 0 draws needs",
        "part 0 draws x",
        "part 0 draws 1 needs",
        "gives",
        "gives 1 2",
        "gives x",
        "drawn",
        "draws 1",
    ] {
        line(&format!("{bad}\nrun\n"), "line_1?");
    }
    let fifteen = ["1"; 15].join(" ");
    for refused in ["part 0 draws 2 1", "part 0 draws 4294967296 4294967294", &format!("part 0 draws {fifteen} 1")] {
        line(&format!("{refused}\nrun\n"), "no_plan");
    }
    for taken in [
        "part 0 draws 0",
        "part 0 draws 4294967296 4294967295",
        &format!("part 0 draws {fifteen}"),
        "gives 0\ngives 9",
        "gives 99999999999",
    ] {
        line(&format!("{taken}\nrun\n"), "");
    }
    // The last `gives` counts, and another plan starts afresh.
    let want = "0_want_0_1 tick_1";
    assert_eq!(verdict("gives 5\npart 0 draws 4\ngives 3\nrun\n", want, "taken 0_no_5"), Ok(()));
    assert_eq!(verdict("gives 3\npart 0 draws 4\ngives 5\nrun\n", want, "taken 0_no_5"), Err(Broken::CanBe));
    assert_eq!(verdict("gives 3\nrun\nnew\npart 0 draws 4\nrun\n", want, "taken 0_no_5"), Err(Broken::CanBe));
}
