//! The least that the library finds, against the lowest levels found by putting up whatever is too low.
#![cfg(not(feature = "plain"))]

use buoy::cases::plans::{self, Part, Plan, entry};
use buoy::rng::Rng;
use buoy::{NoLeast, least, makes_sense};

const TOP: u32 = 15;

fn text(plan: &Plan) -> Vec<u8> {
    plan.lines().into_iter().flat_map(|line| [line.into_bytes(), b"\n".to_vec()].concat()).collect()
}

fn lowest(plan: &Plan, wants: &[u32]) -> Result<[u32; 64], NoLeast> {
    let mut levels = [0; 64];
    levels[..wants.len()].copy_from_slice(wants);
    // From the last part to the first, twice, so that the order can't matter.
    for _ in 0..2 {
        for (x, part) in plan.parts.iter().enumerate().rev() {
            for need in &part.needs {
                let least = entry(&need.levels, levels[x]);
                let on = &mut levels[need.on as usize];
                *on = (*on).max(least);
            }
        }
    }
    let allowed = |(x, part): (usize, &Part)| levels[x] == 0 || part.needs.iter().all(|need| levels[need.on as usize] <= need.most);
    let fits = levels.iter().all(|&l| l <= TOP) && plan.parts.iter().enumerate().all(allowed);
    let drawn: u64 = plan.parts.iter().zip(levels).map(|(part, level)| u64::from(entry(&part.draws, level))).sum();
    let is_given = drawn <= u64::from(plan.gives.unwrap_or(u32::MAX));
    (fits && is_given).then_some(levels).ok_or(NoLeast::CannotBe)
}

#[test]
fn as_low_as_can_be() {
    let mut rng = Rng::new(7);
    let (mut can, mut cannot) = (0, 0);
    for _ in 0..20_000 {
        let plan = plans::random(&mut rng);
        let mut wants = vec![0; plan.len() as usize];
        for _ in 0..plan.len().min(3) {
            let x = rng.below(plan.len()) as usize;
            wants[x] = rng.below(18);
        }
        let found = least(&text(&plan), &wants);
        assert_eq!(found, lowest(&plan, &wants), "{} wants {wants:?}", String::from_utf8_lossy(&text(&plan)));
        if found.is_ok() { can += 1 } else { cannot += 1 }
    }
    assert!(can > 1000 && cannot > 1000, "{can} can be, {cannot} can't");
}

#[test]
fn what_is_no_plan() {
    for bad in [
        "part 1\n",
        "part 0 draws 2 1\n",
        "part 0 draws\n",
        "gives\n",
        "part 0 needs 0 from 1 most 1\n",
        "?\n",
        "part 0\n5 want 0 1\n",
        "part 0\npart 1 needs 0 from 3 2 most 15\n",
    ] {
        assert!(!makes_sense(bad.as_bytes()), "{bad}");
        assert_eq!(least(bad.as_bytes(), &[]), Err(NoLeast::NoPlan));
    }
    assert!(makes_sense(b""));
    assert!(makes_sense(b"gives 5\npart 0 draws 1 2\n"));
    assert!(makes_sense(b"part 0\npart 1 needs 0 from 2 3 most 15\nrun\n"));
    assert_eq!(least(b"gives 5\npart 0 draws 1 6\n", &[1]).map(|l| l[0]), Ok(1));
    assert_eq!(least(b"gives 5\npart 0 draws 1 6\n", &[2]), Err(NoLeast::CannotBe));
    assert_eq!(least(b"part 0\npart 1 needs 0 from 2 3 most 15\n", &[0, 2]).map(|l| l[..2].to_vec()), Ok(vec![3, 2]));
}
