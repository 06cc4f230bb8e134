//! The least that serves wants.

use super::plan::{MAX_PARTS, Plan};

/// A level for each part, 0 where it is off.
pub type Levels = [u8; MAX_PARTS];

/// The least for what is wanted. Needs go to smaller numbers, so once from the last part to the first is enough.
pub fn least(plan: &Plan, wanted: &Levels) -> Levels {
    let mut levels = *wanted;
    for x in (0..plan.parts()).rev() {
        let level = levels[x];
        if level > 0 {
            for need in plan.needs(x) {
                let on = &mut levels[usize::from(need.on)];
                *on = (*on).max(need.least[usize::from(level)]);
            }
        }
    }
    levels
}

/// No part is above what one that isn't off allows, and no more is drawn than is given. None can be above 15, as no list and no want is.
pub fn can_be(plan: &Plan, least: &Levels) -> bool {
    let allowed = |x| least[x] == 0 || plan.needs(x).iter().all(|n| least[usize::from(n.on)] <= n.most);
    (0..plan.parts()).all(allowed) && plan.drawn(least) <= plan.gives()
}
