//! Askings: how many there may be, and whether those that weren't printed have room beside those that were.

use std::cmp::Reverse;
use std::collections::BinaryHeap;

const IN_A_TICK: u64 = 1024;

/// Some ticks that can't be told apart.
struct Span {
    ticks: u64,
    printed: u64,
}

/// Askings that weren't printed, in some of the spans `from` .. `to`, both included.
struct Hidden {
    from: usize,
    to: usize,
    askings: u64,
}

#[derive(Default)]
pub struct Askings {
    spans: Vec<Span>,
    hidden: Vec<Hidden>,
}

impl Askings {
    /// The number of the span that comes next.
    pub fn next_span(&self) -> usize {
        self.spans.len()
    }

    pub fn span(&mut self, ticks: u64, printed: u64) {
        self.spans.push(Span { ticks, printed });
    }

    pub fn hidden(&mut self, from: usize, to: usize, askings: u64) {
        if askings > 0 {
            self.hidden.push(Hidden { from, to, askings });
        }
    }

    /// Whether all can have been done: what must be done earliest is put in first, as soon as it may be.
    pub fn have_room(mut self) -> bool {
        self.hidden.sort_by_key(|h| h.from);
        let mut coming = self.hidden.into_iter().peekable();
        let mut open: BinaryHeap<Reverse<(usize, u64)>> = BinaryHeap::new();
        for (now, span) in self.spans.iter().enumerate() {
            let Some(mut room) = (span.ticks * IN_A_TICK).checked_sub(span.printed) else { return false };
            while let Some(hidden) = coming.next_if(|h| h.from <= now) {
                open.push(Reverse((hidden.to, hidden.askings)));
            }
            while room > 0
                && let Some(Reverse((to, askings))) = open.pop()
            {
                let done = askings.min(room);
                room -= done;
                if done < askings {
                    open.push(Reverse((to, askings - done)));
                }
            }
            if open.peek().is_some_and(|Reverse((to, _))| *to <= now) {
                return false;
            }
        }
        true
    }
}

#[cfg(test)]
mod tests {
    use super::Askings;

    fn of(spans: &[(u64, u64)], hidden: &[(usize, usize, u64)]) -> bool {
        let mut askings = Askings::default();
        spans.iter().for_each(|&(ticks, printed)| askings.span(ticks, printed));
        hidden.iter().for_each(|&(from, to, n)| askings.hidden(from, to, n));
        askings.have_room()
    }

    #[test]
    fn what_is_printed_counts() {
        assert!(of(&[(1, 1024), (2, 2048)], &[]));
        assert!(!of(&[(1, 1025)], &[]));
        assert!(!of(&[(0, 1)], &[]));
    }

    #[test]
    fn what_is_hidden_needs_room() {
        assert!(of(&[(1, 1000), (1, 1000)], &[(0, 1, 48)]));
        assert!(!of(&[(1, 1000), (1, 1000)], &[(0, 1, 49)]));
        assert!(of(&[(1, 1000), (1, 1000)], &[(0, 1, 24), (0, 0, 24)]));
        assert!(!of(&[(1, 1000), (1, 1000)], &[(0, 0, 25)]));
        assert!(!of(&[(1, 1000), (1, 1000)], &[(1, 1, 25)]));
    }
}
