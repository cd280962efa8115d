//! Memory lent to the library from inside a larger buffer.

use reference::generate::Random;

/// As long as two sectors, so that a whole sector written beside the lent
/// memory is seen. So is a whole table of totals where a shorter one was lent.
const GUARDS: usize = 512;
const ALIGNMENTS: usize = 16;
const MOST_GUARDS: usize = GUARDS + ALIGNMENTS;

/// What memory is lent of.
pub trait Item: Copy + PartialEq + 'static {
    const NAME: &'static str;
    /// Differs from place to place, so that no constant passes for a guard.
    const GUARD: &'static [Self; MOST_GUARDS];
}

impl Item for u8 {
    const NAME: &'static str = "byte";
    const GUARD: &'static [u8; MOST_GUARDS] = &{
        let mut bytes = [0; MOST_GUARDS];
        let mut at = 0;
        while at < bytes.len() {
            bytes[at] = (at * 151 + 29) as u8;
            at += 1;
        }
        bytes
    };
}

impl Item for u32 {
    const NAME: &'static str = "total";
    /// Each above the limit of a total, so that a call which reads beside the
    /// table is refused.
    const GUARD: &'static [u32; MOST_GUARDS] = &{
        let mut totals = [0; MOST_GUARDS];
        let mut at = 0;
        while at < totals.len() {
            totals[at] = (1 << 31) + (at as u32) * 0x0001_0F29;
            at += 1;
        }
        totals
    };
}

/// Lent items between guards, at any alignment that they can have.
#[derive(Debug)]
pub struct Lent<T: Item = u8> {
    memory: Vec<T>,
    start: usize,
    end: usize,
}

impl<T: Item> Lent<T> {
    /// A copy of `content`, its alignment drawn at random.
    pub fn new(random: &mut Random, content: &[T]) -> Lent<T> {
        Lent::shifted(random.below(ALIGNMENTS), content)
    }

    /// A copy of `content`, `shift` items from the first alignment.
    pub fn shifted(shift: usize, content: &[T]) -> Lent<T> {
        let start = GUARDS + shift % ALIGNMENTS;
        let end = start + content.len();
        let mut memory = Vec::with_capacity(end + GUARDS);
        memory.extend_from_slice(&T::GUARD[..start]);
        memory.extend_from_slice(content);
        memory.extend_from_slice(&T::GUARD[..GUARDS]);
        Lent { memory, start, end }
    }

    pub fn content(&self) -> &[T] {
        &self.memory[self.start..self.end]
    }

    pub fn content_mut(&mut self) -> &mut [T] {
        &mut self.memory[self.start..self.end]
    }

    /// Where the first changed guard is, counted from the start of the lent
    /// memory.
    pub fn changed_guard(&self) -> Option<isize> {
        let before = first_change(&self.memory[..self.start]);
        let after = first_change(&self.memory[self.end..]);
        before
            .or_else(|| after.map(|at| at + self.end))
            .map(|at| at as isize - self.start as isize)
    }
}

fn first_change<T: Item>(guard: &[T]) -> Option<usize> {
    if *guard == T::GUARD[..guard.len()] {
        return None;
    }
    guard.iter().zip(T::GUARD).position(|(now, was)| now != was)
}

#[cfg(test)]
mod tests {
    use super::*;

    fn every_changed_guard_is_seen<T: Item + std::fmt::Debug>(from: T, to: T) {
        let mut random = Random::new(1);
        for length in [0, 1, 300] {
            let content = vec![from; length];
            let mut lent = Lent::new(&mut random, &content);
            assert_eq!(lent.content(), content);
            lent.content_mut().fill(to);
            assert_eq!(lent.changed_guard(), None);
            let start = lent.start as isize;
            for at in (0..lent.start).chain(lent.end..lent.memory.len()) {
                let guard = lent.memory[at];
                lent.memory[at] = if guard == from { to } else { from };
                assert_eq!(lent.changed_guard(), Some(at as isize - start));
                lent.memory[at] = guard;
            }
        }
    }

    #[test]
    fn lends_a_copy_and_sees_every_changed_guard() {
        every_changed_guard_is_seen(0xA7_u8, 3);
        every_changed_guard_is_seen(7_u32, 1_000_000_000);
    }

    #[test]
    fn alignments_vary() {
        let mut random = Random::new(2);
        let starts: std::collections::BTreeSet<usize> = (0..500)
            .map(|_| Lent::new(&mut random, b"NAME").start)
            .collect();
        assert_eq!(starts.len(), ALIGNMENTS);
    }

    #[test]
    fn guards_of_totals_are_above_the_limit() {
        assert!(u32::GUARD.iter().all(|&guard| guard > 1_000_000_000));
    }
}
