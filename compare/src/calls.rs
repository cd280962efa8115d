//! The eleven calls and the order of their refusals, as document 01 and requests
//! e and g give it.

use crate::kind::Stated;
use reference::command::Command;

/// The refusal of a wrong length, and of numbers that state no kind of disc.
pub const SIZE: u32 = 1;
/// A lent buffer can't hold the answer.
pub const SHORT: u32 = 10;
/// The bytes are no list of writes to sectors on the disc.
pub const BAD_LIST: u32 = 14;
/// The disc breaks a rule: of a repair, one of those that it needs.
pub const UNSOUND: u32 = 3;

#[derive(Debug, Clone, Copy, PartialEq, Eq, PartialOrd, Ord)]
pub enum Call {
    Check,
    List,
    Read,
    Save,
    Delete,
    Rename,
    Protect,
    Blank,
    View,
    Replay,
    Repair,
}

impl Call {
    pub const ALL: [Call; 11] = [
        Call::Check,
        Call::List,
        Call::Read,
        Call::Save,
        Call::Delete,
        Call::Rename,
        Call::Protect,
        Call::Blank,
        Call::View,
        Call::Replay,
        Call::Repair,
    ];

    pub fn of(command: &Command) -> Call {
        match command {
            Command::Check => Call::Check,
            Command::List { .. } => Call::List,
            Command::Read { .. } => Call::Read,
            Command::Save { .. } => Call::Save,
            Command::Delete { .. } => Call::Delete,
            Command::Rename { .. } => Call::Rename,
            Command::Protect { .. } => Call::Protect,
            Command::Blank { .. } => Call::Blank,
            Command::View { .. } => Call::View,
            Command::Replay { .. } => Call::Replay,
            Command::Repair => Call::Repair,
        }
    }

    pub fn name(self) -> &'static str {
        match self {
            Call::Check => "check",
            Call::List => "list",
            Call::Read => "read",
            Call::Save => "save",
            Call::Delete => "delete",
            Call::Rename => "rename",
            Call::Protect => "protect",
            Call::Blank => "blank",
            Call::View => "view",
            Call::Replay => "replay",
            Call::Repair => "repair",
        }
    }

    /// The call's refusals; the first that applies is the answer.
    pub fn order(self) -> &'static [u32] {
        match self {
            Call::Check => &[1],
            Call::List => &[1, 3, 10],
            Call::Read => &[1, 2, 3, 4, 9, 10],
            Call::Save => &[1, 2, 7, 3, 5, 8, 10],
            Call::Delete => &[1, 2, 3, 4, 6, 10],
            Call::Rename => &[1, 2, 3, 4, 6, 5, 10],
            Call::Protect => &[1, 2, 3, 4, 10],
            Call::Blank => &[1, 2],
            Call::View => &[1, 11],
            Call::Replay => &[1, 14],
            Call::Repair => &[1, 3],
        }
    }

    /// What the call can answer where this is stated.
    pub fn answers(self, stated: Stated) -> Vec<u32> {
        match stated {
            Stated::Kind(_) => std::iter::once(0)
                .chain(self.order().iter().copied())
                .collect(),
            _ => vec![SIZE],
        }
    }

    /// The pairs of refusals that can apply at once where this is stated, the
    /// answer first. Where no kind of disc is stated, it is 1.
    pub fn pairs(self, stated: Stated) -> Vec<(u32, u32)> {
        let order = self.order();
        let after = |at: usize| order[at + 1..].iter().map(move |&later| (order[at], later));
        (0..order.len())
            .flat_map(after)
            .filter(|&(first, later)| self.can_all_apply(&[first, later]))
            .filter(|&(first, _)| stated.kind().is_some() || first == SIZE)
            .collect()
    }

    /// Whether these refusals can apply at once. An absent file is neither
    /// protected nor other than plain, and an illegal name is no file's. Of
    /// rename's two names one may be illegal and the other a file's. No list is
    /// of no bytes, so an empty buffer is short whatever else applies.
    pub fn can_all_apply(self, refusals: &[u32]) -> bool {
        let has = |number: &u32| refusals.contains(number);
        let of_old_name = [4, 6, 9].iter().filter(|number| has(number)).count();
        let of_new_name = usize::from(has(&5));
        let names = if self == Call::Rename { 2 } else { 1 };
        let names_spoken_of = usize::from(has(&2)) + of_old_name + of_new_name;
        of_old_name <= 1 && names_spoken_of <= names
    }
}

#[cfg(test)]
mod tests {
    use super::*;
    use crate::kind::Kind;

    #[test]
    fn pairs_follow_the_order() {
        for stated in Kind::ALL.map(Stated::Kind) {
            assert_eq!(Call::Check.pairs(stated), []);
            assert_eq!(Call::View.pairs(stated), [(1, 11)]);
            assert_eq!(Call::List.pairs(stated), [(1, 3), (1, 10), (3, 10)]);
            let protect = [(1, 2), (1, 3), (1, 4), (1, 10), (2, 3), (2, 10), (3, 4)];
            assert_eq!(Call::Protect.pairs(stated)[..7], protect);
            assert_eq!(Call::Protect.pairs(stated)[7..], [(3, 10), (4, 10)]);
            assert_eq!(Call::Replay.pairs(stated), [(1, 14)]);
            assert_eq!(Call::Repair.pairs(stated), [(1, 3)]);
            assert!(Call::Save.pairs(stated).contains(&(8, 10)));
            assert!(Call::Delete.pairs(stated).contains(&(6, 10)));
            assert!(Call::Rename.pairs(stated).contains(&(5, 10)));
            assert!(Call::Rename.pairs(stated).contains(&(6, 5)));
            assert!(Call::Rename.pairs(stated).contains(&(2, 5)));
            assert!(!Call::Save.pairs(stated).contains(&(2, 5)));
        }
        assert!(!Call::Rename.can_all_apply(&[2, 4, 5]));
        assert!(!Call::Read.can_all_apply(&[1, 4, 9]));
    }

    #[test]
    fn numbers_that_state_no_kind_are_answered_with_1() {
        for stated in [Stated::NoSectors, Stated::NoArrangement, Stated::NineMoved] {
            assert_eq!(Call::List.answers(stated), [1]);
            let protect = [(1, 2), (1, 3), (1, 4), (1, 10)];
            assert_eq!(Call::Protect.pairs(stated), protect);
            assert_eq!(Call::Replay.pairs(stated), [(1, 14)]);
            assert_eq!(Call::Repair.pairs(stated), [(1, 3)]);
        }
        assert_eq!(Call::List.answers(Stated::Kind(Kind::Nine)), [0, 1, 3, 10]);
    }
}
