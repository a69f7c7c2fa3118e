// What occurred in a run, counted by names in groups.

use std::collections::BTreeMap;

/// A group and the names that have to occur, a comma between them.
pub type Group = (&'static str, &'static str);

#[derive(Default)]
pub struct Tally {
    met: BTreeMap<(&'static str, String), usize>,
}

impl Tally {
    pub fn meet(&mut self, group: &'static str, name: &str) {
        *self.met.entry((group, String::from(name))).or_default() += 1;
    }

    /// How often it occurred.
    pub fn met(&self, group: &'static str, name: &str) -> usize {
        let met = self.met.get(&(group, String::from(name)));
        met.copied().unwrap_or_default()
    }

    /// What never occurred though it should have; `of` says where.
    pub fn missing(&self, of: &str, groups: impl Iterator<Item = Group>) -> Vec<String> {
        let mut missing = Vec::new();
        for (group, expected) in groups {
            let absent = names(expected).filter(|name| self.met(group, name) == 0);
            missing.extend(absent.map(|name| format!("{of}, {group}: {name}")));
        }
        missing
    }

    /// A line for each group.
    pub fn summary(&self, of: &str, groups: impl Iterator<Item = Group>) -> String {
        let mut text = String::new();
        for (group, expected) in groups {
            let count = |name| format!(" {name}:{}", self.met(group, name));
            let row: Vec<String> = names(expected).map(count).collect();
            text.push_str(&format!("{of}, {group}:{}\n", row.join(",")));
        }
        text
    }

    /// Every group and name that occurred.
    #[cfg(test)]
    pub fn all(&self) -> impl Iterator<Item = String> + '_ {
        let met = self.met.keys();
        met.map(|(group, name)| format!("{group}: {name}"))
    }
}

pub fn names(names: &'static str) -> impl Iterator<Item = &'static str> {
    names.split(", ")
}

#[cfg(test)]
mod tests {
    use super::*;
    use crate::checking::{desks, searches, writings};

    /// Every name is missed until it occurs, and each occurs by itself.
    #[test]
    fn missed_until_met() {
        for groups in [&desks::GROUPS[..], &searches::GROUPS, &writings::GROUPS] {
            let mut tally = Tally::default();
            let all: usize = groups.iter().map(|(_, all)| names(all).count()).sum();
            assert_eq!(tally.missing("a run", groups.iter().copied()).len(), all);
            for &(group, expected) in groups {
                names(expected).for_each(|name| tally.meet(group, name));
            }
            assert!(tally.missing("a run", groups.iter().copied()).is_empty());
            assert_eq!(tally.all().count(), all);
        }
    }
}
