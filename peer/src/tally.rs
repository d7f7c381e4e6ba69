//! How often each thing that a book may do occurs in a day: a day that tests a book has to have them all.

use std::collections::{BTreeMap, BTreeSet};

use crate::book::{Book, Entry, Kind, Level, Policy, MOST_RESTING};
use crate::day::Day;
use crate::messages::{Command, NewOrder};

/// What is counted, in the order in which it is shown. The last three are no counts of times: how many members there are,
/// and the largest of two figures.
pub const LABELS: [&str; 22] = [
    "accepted (0)",
    "filled (F)",
    "cancelled (4)",
    "turned down (8)",
    "reason 3",
    "reason 5",
    "reason 6",
    "reason 6 on a full book",
    "trade on a full book",
    "number used anew",
    "trade of a member with itself",
    "resting order filled in part",
    "order through several levels",
    "order that trades and then rests",
    "level whose shares are rounded",
    "1 lot",
    "999,999 lots",
    "price 1",
    "price 999,999",
    "members",
    "most orders resting",
    "most entries of a command",
];

/// The counts of one day under one policy.
pub struct Tally {
    counts: BTreeMap<&'static str, usize>,
}

impl Tally {
    /// Puts the day through a book and counts.
    pub fn of(day: &Day, policy: Policy) -> Tally {
        let mut tally = Tally { counts: BTreeMap::new() };
        let mut book = Book::default();
        let mut names = BTreeSet::new();
        let mut members = BTreeSet::new();
        for command in &day.commands {
            let before = book.clone();
            let entries = book.put(policy, command);
            tally.take_entries(&entries);
            if let Command::New(new) = command {
                tally.take_order(new, &before, &entries);
                let is_new_name = names.insert((new.member, new.order));
                tally.add("number used anew", usize::from(!is_new_name && entries[0].kind == Kind::Accepted));
                members.insert(new.member);
            }
            tally.keep_most("most orders resting", book.resting());
            tally.keep_most("most entries of a command", entries.len());
        }
        tally.add("members", members.len());
        for shape in &day.shapes {
            tally.add(shape.name(), 1);
        }
        tally
    }

    /// How often it occurred: one of `LABELS`, or the name of a shape for its commands.
    pub fn count(&self, label: &str) -> usize {
        self.counts.get(label).copied().unwrap_or(0)
    }

    fn add(&mut self, label: &'static str, times: usize) {
        *self.counts.entry(label).or_default() += times;
    }

    fn keep_most(&mut self, label: &'static str, count: usize) {
        let most = self.counts.entry(label).or_default();
        *most = count.max(*most);
    }

    /// Counts what the entries of one command say by themselves.
    fn take_entries(&mut self, entries: &[Entry]) {
        for entry in entries {
            let kind = match entry.kind {
                Kind::Accepted => "accepted (0)",
                Kind::Filled => "filled (F)",
                Kind::Cancelled => "cancelled (4)",
                Kind::TurnedDown => "turned down (8)",
            };
            self.add(kind, 1);
            match entry.reason {
                3 => self.add("reason 3", 1),
                5 => self.add("reason 5", 1),
                6 => self.add("reason 6", 1),
                _ => {}
            }
        }
        for (resting, incoming) in trades(entries) {
            self.add("trade of a member with itself", usize::from(resting.member == incoming.member));
            self.add("resting order filled in part", usize::from(resting.leaves > 0));
        }
    }

    /// Counts what an order met in the book as it was before.
    fn take_order(&mut self, new: &NewOrder, before: &Book, entries: &[Entry]) {
        let prices: BTreeSet<u32> = trades(entries).map(|(resting, _)| resting.price).collect();
        let trades_at_all = !prices.is_empty();
        let is_full = before.resting() == MOST_RESTING;
        let rests = trades(entries).last().is_some_and(|(_, incoming)| incoming.leaves > 0);
        let best = before.levels(new.side.other()).first();
        let rounds = trades_at_all && best.is_some_and(|level| is_rounded(new.lots, level));
        for (label, occurs) in [
            ("reason 6 on a full book", is_full && entries[0].reason == 6),
            ("trade on a full book", is_full && trades_at_all),
            ("order through several levels", prices.len() > 1),
            ("order that trades and then rests", rests),
            ("level whose shares are rounded", rounds),
            ("1 lot", new.lots == 1),
            ("999,999 lots", new.lots == 999_999),
            ("price 1", new.price == 1),
            ("price 999,999", new.price == 999_999),
        ] {
            self.add(label, usize::from(occurs));
        }
    }
}

/// The two entries of each trade, the resting order's and the incoming order's.
fn trades(entries: &[Entry]) -> impl Iterator<Item = (&Entry, &Entry)> {
    // The entry before them says that the order was accepted.
    entries.iter().skip(1).step_by(2).zip(entries.iter().skip(2).step_by(2))
}

/// Whether the shares of a level in a quantity leave a remainder.
fn is_rounded(quantity: u32, level: &Level) -> bool {
    let total: u64 = level.queue.iter().map(|resting| u64::from(resting.lots)).sum();
    let trades = u64::from(quantity).min(total);
    level.queue.iter().any(|resting| trades * u64::from(resting.lots) % total > 0)
}

#[cfg(test)]
mod tests {
    use super::*;
    use crate::day::Shape;
    use crate::messages::{parse_first, Refusal};
    use crate::policies::{fifo, pro_rata};

    #[test]
    fn a_day_of_two_thousand_has_everything_under_both_policies() {
        for seed in 1..=6 {
            let day = Day::new(seed, 2_000, None);
            assert_eq!(day.commands.len(), 2_000);
            for policy in [fifo, pro_rata] {
                let tally = Tally::of(&day, policy);
                let shapes = Shape::ALL.map(Shape::name);
                for label in LABELS.iter().chain(&shapes) {
                    assert!(tally.count(label) > 0, "seed {seed}: {label}");
                }
                assert_eq!(tally.count("most orders resting"), MOST_RESTING);
            }
        }
    }

    #[test]
    fn some_day_has_an_order_that_meets_a_whole_full_book() {
        let days = (1..=10).map(|seed| Day::new(seed, 2_000, Some(Shape::Full)));
        let most = days.map(|day| Tally::of(&day, fifo).count("most entries of a command")).max();
        assert_eq!(most, Some(2_049));
    }

    #[test]
    fn a_short_day_fills_no_book() {
        let tally = Tally::of(&Day::new(1, 300, None), fifo);
        assert_eq!((tally.count("full"), tally.count("reason 3")), (0, 0));
    }

    #[test]
    fn commands_are_numbered_from_one_and_are_in_their_ranges() {
        for shape in [None].into_iter().chain(Shape::ALL.map(Some)) {
            let day = Day::new(7, 1_700, shape);
            let messages = day.messages();
            let mut rest = &messages[..];
            for (place, expected) in day.commands.iter().enumerate() {
                let (command, length) = parse_first(rest).expect("a right message");
                assert_eq!(command, *expected);
                assert_eq!(number(&command), place as u32 + 1);
                rest = &rest[length..];
            }
            assert!(rest.is_empty());
        }
    }

    fn number(command: &Command) -> u32 {
        match command {
            Command::New(new) => new.number,
            Command::Cancel(cancel) => cancel.number,
        }
    }

    #[test]
    fn a_wrong_end_is_wrong_in_four_ways() {
        let day = Day::new(1, 1, Some(Shape::Quiet));
        let length = day.messages().len();
        let refusals = [0, 1, 2, 3].map(|seed| parse_first(&day.messages_with_wrong_end(seed)));
        let field = |place| Err(Refusal::Field { place });
        assert_eq!(refusals, [field(20), Err(Refusal::Count), Err(Refusal::Sum), field(length - 7)]);
    }
}
