//! The book, a second time: plain Rust, written from docs/BOOK.md alone. Two sorted lists of levels, and nothing to look
//! an order up by but a walk through them.

use crate::messages::{Cancel, Command, NewOrder, Side};

/// How many orders may rest, on both sides together.
pub const MOST_RESTING: usize = 1_024;

/// The book is full and the order would not trade.
pub const BOOK_FULL: u32 = 3;
/// There is no such order to cancel.
pub const NO_SUCH_ORDER: u32 = 5;
/// An order of that member with that number rests already.
pub const NUMBER_IN_USE: u32 = 6;

/// Splits a quantity over the lots of a queue, oldest first.
pub type Policy = fn(u32, &[u32]) -> Vec<u32>;

/// What an entry tells of an order.
#[derive(Debug, Clone, Copy, PartialEq, Eq)]
pub enum Kind {
    Accepted,
    Filled,
    Cancelled,
    TurnedDown,
}

impl Kind {
    /// The character by which FIX knows the kind (ExecType).
    pub fn character(self) -> char {
        match self {
            Kind::Accepted => '0',
            Kind::Filled => 'F',
            Kind::Cancelled => '4',
            Kind::TurnedDown => '8',
        }
    }
}

/// What happened to one order. The figures that the kind does not name are 0.
#[derive(Debug, Clone, Copy, PartialEq, Eq)]
pub struct Entry {
    /// The number of the command that was put through, which need not be the one that brought the order.
    pub command: u32,
    pub member: u32,
    pub order: u32,
    /// 1 buy, 2 sell.
    pub side: u32,
    pub kind: Kind,
    pub lots: u32,
    pub price: u32,
    /// The lots of this order that are left.
    pub leaves: u32,
    pub reason: u32,
}

impl Entry {
    /// An entry with the values that always stand. A kind names its further ones over this.
    fn of(kind: Kind, command: u32, member: u32, order: u32) -> Entry {
        Entry { command, member, order, side: 0, kind, lots: 0, price: 0, leaves: 0, reason: 0 }
    }

    fn of_new(kind: Kind, new: &NewOrder) -> Entry {
        Entry { side: new.side.number(), ..Entry::of(kind, new.number, new.member, new.order) }
    }
}

/// What is left of an order that was not filled whole.
#[derive(Debug, Clone, Copy, PartialEq, Eq)]
pub struct Resting {
    pub member: u32,
    pub order: u32,
    pub lots: u32,
}

impl Resting {
    fn is(&self, member: u32, order: u32) -> bool {
        self.member == member && self.order == order
    }
}

/// A price and the orders of one side that rest at it, oldest first. There is always at least one.
#[derive(Debug, Clone, PartialEq, Eq)]
pub struct Level {
    pub price: u32,
    pub queue: Vec<Resting>,
}

/// All orders that rest. Each side is its levels, best first.
#[derive(Debug, Clone, Default, PartialEq, Eq)]
pub struct Book {
    buys: Vec<Level>,
    sells: Vec<Level>,
}

impl Book {
    /// The levels of a side, best first.
    pub fn levels(&self, side: Side) -> &[Level] {
        match side {
            Side::Buy => &self.buys,
            Side::Sell => &self.sells,
        }
    }

    fn levels_mut(&mut self, side: Side) -> &mut Vec<Level> {
        match side {
            Side::Buy => &mut self.buys,
            Side::Sell => &mut self.sells,
        }
    }

    /// Every order that rests: buys first, best first, oldest first.
    pub fn orders(&self) -> impl Iterator<Item = &Resting> {
        self.buys.iter().chain(&self.sells).flat_map(|level| &level.queue)
    }

    /// How many orders rest.
    pub fn resting(&self) -> usize {
        self.orders().count()
    }

    /// Whether an order of that member with that number rests.
    pub fn rests(&self, member: u32, order: u32) -> bool {
        self.orders().any(|resting| resting.is(member, order))
    }

    /// Whether an order on `side` at `price` would trade with what rests.
    pub fn would_trade(&self, side: Side, price: u32) -> bool {
        self.levels(side.other()).first().is_some_and(|best| crosses(side, price, best.price))
    }

    /// Puts a command through and answers what happened to each order.
    pub fn put(&mut self, policy: Policy, command: &Command) -> Vec<Entry> {
        match command {
            Command::New(new) => self.put_new(policy, new),
            Command::Cancel(cancel) => vec![self.put_cancel(cancel)],
        }
    }

    fn put_new(&mut self, policy: Policy, new: &NewOrder) -> Vec<Entry> {
        if let Some(reason) = self.objection(new) {
            return vec![Entry { reason, ..Entry::of_new(Kind::TurnedDown, new) }];
        }
        let mut entries = vec![Entry { lots: new.lots, leaves: new.lots, ..Entry::of_new(Kind::Accepted, new) }];
        let left = self.trade(policy, new, &mut entries);
        if left > 0 {
            self.rest(new, left);
        }
        entries
    }

    /// Why an order is turned down, if it is. A number that is in use is told before a book that is full.
    fn objection(&self, new: &NewOrder) -> Option<u32> {
        if self.rests(new.member, new.order) {
            return Some(NUMBER_IN_USE);
        }
        // An order that trades is taken even by a full book: it rests only where the levels it met are gone.
        if self.resting() >= MOST_RESTING && !self.would_trade(new.side, new.price) {
            return Some(BOOK_FULL);
        }
        None
    }

    /// Trades an order with the levels that cross it, as far as it goes, and answers the lots that are left of it.
    fn trade(&mut self, policy: Policy, new: &NewOrder, entries: &mut Vec<Entry>) -> u32 {
        let mut left = new.lots;
        let levels = self.levels_mut(new.side.other());
        for level in levels.iter_mut().take_while(|level| crosses(new.side, new.price, level.price)) {
            // A policy is never asked to split nothing.
            if left == 0 {
                break;
            }
            left = trade_at(level, policy, new, left, entries);
        }
        levels.retain(|level| !level.queue.is_empty());
        left
    }

    /// Lets what is left of an order rest, last in the queue of its price.
    fn rest(&mut self, new: &NewOrder, lots: u32) {
        let levels = self.levels_mut(new.side);
        let place = levels.iter().take_while(|level| is_better(new.side, level.price, new.price)).count();
        if levels.get(place).is_none_or(|level| level.price != new.price) {
            levels.insert(place, Level { price: new.price, queue: Vec::new() });
        }
        levels[place].queue.push(Resting { member: new.member, order: new.order, lots });
    }

    fn put_cancel(&mut self, cancel: &Cancel) -> Entry {
        let of = |kind| Entry::of(kind, cancel.number, cancel.member, cancel.order);
        match self.take_out(cancel.member, cancel.order) {
            Some((side, lots)) => Entry { side: side.number(), lots, ..of(Kind::Cancelled) },
            None => Entry { reason: NO_SUCH_ORDER, ..of(Kind::TurnedDown) },
        }
    }

    /// Takes an order out and answers its side and the lots that were left of it.
    fn take_out(&mut self, member: u32, order: u32) -> Option<(Side, u32)> {
        for side in [Side::Buy, Side::Sell] {
            let levels = self.levels_mut(side);
            for level in levels.iter_mut() {
                if let Some(place) = level.queue.iter().position(|resting| resting.is(member, order)) {
                    let lots = level.queue.remove(place).lots;
                    levels.retain(|level| !level.queue.is_empty());
                    return Some((side, lots));
                }
            }
        }
        None
    }
}

/// Trades `left` lots of an order with one level and answers the lots that are left then.
fn trade_at(level: &mut Level, policy: Policy, new: &NewOrder, mut left: u32, entries: &mut Vec<Entry>) -> u32 {
    let lots: Vec<u32> = level.queue.iter().map(|resting| resting.lots).collect();
    let fills = policy(left, &lots);
    for (resting, fill) in level.queue.iter_mut().zip(fills).filter(|(_, fill)| *fill > 0) {
        resting.lots -= fill;
        left -= fill;
        entries.push(Entry {
            side: new.side.other().number(),
            lots: fill,
            price: level.price,
            leaves: resting.lots,
            ..Entry::of(Kind::Filled, new.number, resting.member, resting.order)
        });
        entries.push(Entry { lots: fill, price: level.price, leaves: left, ..Entry::of_new(Kind::Filled, new) });
    }
    level.queue.retain(|resting| resting.lots > 0);
    left
}

/// Whether an order on `side` at `price` trades with the other side's price `other`.
fn crosses(side: Side, price: u32, other: u32) -> bool {
    match side {
        Side::Buy => other <= price,
        Side::Sell => other >= price,
    }
}

/// Whether, on a side, a level at `one` stands before a level at `other`.
fn is_better(side: Side, one: u32, other: u32) -> bool {
    match side {
        Side::Buy => one > other,
        Side::Sell => one < other,
    }
}

#[cfg(test)]
mod tests {
    use super::*;
    use crate::messages::Side::{Buy, Sell};
    use crate::policies::{fifo, pro_rata};

    /// Member, order and lots of each resting order, oldest first.
    type Queue = Vec<(u32, u32, u32)>;

    /// A book of one policy that numbers its commands from 1 and shows entries as rows of the nine values.
    struct Hall {
        book: Book,
        policy: Policy,
        commands: u32,
    }

    impl Hall {
        fn new(policy: Policy) -> Hall {
            Hall { book: Book::default(), policy, commands: 0 }
        }

        fn order(&mut self, member: u32, order: u32, side: Side, lots: u32, price: u32) -> Vec<String> {
            self.commands += 1;
            let number = self.commands;
            self.put(Command::New(NewOrder { member, number, order, side, lots, price }))
        }

        fn cancel(&mut self, member: u32, order: u32) -> Vec<String> {
            self.commands += 1;
            let number = self.commands;
            self.put(Command::Cancel(Cancel { member, number, order }))
        }

        fn put(&mut self, command: Command) -> Vec<String> {
            self.book.put(self.policy, &command).iter().map(row).collect()
        }

        /// Price and queue of each level, best first.
        fn side(&self, side: Side) -> Vec<(u32, Queue)> {
            let queue = |level: &Level| level.queue.iter().map(|r| (r.member, r.order, r.lots)).collect();
            self.book.levels(side).iter().map(|level| (level.price, queue(level))).collect()
        }
    }

    fn row(entry: &Entry) -> String {
        let Entry { command, member, order, side, kind, lots, price, leaves, reason } = entry;
        format!("{command} {member} {order} {side} {} {lots} {price} {leaves} {reason}", kind.character())
    }

    #[test]
    fn an_order_that_meets_nothing_rests() {
        let mut hall = Hall::new(fifo);
        assert_eq!(hall.order(7, 1, Sell, 10, 1000), ["1 7 1 2 0 10 0 10 0"]);
        assert_eq!(hall.order(8, 1, Buy, 5, 999), ["2 8 1 1 0 5 0 5 0"]);
        assert_eq!(hall.side(Sell), [(1000, vec![(7, 1, 10)])]);
        assert_eq!(hall.side(Buy), [(999, vec![(8, 1, 5)])]);
    }

    #[test]
    fn sides_stand_best_first_and_queues_oldest_first() {
        let mut hall = Hall::new(fifo);
        for (order, side, price) in [(1, Buy, 90), (2, Buy, 92), (3, Buy, 91), (4, Buy, 92)] {
            hall.order(1, order, side, 1, price);
        }
        for (order, side, price) in [(5, Sell, 97), (6, Sell, 95), (7, Sell, 96), (8, Sell, 95)] {
            hall.order(1, order, side, 1, price);
        }
        let buys = [(92, vec![(1, 2, 1), (1, 4, 1)]), (91, vec![(1, 3, 1)]), (90, vec![(1, 1, 1)])];
        let sells = [(95, vec![(1, 6, 1), (1, 8, 1)]), (96, vec![(1, 7, 1)]), (97, vec![(1, 5, 1)])];
        assert_eq!((hall.side(Buy), hall.side(Sell)), (buys.to_vec(), sells.to_vec()));
        assert_eq!(hall.book.resting(), 8);
    }

    #[test]
    fn a_cancel_takes_out_what_is_left() {
        let mut hall = Hall::new(fifo);
        hall.order(7, 1, Sell, 10, 1000);
        hall.order(8, 1, Buy, 4, 1000);
        assert_eq!(hall.cancel(7, 1), ["3 7 1 2 4 6 0 0 0"]);
        assert_eq!(hall.book, Book::default());
    }

    #[test]
    fn a_cancel_of_what_does_not_rest_is_turned_down() {
        let mut hall = Hall::new(fifo);
        hall.order(7, 1, Sell, 10, 1000);
        // another member, another number, and an order that is gone
        assert_eq!(hall.cancel(8, 1), ["2 8 1 0 8 0 0 0 5"]);
        assert_eq!(hall.cancel(7, 2), ["3 7 2 0 8 0 0 0 5"]);
        hall.cancel(7, 1);
        assert_eq!(hall.cancel(7, 1), ["5 7 1 0 8 0 0 0 5"]);
    }

    #[test]
    fn a_number_in_use_is_turned_down_on_either_side_even_where_it_would_trade() {
        let mut hall = Hall::new(fifo);
        hall.order(7, 1, Sell, 10, 1000);
        assert_eq!(hall.order(7, 1, Sell, 3, 1001), ["2 7 1 2 8 0 0 0 6"]);
        assert_eq!(hall.order(7, 1, Buy, 3, 1000), ["3 7 1 1 8 0 0 0 6"]);
        assert_eq!(hall.side(Sell), [(1000, vec![(7, 1, 10)])]);
        // another member's order of the same number is another order
        assert_eq!(hall.order(8, 1, Sell, 3, 1000), ["4 8 1 2 0 3 0 3 0"]);
    }

    #[test]
    fn a_number_may_be_used_anew_once_its_order_is_gone() {
        let mut hall = Hall::new(fifo);
        hall.order(7, 1, Sell, 10, 1000);
        hall.order(8, 1, Buy, 10, 1000);
        assert_eq!(hall.order(7, 1, Buy, 5, 990), ["3 7 1 1 0 5 0 5 0"]);
        hall.cancel(7, 1);
        assert_eq!(hall.order(7, 1, Sell, 6, 995), ["5 7 1 2 0 6 0 6 0"]);
    }

    #[test]
    fn a_member_may_trade_with_itself() {
        let mut hall = Hall::new(fifo);
        hall.order(7, 1, Sell, 10, 1000);
        let entries = ["2 7 2 1 0 4 0 4 0", "2 7 1 2 F 4 1000 6 0", "2 7 2 1 F 4 1000 0 0"];
        assert_eq!(hall.order(7, 2, Buy, 4, 1000), entries);
    }

    #[test]
    fn an_order_filled_in_part_keeps_its_place() {
        let mut hall = Hall::new(fifo);
        hall.order(1, 1, Buy, 10, 50);
        hall.order(2, 1, Buy, 10, 50);
        hall.order(3, 1, Sell, 4, 50);
        assert_eq!(hall.side(Buy), [(50, vec![(1, 1, 6), (2, 1, 10)])]);
        let entries = [
            "4 3 2 2 0 9 0 9 0",
            "4 1 1 1 F 6 50 0 0",
            "4 3 2 2 F 6 50 3 0",
            "4 2 1 1 F 3 50 7 0",
            "4 3 2 2 F 3 50 0 0",
        ];
        assert_eq!(hall.order(3, 2, Sell, 9, 50), entries);
    }

    #[test]
    fn what_is_left_rests_last_at_the_orders_own_price() {
        let mut hall = Hall::new(fifo);
        hall.order(1, 1, Sell, 5, 100);
        hall.order(2, 1, Sell, 5, 103);
        hall.order(3, 1, Buy, 8, 102);
        assert_eq!(hall.side(Buy), [(102, vec![(3, 1, 3)])]);
        hall.order(4, 1, Sell, 1, 101);
        assert_eq!(hall.side(Buy), [(102, vec![(3, 1, 2)])]);
        hall.order(5, 1, Buy, 2, 102);
        assert_eq!(hall.side(Buy), [(102, vec![(3, 1, 2), (5, 1, 2)])]);
        assert_eq!(hall.side(Sell), [(103, vec![(2, 1, 5)])]);
    }

    #[test]
    fn several_levels_are_met_best_first_and_each_at_its_own_price() {
        let mut hall = Hall::new(fifo);
        hall.order(1, 1, Buy, 3, 98);
        hall.order(1, 2, Buy, 2, 100);
        hall.order(1, 3, Buy, 4, 99);
        let entries = [
            "4 2 1 2 0 10 0 10 0",
            "4 1 2 1 F 2 100 0 0",
            "4 2 1 2 F 2 100 8 0",
            "4 1 3 1 F 4 99 0 0",
            "4 2 1 2 F 4 99 4 0",
        ];
        assert_eq!(hall.order(2, 1, Sell, 10, 99), entries);
        assert_eq!(hall.side(Buy), [(98, vec![(1, 1, 3)])]);
        assert_eq!(hall.side(Sell), [(99, vec![(2, 1, 4)])]);
    }

    #[test]
    fn pro_rata_deals_the_rounding_to_the_oldest() {
        let mut hall = Hall::new(pro_rata);
        for member in 1..=3 {
            hall.order(member, 1, Sell, 3, 100);
        }
        let entries = [
            "4 9 1 1 0 5 0 5 0",
            "4 1 1 2 F 3 100 0 0",
            "4 9 1 1 F 3 100 2 0",
            "4 2 1 2 F 1 100 2 0",
            "4 9 1 1 F 1 100 1 0",
            "4 3 1 2 F 1 100 2 0",
            "4 9 1 1 F 1 100 0 0",
        ];
        assert_eq!(hall.order(9, 1, Buy, 5, 100), entries);
        assert_eq!(hall.side(Sell), [(100, vec![(2, 1, 2), (3, 1, 2)])]);
    }

    #[test]
    fn a_fill_of_no_lots_gives_no_entry() {
        let mut hall = Hall::new(pro_rata);
        hall.order(1, 1, Sell, 1, 100);
        hall.order(2, 1, Sell, 100, 100);
        hall.order(3, 1, Sell, 1, 100);
        // the shares of 50 are 0, 49 and 0; the oldest takes the remainder
        let entries = [
            "4 9 1 1 0 50 0 50 0",
            "4 1 1 2 F 1 100 0 0",
            "4 9 1 1 F 1 100 49 0",
            "4 2 1 2 F 49 100 51 0",
            "4 9 1 1 F 49 100 0 0",
        ];
        assert_eq!(hall.order(9, 1, Buy, 50, 100), entries);
        assert_eq!(hall.side(Sell), [(100, vec![(2, 1, 51), (3, 1, 1)])]);
    }

    /// 1,024 sells of 2 lots, four at each price from 1,001 on.
    fn full_hall() -> Hall {
        let mut hall = Hall::new(fifo);
        for i in 0..1_024 {
            let entries = hall.order(1, i + 1, Sell, 2, 1_001 + i / 4);
            assert_eq!(entries.len(), 1);
        }
        assert_eq!(hall.book.resting(), 1_024);
        hall
    }

    #[test]
    fn a_full_book_turns_down_what_would_only_rest() {
        let mut hall = full_hall();
        let before = hall.book.clone();
        assert_eq!(hall.order(2, 1, Buy, 1, 1_000), ["1025 2 1 1 8 0 0 0 3"]);
        assert_eq!(hall.order(2, 1, Sell, 1, 1_000), ["1026 2 1 2 8 0 0 0 3"]);
        // a number in use is told first
        assert_eq!(hall.order(1, 1, Buy, 1, 1_000), ["1027 1 1 1 8 0 0 0 6"]);
        assert_eq!(hall.book, before);
        hall.cancel(1, 500);
        assert_eq!(hall.order(2, 1, Buy, 1, 1_000), ["1029 2 1 1 0 1 0 1 0"]);
        assert_eq!(hall.order(2, 2, Buy, 1, 1_000), ["1030 2 2 1 8 0 0 0 3"]);
    }

    #[test]
    fn a_full_book_takes_an_order_that_crosses() {
        let mut hall = full_hall();
        assert_eq!(hall.order(2, 1, Buy, 1, 1_001).len(), 3);
        assert_eq!(hall.book.resting(), 1_024);
        assert_eq!(hall.order(2, 2, Buy, 1, 1_000), ["1026 2 2 1 8 0 0 0 3"]);
        // the level's 7 lots go, and 3 rest
        assert_eq!(hall.order(2, 2, Buy, 10, 1_001).len(), 9);
        assert_eq!(hall.side(Buy), [(1_001, vec![(2, 2, 3)])]);
        assert_eq!(hall.book.resting(), 1_021);
    }

    #[test]
    fn one_command_may_fill_the_whole_book() {
        let mut hall = full_hall();
        assert_eq!(hall.order(2, 1, Buy, 999_999, 999_999).len(), 2_049);
        assert_eq!(hall.side(Sell), []);
        assert_eq!(hall.side(Buy), [(999_999, vec![(2, 1, 999_999 - 2_048)])]);
    }
}
