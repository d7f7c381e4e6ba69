//! The proved book beside a plain one on ordered maps, FIFO and pro-rata. A day of commands goes through each, and the sums over
//! their entries are compared, also with the second implementation's. They are timed in turn, and the best round of each counts.

use std::collections::btree_map::OccupiedEntry;
use std::collections::{BTreeMap, VecDeque};
use std::hint::black_box;
use std::time::Instant;

use peer::book::{Book, Policy, Resting};
use peer::day::Day;
use peer::messages::{Cancel, Command, NewOrder, Side};
use peer::policies::{fifo, pro_rata};
use peer::random::Random;

// Both make one book, put all commands through and answer the sum over all entries. A command is six figures: what it is (0 a cancel,
// 1 a buy, 2 a sell), member, number, order, and lots and price, which a cancel has as 0. `count` is that of the figures.
unsafe extern "C" {
    fn lezdamir_book_fifo(commands: *const u32, count: usize) -> u64;
    fn lezdamir_book_pro_rata(commands: *const u32, count: usize) -> u64;
}

type Run = unsafe extern "C" fn(*const u32, usize) -> u64;

#[inline(never)]
fn proved(run: Run, commands: &[u32]) -> u64 {
    // SAFETY: pointer and length come from a live slice, and the callee keeps neither.
    unsafe { run(commands.as_ptr(), commands.len()) }
}

const FIGURES: usize = 6;
const CANCEL: u32 = 0;
const BUY: u32 = 1;
const SELL: u32 = 2;
const MOST_RESTING: usize = 1_024;

/// Command, member, order, side, kind, lots, price, leaves and reason.
type Entry = [u32; 9];

/// What an entry adds to the sum. Each value has a weight of its own, so that two that are exchanged show.
fn weight(entry: &Entry) -> u64 {
    const WEIGHTS: [u64; 9] = [1, 3, 5, 7, 11, 13, 17, 19, 23];
    entry.iter().zip(WEIGHTS).map(|(&value, weight)| u64::from(value) * weight).sum()
}

fn sum(entries: &[Entry]) -> u64 {
    entries.iter().map(weight).fold(0, u64::wrapping_add)
}

/// A plain book that is made to be fast.
mod plain {
    use super::*;

    pub struct Resting {
        member: u32,
        order: u32,
        lots: u32,
    }

    type Queue = VecDeque<Resting>;
    type Levels = BTreeMap<u32, Queue>;
    /// Side and price by member and order.
    type Index = BTreeMap<(u32, u32), (u32, u32)>;

    /// An order that is being put through.
    pub struct Incoming {
        member: u32,
        number: u32,
        order: u32,
        side: u32,
        left: u32,
        price: u32,
    }

    impl Incoming {
        fn crosses(&self, price: u32) -> bool {
            if self.side == BUY { price <= self.price } else { price >= self.price }
        }

        /// Trades with one resting order and tells both.
        fn fill(&mut self, resting: &mut Resting, lots: u32, price: u32, entries: &mut Vec<Entry>) {
            resting.lots -= lots;
            self.left -= lots;
            let kind = u32::from(b'F');
            let other = BUY + SELL - self.side;
            entries.push([self.number, resting.member, resting.order, other, kind, lots, price, resting.lots, 0]);
            entries.push([self.number, self.member, self.order, self.side, kind, lots, price, self.left, 0]);
        }
    }

    /// What a trade at one level writes to.
    pub struct Notes {
        index: Index,
        entries: Vec<Entry>,
        /// Pro-rata's shares, here so that they are not allocated anew for each level.
        shares: Vec<u32>,
    }

    /// How an incoming order, of which lots are left, trades with a level. Orders that are filled whole leave queue and index.
    pub trait Trade {
        fn trade(incoming: &mut Incoming, queue: &mut Queue, price: u32, notes: &mut Notes);
    }

    pub struct Fifo;
    pub struct ProRata;

    impl Trade for Fifo {
        fn trade(incoming: &mut Incoming, queue: &mut Queue, price: u32, notes: &mut Notes) {
            while incoming.left > 0
                && let Some(oldest) = queue.front_mut()
            {
                let lots = oldest.lots.min(incoming.left);
                incoming.fill(oldest, lots, price, &mut notes.entries);
                if oldest.lots == 0 {
                    notes.index.remove(&(oldest.member, oldest.order));
                    queue.pop_front();
                }
            }
        }
    }

    impl Trade for ProRata {
        fn trade(incoming: &mut Incoming, queue: &mut Queue, price: u32, notes: &mut Notes) {
            let quantity = u64::from(incoming.left);
            let total: u64 = queue.iter().map(|resting| u64::from(resting.lots)).sum();
            // All of a level goes without a division.
            if quantity >= total {
                return Fifo::trade(incoming, queue, price, notes);
            }
            let mut remainder = incoming.left;
            notes.shares.clear();
            for resting in queue.iter() {
                let share = (quantity * u64::from(resting.lots) / total) as u32;
                remainder -= share;
                notes.shares.push(share);
            }
            let mut some_whole = false;
            for (resting, &share) in queue.iter_mut().zip(&notes.shares) {
                let more = remainder.min(resting.lots - share);
                remainder -= more;
                if share + more > 0 {
                    incoming.fill(resting, share + more, price, &mut notes.entries);
                }
                if resting.lots == 0 {
                    notes.index.remove(&(resting.member, resting.order));
                    some_whole = true;
                }
            }
            if some_whole {
                queue.retain(|resting| resting.lots > 0);
            }
        }
    }

    struct Sides {
        buys: Levels,
        sells: Levels,
    }

    impl Sides {
        fn levels(&mut self, side: u32) -> &mut Levels {
            if side == BUY { &mut self.buys } else { &mut self.sells }
        }

        /// The best level of those with which an order on `side` trades.
        fn opposite(&mut self, side: u32) -> Option<OccupiedEntry<'_, u32, Queue>> {
            if side == BUY { self.sells.first_entry() } else { self.buys.last_entry() }
        }
    }

    struct Book {
        sides: Sides,
        notes: Notes,
        /// Queues of levels that are gone, kept for levels to come.
        spare: Vec<Queue>,
    }

    impl Book {
        fn new() -> Book {
            let notes = Notes {
                index: Index::new(),
                entries: Vec::with_capacity(2 * MOST_RESTING + 1),
                shares: Vec::with_capacity(MOST_RESTING),
            };
            Book { sides: Sides { buys: Levels::new(), sells: Levels::new() }, notes, spare: Vec::new() }
        }

        fn crosses_any(&mut self, incoming: &Incoming) -> bool {
            self.sides.opposite(incoming.side).is_some_and(|best| incoming.crosses(*best.key()))
        }

        fn put<T: Trade>(&mut self, mut incoming: Incoming) {
            let Incoming { number, member, order, side, left, .. } = incoming;
            let turned_down = |reason| [number, member, order, side, u32::from(b'8'), 0, 0, 0, reason];
            if self.notes.index.contains_key(&(member, order)) {
                return self.notes.entries.push(turned_down(6));
            }
            if self.notes.index.len() == MOST_RESTING && !self.crosses_any(&incoming) {
                return self.notes.entries.push(turned_down(3));
            }
            self.notes.entries.push([number, member, order, side, u32::from(b'0'), left, 0, left, 0]);
            self.trade::<T>(&mut incoming);
            if incoming.left > 0 {
                self.rest(&incoming);
            }
        }

        fn trade<T: Trade>(&mut self, incoming: &mut Incoming) {
            while incoming.left > 0 {
                let Some(mut best) = self.sides.opposite(incoming.side) else { return };
                let price = *best.key();
                if !incoming.crosses(price) {
                    return;
                }
                T::trade(incoming, best.get_mut(), price, &mut self.notes);
                if best.get().is_empty() {
                    self.spare.push(best.remove());
                }
            }
        }

        fn rest(&mut self, incoming: &Incoming) {
            let &Incoming { member, order, side, left: lots, price, .. } = incoming;
            self.notes.index.insert((member, order), (side, price));
            let levels = self.sides.levels(side);
            let queue = levels.entry(price).or_insert_with(|| self.spare.pop().unwrap_or_default());
            queue.push_back(Resting { member, order, lots });
        }

        fn cancel(&mut self, member: u32, number: u32, order: u32) {
            let entry = match self.take_out(member, order) {
                Some((side, lots)) => [number, member, order, side, u32::from(b'4'), lots, 0, 0, 0],
                None => [number, member, order, 0, u32::from(b'8'), 0, 0, 0, 5],
            };
            self.notes.entries.push(entry);
        }

        /// The side and the lots of the order that was taken out.
        fn take_out(&mut self, member: u32, order: u32) -> Option<(u32, u32)> {
            let (side, price) = self.notes.index.remove(&(member, order))?;
            let levels = self.sides.levels(side);
            let queue = levels.get_mut(&price)?;
            let place = queue.iter().position(|resting| resting.order == order && resting.member == member)?;
            let lots = queue.remove(place)?.lots;
            if queue.is_empty() {
                let queue = levels.remove(&price)?;
                self.spare.push(queue);
            }
            Some((side, lots))
        }
    }

    fn in_range(&[what, member, number, order, lots, price]: &[u32; FIGURES]) -> bool {
        let is_named =
            (1..=9_999).contains(&member) && (1..=999_999_999).contains(&number) && (1..=999_999_999).contains(&order);
        let is_order = (BUY..=SELL).contains(&what) && (1..=999_999).contains(&lots) && (1..=999_999).contains(&price);
        is_named && (what == CANCEL || is_order)
    }

    /// As the proved functions: the sum over all entries, or the largest number where a figure is out of range.
    #[inline(never)]
    pub fn run<T: Trade>(commands: &[u32]) -> u64 {
        let mut book = Book::new();
        let mut all = 0u64;
        for command in commands.as_chunks::<FIGURES>().0 {
            if !in_range(command) {
                return u64::MAX;
            }
            let &[side, member, number, order, left, price] = command;
            if side == CANCEL {
                book.cancel(member, number, order);
            } else {
                book.put::<T>(Incoming { member, number, order, side, left, price });
            }
            all = all.wrapping_add(sum(&book.notes.entries));
            book.notes.entries.clear();
        }
        all
    }
}

/// The commands that are timed, and what their maker saw of them.
struct Workload {
    commands: Vec<u32>,
    /// The sum over the entries of the second implementation.
    sum: u64,
    entries: usize,
    resting: f64,
}

const COMMANDS: u32 = 200_000;
const TURNS: usize = 40;
/// How many days are compared before.
const DAYS: u32 = 50;
const MEMBERS: u32 = 64;
/// So many orders rest once the day has come to its pace.
const WANTED: usize = 400;

/// Makes commands one by one and puts them through the second implementation, in order to aim cancels at what rests.
struct Maker {
    random: Random,
    book: Book,
    middle: u32,
}

impl Maker {
    /// Of a hundred commands some 15 trade and one is in vain. The others rest and cancel, so that the book keeps its size.
    fn command(&mut self, number: u32) -> Command {
        if self.random.one_in(64) {
            self.middle = (self.middle - 1 + self.random.below(3)).clamp(1_000, 3_000);
        }
        let has_room = self.book.resting() < WANTED;
        match self.random.below(100) {
            0..15 => self.crossing(number),
            15 => Command::Cancel(Cancel { member: 1, number, order: number }),
            _ if self.random.below(4) < if has_room { 3 } else { 1 } => self.behind(number),
            _ => self.cancel(number),
        }
    }

    fn order(&mut self, number: u32, side: Side, lots: u32, price: u32) -> Command {
        let member = self.random.between(1, MEMBERS);
        Command::New(NewOrder { member, number, order: number, side, lots, price })
    }

    fn crossing(&mut self, number: u32) -> Command {
        let side = self.random.pick(&[Side::Buy, Side::Sell]);
        let best = self.book.levels(side.other()).first().map_or(self.middle, |level| level.price);
        let reach = self.random.below(3);
        let price = if side == Side::Buy { best + reach } else { best - reach };
        let lots = self.random.between(1, 200);
        self.order(number, side, lots, price)
    }

    /// An order on its own side of the middle, more likely near it than far.
    fn behind(&mut self, number: u32) -> Command {
        let side = self.random.pick(&[Side::Buy, Side::Sell]);
        let distance = 1 + self.random.below(40).min(self.random.below(40));
        let price = if side == Side::Buy { self.middle - distance } else { self.middle + distance };
        let lots = self.random.between(1, 100);
        self.order(number, side, lots, price)
    }

    /// A cancel of any order that rests.
    fn cancel(&mut self, number: u32) -> Command {
        let place = self.random.below(self.book.resting().max(1) as u32) as usize;
        let picked = self.book.orders().nth(place).copied();
        match picked {
            Some(Resting { member, order, .. }) => Command::Cancel(Cancel { member, number, order }),
            None => self.behind(number),
        }
    }
}

fn figures(command: &Command) -> [u32; FIGURES] {
    match command {
        Command::New(new) => [new.side.number(), new.member, new.number, new.order, new.lots, new.price],
        Command::Cancel(cancel) => [CANCEL, cancel.member, cancel.number, cancel.order, 0, 0],
    }
}

fn entry(e: &peer::book::Entry) -> Entry {
    [e.command, e.member, e.order, e.side, e.kind.character().into(), e.lots, e.price, e.leaves, e.reason]
}

/// Puts a command through the second implementation and answers its entries.
fn put(book: &mut Book, policy: Policy, command: &Command) -> Vec<Entry> {
    book.put(policy, command).iter().map(entry).collect()
}

/// The workload of a policy. Each has its own: one that aims at what rests under another would cancel in vain.
fn workload(policy: Policy) -> Workload {
    let mut maker = Maker { random: Random::new(1), book: Book::default(), middle: 2_000 };
    let mut workload = Workload { commands: Vec::new(), sum: 0, entries: 0, resting: 0.0 };
    for number in 1..=COMMANDS {
        let command = maker.command(number);
        let entries = put(&mut maker.book, policy, &command);
        workload.commands.extend(figures(&command));
        workload.sum = workload.sum.wrapping_add(sum(&entries));
        workload.entries += entries.len();
        workload.resting += maker.book.resting() as f64 / f64::from(COMMANDS);
    }
    workload
}

/// Compares the three on days that aim at what a book may get wrong. The workload has no full book, and these have.
fn compare(policy: Policy, library: Run, plain: fn(&[u32]) -> u64) {
    for seed in 1..=DAYS {
        let day = Day::new(seed, 2_000, None);
        let commands: Vec<u32> = day.commands.iter().flat_map(figures).collect();
        let mut book = Book::default();
        let sums = day.commands.iter().map(|command| sum(&put(&mut book, policy, command)));
        let expected = sums.fold(0, u64::wrapping_add);
        assert_eq!(proved(library, &commands), expected, "the proved book, seed {seed}");
        assert_eq!(plain(&commands), expected, "the plain book, seed {seed}");
    }
}

/// The time of a command in nanoseconds.
fn nanoseconds(run: impl Fn(&[u32]) -> u64, workload: &Workload) -> f64 {
    let start = Instant::now();
    let sum = black_box(run(black_box(&workload.commands)));
    let time = start.elapsed().as_nanos() as f64 / f64::from(COMMANDS);
    assert_eq!(sum, workload.sum);
    time
}

fn show(name: &str, policy: Policy, library: Run, plain: fn(&[u32]) -> u64) {
    compare(policy, library, plain);
    let workload = workload(policy);
    let (mut best, mut other) = (f64::MAX, f64::MAX);
    for _ in 0..TURNS {
        best = best.min(nanoseconds(|commands| proved(library, commands), &workload));
        other = other.min(nanoseconds(plain, &workload));
    }
    let Workload { entries, resting, .. } = workload;
    println!("{name:>8} {COMMANDS:>9} {entries:>8} {resting:>12.1} {best:>10.1} {other:>9.1} {:>6.2}", best / other);
}

fn main() {
    println!(
        "{:>8} {:>9} {:>8} {:>12} {:>10} {:>9} {:>6}",
        "policy", "commands", "entries", "mean resting", "proved ns", "plain ns", "ratio"
    );
    show("fifo", fifo, lezdamir_book_fifo, plain::run::<plain::Fifo>);
    show("pro-rata", pro_rata, lezdamir_book_pro_rata, plain::run::<plain::ProRata>);
    println!(
        "the same sums over all entries, of the second implementation too, here and on {DAYS} days with full books"
    );
}
