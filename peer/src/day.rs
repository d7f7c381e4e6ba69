//! Days of random commands that aim at what a book may get wrong.
//!
//! A day is bursts of commands, each of one shape. Its maker puts every command through two books of its own, one of each
//! policy, because what rests, and so what there is to aim at, differs between them; a burst aims at either.

use crate::book::{Book, Level, Policy, Resting, MOST_RESTING};
use crate::messages::{render, Cancel, Command, NewOrder, Side};
use crate::policies::{fifo, pro_rata};
use crate::random::Random;

/// The largest member, order number, lots and price of a message.
const MOST_MEMBER: u32 = 9_999;
const MOST_ORDER: u32 = 999_999_999;
const MOST_LOTS: u32 = 999_999;
const MOST_PRICE: u32 = 999_999;

/// The middle price stays clear of both ends, so that prices around it need no test.
const LEAST_MIDDLE: u32 = 1_000;
const MOST_MIDDLE: u32 = 5_000;

/// To fill a book takes over half of so many commands. Mixed bursts leave it out where fewer remain of the day, or the day
/// would have little else.
const LEAST_WITH_FULL: usize = 1_600;

/// What the commands of a burst have in common.
#[derive(Debug, Clone, Copy, PartialEq, Eq, PartialOrd, Ord)]
pub enum Shape {
    /// Orders spread around a middle price.
    Quiet,
    /// Orders that rest, and large ones through several levels of them.
    Crossing,
    /// Cancels of orders that rest and of orders that do not.
    Cancels,
    /// Orders with a number that rests, the same member's and another's.
    Duplicates,
    /// Orders with a number whose order is gone.
    Anew,
    /// Orders of a member with an order of its own.
    Own,
    /// Another member for each order, and large order numbers.
    Crowd,
    /// Few prices, long queues and odd lots, so that shares are rounded.
    Few,
    /// The smallest and the largest of every figure.
    Limits,
    /// Orders until no more may rest, and then what a full book takes and turns down.
    Full,
}

impl Shape {
    pub const ALL: [Shape; 10] = [
        Shape::Quiet,
        Shape::Crossing,
        Shape::Cancels,
        Shape::Duplicates,
        Shape::Anew,
        Shape::Own,
        Shape::Crowd,
        Shape::Few,
        Shape::Limits,
        Shape::Full,
    ];

    /// The word by which a caller asks for the shape.
    pub fn name(self) -> &'static str {
        match self {
            Shape::Quiet => "quiet",
            Shape::Crossing => "crossing",
            Shape::Cancels => "cancels",
            Shape::Duplicates => "duplicates",
            Shape::Anew => "anew",
            Shape::Own => "own",
            Shape::Crowd => "crowd",
            Shape::Few => "few",
            Shape::Limits => "limits",
            Shape::Full => "full",
        }
    }

    /// The shape of that name.
    pub fn named(name: &str) -> Option<Shape> {
        Shape::ALL.into_iter().find(|shape| shape.name() == name)
    }
}

/// A day's commands, numbered from 1 on, and beside each the shape that it belongs to.
pub struct Day {
    pub commands: Vec<Command>,
    pub shapes: Vec<Shape>,
}

impl Day {
    /// The day of `count` commands of a seed, all of one shape or, with none, of all shapes in turn.
    pub fn new(seed: u32, count: usize, shape: Option<Shape>) -> Day {
        let mut maker = Maker::new(seed, count);
        while !maker.is_over() {
            match shape {
                Some(shape) => maker.burst(shape),
                None => maker.mixed_bursts(),
            }
        }
        Day { commands: maker.commands, shapes: maker.shapes }
    }

    /// The messages of the day, back to back.
    pub fn messages(&self) -> Vec<u8> {
        self.commands.iter().flat_map(render).collect()
    }

    /// The same with the last message wrong, in a way that depends on the seed.
    pub fn messages_with_wrong_end(&self, seed: u32) -> Vec<u8> {
        let Some((last, before)) = self.commands.split_last() else {
            return Vec::new();
        };
        let mut messages: Vec<u8> = before.iter().flat_map(render).collect();
        messages.extend(spoiled(render(last), seed));
        messages
    }
}

/// A message with one fault: a leading zero, a wrong count, a wrong sum, or its end cut off.
fn spoiled(mut message: Vec<u8>, seed: u32) -> Vec<u8> {
    // Field 9 always has its two digits at 12 and 13, and field 49 its first digit at 23.
    match seed % 4 {
        0 => message.insert(23, b'0'),
        1 => message[13] = other_digit(message[13]),
        2 => {
            let last_digit = message.len() - 2;
            message[last_digit] = other_digit(message[last_digit]);
        }
        _ => message.truncate(message.len() - 3),
    }
    message
}

fn other_digit(digit: u8) -> u8 {
    if digit == b'9' {
        b'8'
    } else {
        digit + 1
    }
}

/// A member and its number of an order.
type Name = (u32, u32);

/// A day that is being made.
struct Maker {
    random: Random,
    count: usize,
    commands: Vec<Command>,
    shapes: Vec<Shape>,
    /// What rests so far, FIFO and pro-rata.
    books: [Book; 2],
    /// The one of the books at which the burst aims.
    aim: usize,
    /// The shape of the burst.
    shape: Shape,
    /// The price around which quiet trading goes on.
    middle: u32,
    /// How many order numbers were given out.
    given: u32,
    /// The names of all orders so far.
    names: Vec<Name>,
}

const POLICIES: [Policy; 2] = [fifo, pro_rata];

impl Maker {
    fn new(seed: u32, count: usize) -> Maker {
        let mut random = Random::new(seed);
        let middle = random.between(LEAST_MIDDLE, MOST_MIDDLE);
        Maker {
            random,
            count,
            commands: Vec::new(),
            shapes: Vec::new(),
            books: [Book::default(), Book::default()],
            aim: 0,
            shape: Shape::Quiet,
            middle,
            given: 0,
            names: Vec::new(),
        }
    }

    fn is_over(&self) -> bool {
        self.commands.len() >= self.count
    }

    /// A burst of each shape.
    fn mixed_bursts(&mut self) {
        let remain = self.count - self.commands.len();
        let mut shapes = Shape::ALL.to_vec();
        shapes.retain(|&shape| shape != Shape::Full || remain >= LEAST_WITH_FULL);
        self.random.shuffle(&mut shapes);
        for shape in shapes {
            self.burst(shape);
        }
    }

    fn burst(&mut self, shape: Shape) {
        self.shape = shape;
        self.aim = self.random.below(2) as usize;
        let one = match shape {
            Shape::Quiet => Maker::quiet,
            Shape::Crossing => Maker::crossing,
            Shape::Cancels => Maker::cancels,
            Shape::Duplicates => Maker::duplicates,
            Shape::Anew => Maker::anew,
            Shape::Own => Maker::own,
            Shape::Crowd => Maker::crowd,
            Shape::Few => Maker::few,
            Shape::Limits => Maker::limits,
            Shape::Full => return self.full(),
        };
        if shape == Shape::Few {
            // Its queues grow long only where nothing older stands across them.
            self.take_back(0);
        }
        for _ in 0..self.random.between(20, 50) {
            one(self);
        }
        if shape == Shape::Limits {
            // A buy at the highest price would swallow every sell for the rest of the day.
            self.take_back(100);
        }
    }

    /// Appends a command, unless the day is over, and puts it through both books.
    fn send(&mut self, command: Command) {
        if self.is_over() {
            return;
        }
        for (book, policy) in self.books.iter_mut().zip(POLICIES) {
            book.put(policy, &command);
        }
        self.commands.push(command);
        self.shapes.push(self.shape);
    }

    /// The number of the next command.
    fn number(&self) -> u32 {
        self.commands.len() as u32 + 1
    }

    fn order(&mut self, (member, order): Name, side: Side, lots: u32, price: u32) {
        self.names.push((member, order));
        let number = self.number();
        self.send(Command::New(NewOrder { member, number, order, side, lots, price }));
    }

    fn cancel(&mut self, (member, order): Name) {
        let number = self.number();
        self.send(Command::Cancel(Cancel { member, number, order }));
    }
}

/// What there is to aim at.
impl Maker {
    fn book(&self) -> &Book {
        &self.books[self.aim]
    }

    /// The name of an order that rests, if any does.
    fn resting(&mut self) -> Option<Name> {
        let names: Vec<Name> = self.book().orders().map(name).collect();
        (!names.is_empty()).then(|| self.random.pick(&names))
    }

    /// The name of an order that is gone, if one is found.
    fn gone(&mut self) -> Option<Name> {
        if self.names.is_empty() {
            return None;
        }
        // A few tries do: most orders of a day are gone, and to look at all is slow.
        let tries: Vec<Name> = (0..20).map(|_| self.random.pick(&self.names)).collect();
        tries.into_iter().find(|&(member, order)| !self.book().rests(member, order))
    }

    /// The best level of a side that has one, and the side.
    fn best(&mut self) -> Option<(Side, Level)> {
        let side = self.side();
        let best = |side| self.book().levels(side).first().map(|level| (side, level.clone()));
        best(side).or_else(|| best(side.other()))
    }

    /// A name that no order had yet.
    fn fresh(&mut self) -> Name {
        self.given += 1;
        (self.random.between(1, 8), self.given)
    }

    fn side(&mut self) -> Side {
        self.random.pick(&[Side::Buy, Side::Sell])
    }

    /// A price on the side's own half, at least `gap` from the middle.
    fn behind(&mut self, side: Side, gap: u32, spread: u32) -> u32 {
        let distance = gap + self.random.below(spread);
        match side {
            Side::Buy => self.middle - distance,
            Side::Sell => self.middle + distance,
        }
    }

    /// A price on the other half, which crosses levels there.
    fn through(&mut self, side: Side, gap: u32, spread: u32) -> u32 {
        self.behind(side.other(), gap, spread)
    }
}

/// The shapes but for the full book.
impl Maker {
    fn quiet(&mut self) {
        if self.random.one_in(8) {
            self.middle = (self.middle - 2 + self.random.below(5)).clamp(LEAST_MIDDLE, MOST_MIDDLE);
        }
        let (name, side) = (self.fresh(), self.side());
        let (lots, price) = (self.random.between(1, 100), self.behind(side, 0, 12));
        self.order(name, side, lots, price);
    }

    fn crossing(&mut self) {
        let (name, side) = (self.fresh(), self.side());
        let (lots, price) = if self.random.one_in(4) {
            (self.random.between(100, 800), self.through(side, 3, 8))
        } else {
            (self.random.between(1, 60), self.behind(side, 1, 8))
        };
        self.order(name, side, lots, price);
    }

    fn cancels(&mut self) {
        match self.resting() {
            None => self.quiet(),
            Some(name) if self.random.below(5) < 3 => self.cancel(name),
            Some(name) => self.cancel_in_vain(name),
        }
    }

    /// Cancels what does not rest: a number never used, another member's of one that rests, or one that is gone.
    fn cancel_in_vain(&mut self, (member, order): Name) {
        let name = match self.random.below(3) {
            0 => (member, MOST_ORDER - self.given),
            1 => (another(member), order),
            _ => self.gone().unwrap_or((member, MOST_ORDER)),
        };
        self.cancel(name);
    }

    fn duplicates(&mut self) {
        match self.resting() {
            Some((member, order)) if self.random.below(3) > 0 => {
                // One in four is another member's number, which is another order.
                let name = if self.random.one_in(4) { (another(member), order) } else { (member, order) };
                self.order_anywhere(name);
            }
            _ => self.quiet(),
        }
    }

    /// An order that as likely trades as not.
    fn order_anywhere(&mut self, name: Name) {
        let side = self.side();
        let price = if self.random.one_in(2) { self.behind(side, 1, 8) } else { self.through(side, 1, 4) };
        let lots = self.random.between(1, 100);
        self.order(name, side, lots, price);
    }

    fn anew(&mut self) {
        match (self.random.below(4), self.resting(), self.gone()) {
            (0, Some(name), _) => {
                self.cancel(name);
                self.order_anywhere(name);
            }
            (1 | 2, _, Some(name)) => self.order_anywhere(name),
            _ => self.quiet(),
        }
    }

    /// An order that meets the oldest of a best level, by the same member.
    fn own(&mut self) {
        match self.best() {
            Some((side, level)) if self.random.one_in(2) => {
                let name = (level.queue[0].member, self.fresh().1);
                let lots = self.random.between(1, 60);
                self.order(name, side.other(), lots, level.price);
            }
            _ => self.quiet(),
        }
    }

    fn crowd(&mut self) {
        let name = (self.random.between(1, MOST_MEMBER), self.random.between(1, MOST_ORDER));
        let side = self.side();
        let (lots, price) = (self.random.between(1, 5_000), self.behind(side, 0, 10));
        self.order(name, side, lots, price);
    }

    fn few(&mut self) {
        let (name, side) = (self.fresh(), self.side());
        let (lots, price) = if self.random.one_in(8) {
            (self.random.between(5, 40), self.through(side, 2, 1))
        } else {
            (self.random.pick(&[1, 3, 5, 7, 9]), self.behind(side, 1, 2))
        };
        self.order(name, side, lots, price);
    }

    fn limits(&mut self) {
        let member = self.random.pick(&[1, MOST_MEMBER]);
        let order = self.fresh().1;
        let name = (member, self.random.pick(&[order, MOST_ORDER - order]));
        let (lots, price) = (self.random.pick(&[1, MOST_LOTS]), self.random.pick(&[1, MOST_PRICE]));
        let side = self.side();
        self.order(name, side, lots, price);
    }

    /// Cancels the buys and sells that reach over the middle by more than `distance`.
    fn take_back(&mut self, distance: u32) {
        let (most, least) = (self.middle + distance, self.middle - distance);
        let buys = |book: &Book| names_where(book, Side::Buy, |price| price > most);
        let sells = |book: &Book| names_where(book, Side::Sell, |price| price < least);
        let mut names: Vec<Name> = self.books.iter().flat_map(|book| [buys(book), sells(book)].concat()).collect();
        // What rests in both books is cancelled once.
        names.sort();
        names.dedup();
        for name in names {
            self.cancel(name);
        }
    }
}

/// The full book.
impl Maker {
    fn full(&mut self) {
        // All on one side, so that one order can meet every order that rests, or on both.
        let only = self.random.pick(&[None, None, Some(Side::Buy), Some(Side::Sell)]);
        match only {
            Some(_) => self.clear(),
            None => self.take_back(0),
        }
        let spread = self.random.pick(&[2, 40, 300]);
        while !self.is_over() && self.books.iter().any(|book| book.resting() < MOST_RESTING) {
            let side = only.unwrap_or_else(|| self.side());
            self.lay(side, spread);
        }
        self.knock(spread);
        // Half of the books that are full on one side stay so, for one order to meet them whole.
        if only.is_none() || self.random.one_in(2) {
            self.nibble(spread);
            for _ in 0..self.random.between(30, 50) {
                self.on_full(spread);
            }
        }
        self.clear();
    }

    /// An order that crosses none of those that the burst lays.
    fn lay(&mut self, side: Side, spread: u32) {
        let name = self.fresh();
        let (lots, price) = (self.random.between(1, 9), self.behind(side, 1, spread));
        self.order(name, side, lots, price);
    }

    /// Orders that a full book turns down, for their number where that is in use.
    fn knock(&mut self, spread: u32) {
        for _ in 0..4 {
            let side = self.side();
            self.lay(side, spread);
            self.lay_again(side, spread);
        }
    }

    /// As `lay`, with the number of an order that rests.
    fn lay_again(&mut self, side: Side, spread: u32) {
        if let Some(name) = self.resting() {
            let (lots, price) = (self.random.between(1, 9), self.behind(side, 1, spread));
            self.order(name, side, lots, price);
        }
    }

    /// Takes single lots, which leaves a book full more often than not, and tries after each whether it is.
    fn nibble(&mut self, spread: u32) {
        for _ in 0..10 {
            self.take(1, 0);
            let side = self.side();
            self.lay(side, spread);
        }
    }

    /// Trades with a best level and with those up to `reach` behind it.
    fn take(&mut self, lots: u32, reach: u32) {
        let Some((side, level)) = self.best() else {
            return self.quiet();
        };
        let price = match side {
            Side::Buy => level.price.saturating_sub(reach).max(1),
            Side::Sell => (level.price + reach).min(MOST_PRICE),
        };
        let name = self.fresh();
        self.order(name, side.other(), lots, price);
    }

    fn on_full(&mut self, spread: u32) {
        let side = self.side();
        match (self.random.below(10), self.resting()) {
            (0..=3, _) | (_, None) => self.lay(side, spread),
            (4 | 5, _) => {
                let lots = self.random.between(1, 9);
                self.take(lots, 0);
            }
            (6, _) => {
                let lots = self.random.between(20, 80);
                self.take(lots, 5);
            }
            (7, _) => self.lay_again(side, spread),
            (8, Some(name)) => self.cancel(name),
            (_, Some(name)) => self.cancel_in_vain(name),
        }
    }

    /// Empties both books: each side by one order through all of it, and what that leaves by cancels.
    fn clear(&mut self) {
        for (side, price) in [(Side::Sell, 1), (Side::Buy, MOST_PRICE)] {
            let name = self.fresh();
            self.order(name, side, MOST_LOTS, price);
            self.cancel(name);
        }
        while !self.is_over() {
            let Some(name) = self.books.iter().find_map(|book| book.orders().next().map(name)) else {
                return;
            };
            self.cancel(name);
        }
    }
}

fn another(member: u32) -> u32 {
    member % MOST_MEMBER + 1
}

fn name(resting: &Resting) -> Name {
    (resting.member, resting.order)
}

/// The names of a side's orders at some prices.
fn names_where(book: &Book, side: Side, is_meant: impl Fn(u32) -> bool) -> Vec<Name> {
    let levels = book.levels(side).iter().filter(|level| is_meant(level.price));
    levels.flat_map(|level| level.queue.iter().map(name)).collect()
}
