//! The book: the rows that rest, their ranks, the held orders among them, and trading with them.

use crate::values::{Cents, Millis, Number, Side, MAKERS, NUMBER_MAX, PRICE_MAX, ROWS, SERIES, WAIT};
use std::collections::VecDeque;

/// What rests of an order or quote.
#[derive(Clone, Copy, PartialEq, Eq, Debug)]
pub struct Row {
    pub number: Number,
    /// The display price.
    pub price: Cents,
    pub limit: Cents,
    pub size: u32,
    pub series: u8,
    pub side: Side,
    pub standing: Standing,
}

#[derive(Clone, Copy, PartialEq, Eq, Debug)]
pub enum Standing {
    Plain,
    Held { collar: Cents, due: Millis },
    Quote { maker: u8 },
}

/// One that trades with resting rows.
#[derive(Clone, Copy)]
pub struct Taker {
    pub number: Number,
    pub series: u8,
    pub side: Side,
    pub size: u32,
    pub reach: Cents,
}

/// What became of a taker.
#[derive(Clone, Copy)]
pub struct Taken {
    pub left: u32,
    /// The price of its last trade, if it made one.
    pub last: Option<Cents>,
}

#[derive(Clone, Copy, PartialEq, Eq, Debug)]
pub struct Trade {
    pub series: u8,
    pub price: Cents,
    pub size: u32,
    pub taker: Number,
    pub resting: Number,
}

#[derive(Clone, Copy, PartialEq, Eq, Debug)]
pub struct Withdrawal {
    pub number: Number,
    pub left: u32,
}

/// The trades and withdrawals of one line.
pub struct Rolls {
    pub trades: Vec<Trade>,
    pub withdrawals: Vec<Withdrawal>,
}

impl Rolls {
    pub fn new() -> Rolls {
        Rolls { trades: Vec::with_capacity(256), withdrawals: Vec::with_capacity(128) }
    }

    pub fn clear(&mut self) {
        self.trades.clear();
        self.withdrawals.clear();
    }
}

/// The place of a row in the book's table.
type Slot = u8;

/// A list of places.
#[derive(Clone, Copy)]
struct Slots {
    count: u16,
    slots: [Slot; ROWS],
}

impl Slots {
    const EMPTY: Slots = Slots { count: 0, slots: [0; ROWS] };

    fn as_slice(&self) -> &[Slot] {
        &self.slots[..self.count as usize]
    }

    fn insert(&mut self, at: usize, slot: Slot) {
        let count = self.count as usize;
        if at < count {
            self.slots.copy_within(at..count, at + 1);
        }
        self.slots[at] = slot;
        self.count += 1;
    }

    fn push(&mut self, slot: Slot) {
        self.slots[self.count as usize] = slot;
        self.count += 1;
    }

    fn pop(&mut self) -> Option<Slot> {
        let slot = *self.as_slice().last()?;
        self.count -= 1;
        Some(slot)
    }

    fn remove(&mut self, at: usize) {
        let count = self.count as usize;
        if at + 1 < count {
            self.slots.copy_within(at + 1..count, at);
        }
        self.count -= 1;
    }
}

/// The rank of a row on its side of its series: the better one is the greater, by the more aggressive display price, then by the lower
/// number.
#[derive(Clone, Copy, PartialEq, Eq, PartialOrd, Ord)]
struct Rank(u64);

impl Rank {
    fn of(row: &Row) -> Rank {
        let aggressiveness = match row.side {
            Side::Buy => row.price,
            Side::Sell => PRICE_MAX - row.price,
        };
        Rank((aggressiveness as u64) << 32 | (NUMBER_MAX - row.number) as u64)
    }
}

/// A held order's turn in the queue: the earliest due moment first, then the lowest number. The place comes along.
#[derive(Clone, Copy, PartialEq, Eq, PartialOrd, Ord)]
struct Turn(u64);

impl Turn {
    fn new(due: Millis, number: Number, slot: Slot) -> Turn {
        Turn((due as u64) << 32 | (number as u64) << 8 | slot as u64)
    }

    fn due(self) -> Millis {
        (self.0 >> 32) as Millis
    }

    fn slot(self) -> Slot {
        self.0 as Slot
    }
}

pub struct Book {
    /// A place in use has its row; one that is free has the number 0.
    rows: [Row; ROWS],
    ranks: [Rank; ROWS],
    free: Slots,
    /// By series and side, the best row last.
    sides: [[Slots; 2]; SERIES],
    /// By series, the held orders of both sides, the lowest number first.
    held: [Slots; SERIES],
    /// By series and side, a price that no held order reaches beyond; none where none is held. It may lie further than the furthest
    /// reach until the series is looked through.
    furthest: [[Option<Cents>; 2]; SERIES],
    /// The held orders of all series.
    turns: VecDeque<Turn>,
    /// By maker, series and side.
    quotes: [[[Option<Slot>; 2]; SERIES]; MAKERS],
    /// By number, the place that its row has or had.
    places: Box<[Slot]>,
}

impl Book {
    pub fn new() -> Box<Book> {
        let nothing = Row {
            number: 0,
            price: 0,
            limit: 0,
            size: 0,
            series: 0,
            side: Side::Buy,
            standing: Standing::Plain,
        };
        let mut free = Slots::EMPTY;
        for slot in (0..ROWS).rev() {
            free.push(slot as Slot);
        }
        Box::new(Book {
            rows: [nothing; ROWS],
            ranks: [Rank(0); ROWS],
            free,
            sides: [[Slots::EMPTY; 2]; SERIES],
            held: [Slots::EMPTY; SERIES],
            furthest: [[None; 2]; SERIES],
            turns: VecDeque::with_capacity(ROWS),
            quotes: [[[None; 2]; SERIES]; MAKERS],
            places: vec![0; NUMBER_MAX as usize + 1].into_boxed_slice(),
        })
    }

    pub fn is_full(&self) -> bool {
        self.free.count == 0
    }

    /// The quote of a maker on one side of a series.
    pub fn quote_of(&self, maker: u8, series: u8, side: Side) -> Option<&Row> {
        let slot = self.quotes[maker as usize][series as usize][side as usize]?;
        Some(&self.rows[slot as usize])
    }

    /// Puts a row in its rank. The book is not full, and no number is higher than the row's.
    pub fn rest(&mut self, row: Row) {
        let Some(slot) = self.free.pop() else { unreachable!("a row for a full book") };
        self.rows[slot as usize] = row;
        self.places[row.number as usize] = slot;
        self.rank(slot);
        match row.standing {
            Standing::Plain => {}
            Standing::Held { collar, due } => {
                self.held[row.series as usize].push(slot);
                self.reach_out(&row, collar);
                self.enqueue(Turn::new(due, row.number, slot));
            }
            Standing::Quote { maker } => {
                self.quotes[maker as usize][row.series as usize][row.side as usize] = Some(slot);
            }
        }
    }

    /// Withdraws the row with the number, if there is one.
    pub fn withdraw(&mut self, number: Number, rolls: &mut Rolls) -> bool {
        let Some(slot) = self.find(number) else { return false };
        rolls.withdrawals.push(Withdrawal { number, left: self.rows[slot as usize].size });
        self.remove(slot);
        true
    }

    /// While the taker has contracts left and a row is in its reach, it trades with the best such row.
    #[inline]
    pub fn take(&mut self, taker: Taker, now: Millis, rolls: &mut Rolls) -> Taken {
        let contra = taker.side.contra();
        let mut taken = Taken { left: taker.size, last: None };
        while taken.left > 0 {
            let Some(slot) = self.best(taker.series, contra) else { break };
            let row = &mut self.rows[slot as usize];
            if !taker.side.within(row.price, taker.reach) {
                break;
            }
            let size = taken.left.min(row.size);
            taken.left -= size;
            taken.last = Some(row.price);
            row.size -= size;
            rolls.trades.push(Trade {
                series: taker.series,
                price: row.price,
                size,
                taker: taker.number,
                resting: row.number,
            });
            if row.size == 0 {
                self.remove(slot);
            } else {
                self.put_off(slot, now + WAIT);
            }
        }
        taken
    }

    /// Each held order of the series, the lowest number first, takes once.
    pub fn serve(&mut self, series: u8, now: Millis, rolls: &mut Rolls) {
        if !self.may_serve(series) {
            return;
        }
        self.furthest[series as usize] = [None; 2];
        let mut next = 0;
        while let Some(&slot) = self.held[series as usize].as_slice().get(next) {
            let row = self.rows[slot as usize];
            let Standing::Held { collar, .. } = row.standing else { unreachable!("not held") };
            let reach = self.reach_out(&row, collar);
            let taker = Taker { number: row.number, series, side: row.side, size: row.size, reach };
            let taken = self.take(taker, now, rolls);
            if taken.last.is_none() {
                next += 1;
                continue;
            }
            if taken.left == 0 {
                self.remove(slot);
            } else {
                self.rows[slot as usize].size = taken.left;
                self.put_off(slot, now + WAIT);
            }
            // Orders before and after it may be gone.
            let rows = &self.rows;
            next = self.held[series as usize].as_slice().partition_point(|&held| rows[held as usize].number <= row.number);
        }
    }

    /// Whether, for all that is known of the reaches, a held order of the series may have a row in its reach.
    fn may_serve(&self, series: u8) -> bool {
        [Side::Buy, Side::Sell].into_iter().any(|side| {
            match (self.furthest[series as usize][side as usize], self.best(series, side.contra())) {
                (Some(furthest), Some(best)) => side.within(self.rows[best as usize].price, furthest),
                _ => false,
            }
        })
    }

    /// The reach of a held order, which the furthest of its side is not short of from now on.
    fn reach_out(&mut self, row: &Row, collar: Cents) -> Cents {
        let reach = row.side.onward(row.price, collar, row.limit);
        let furthest = &mut self.furthest[row.series as usize][row.side as usize];
        match *furthest {
            Some(further) if row.side.within(reach, further) => {}
            _ => *furthest = Some(reach),
        }
        reach
    }

    fn best(&self, series: u8, side: Side) -> Option<Slot> {
        self.sides[series as usize][side as usize].as_slice().last().copied()
    }

    /// Moves every held order that is due, each in its turn, and serves its series after each.
    pub fn move_due(&mut self, now: Millis, rolls: &mut Rolls) {
        while let Some(&turn) = self.turns.front() {
            if turn.due() > now {
                break;
            }
            self.turns.pop_front();
            let slot = turn.slot();
            self.unrank(slot);
            let row = &mut self.rows[slot as usize];
            let Standing::Held { collar, due } = row.standing else { unreachable!("not held") };
            row.price = row.side.onward(row.price, collar, row.limit);
            row.standing = match row.price == row.limit {
                true => Standing::Plain,
                false => Standing::Held { collar, due: due + WAIT },
            };
            let row = *row;
            self.rank(slot);
            match row.standing {
                Standing::Held { collar, due } => {
                    self.reach_out(&row, collar);
                    self.enqueue(Turn::new(due, row.number, slot));
                }
                _ => self.unhold(slot),
            }
            self.serve(row.series, now, rolls);
        }
    }

    fn find(&self, number: Number) -> Option<Slot> {
        let &slot = self.places.get(number as usize)?;
        (number != 0 && self.rows[slot as usize].number == number).then_some(slot)
    }

    fn remove(&mut self, slot: Slot) {
        let row = self.rows[slot as usize];
        self.unrank(slot);
        match row.standing {
            Standing::Plain => {}
            Standing::Held { due, .. } => {
                self.unhold(slot);
                self.dequeue(Turn::new(due, row.number, slot));
            }
            Standing::Quote { maker } => {
                self.quotes[maker as usize][row.series as usize][row.side as usize] = None;
            }
        }
        self.rows[slot as usize].number = 0;
        self.free.push(slot);
    }

    /// Makes the row due at another moment, where it is held.
    fn put_off(&mut self, slot: Slot, moment: Millis) {
        let row = &mut self.rows[slot as usize];
        let number = row.number;
        if let Standing::Held { due, .. } = &mut row.standing {
            let before = std::mem::replace(due, moment);
            if before != moment {
                self.dequeue(Turn::new(before, number, slot));
                self.enqueue(Turn::new(moment, number, slot));
            }
        }
    }

    /// Puts the row among those of its side of its series, after all that are worse.
    fn rank(&mut self, slot: Slot) {
        let row = &self.rows[slot as usize];
        self.ranks[slot as usize] = Rank::of(row);
        let side = &mut self.sides[row.series as usize][row.side as usize];
        side.insert(position(side.as_slice(), &self.ranks, slot), slot);
    }

    fn unrank(&mut self, slot: Slot) {
        let row = &self.rows[slot as usize];
        let side = &mut self.sides[row.series as usize][row.side as usize];
        side.remove(position(side.as_slice(), &self.ranks, slot));
    }

    fn unhold(&mut self, slot: Slot) {
        let Row { number, series, .. } = self.rows[slot as usize];
        let rows = &self.rows;
        let held = &mut self.held[series as usize];
        let at = held.as_slice().partition_point(|&other| rows[other as usize].number < number);
        held.remove(at);
    }

    /// Most turns come last, or nearly so: no due moment is more than the wait after the clock.
    fn enqueue(&mut self, turn: Turn) {
        let later = self.turns.iter().rev().take_while(|&&other| other > turn).count();
        self.turns.insert(self.turns.len() - later, turn);
    }

    fn dequeue(&mut self, turn: Turn) {
        let at = self.turns.partition_point(|&other| other < turn);
        self.turns.remove(at);
    }

    /// The rows that rest, in no order.
    #[allow(dead_code)]
    pub fn resting(&self) -> impl Iterator<Item = &Row> {
        self.rows.iter().filter(|row| row.number != 0)
    }

    /// What the rules say of the book always, and that the lists agree with the rows.
    #[cfg(debug_assertions)]
    pub fn check(&self, now: Millis) {
        use std::collections::HashSet;
        let better = |one: &Row, two: &Row| match one.side {
            Side::Buy => (one.price, two.number) > (two.price, one.number),
            Side::Sell => (one.price, one.number) < (two.price, two.number),
        };
        let row = |slot: &Slot| &self.rows[*slot as usize];
        assert_eq!(self.resting().count() + self.free.count as usize, ROWS);
        let numbers: HashSet<Number> = self.resting().map(|row| row.number).collect();
        assert_eq!(numbers.len(), self.resting().count());
        let mut ranked = 0;
        let mut held_count = 0;
        for series in 0..SERIES {
            for side in [Side::Buy, Side::Sell] {
                let slots = self.sides[series][side as usize].as_slice();
                ranked += slots.len();
                assert!(slots.iter().all(|slot| row(slot).series as usize == series && row(slot).side == side));
                assert!(slots.iter().all(|slot| row(slot).size > 0 && row(slot).number != 0));
                assert!(slots.windows(2).all(|pair| better(row(&pair[1]), row(&pair[0]))));
            }
            let [bids, offers] = &self.sides[series];
            if let (Some(bid), Some(offer)) = (bids.as_slice().last(), offers.as_slice().last()) {
                assert!(row(bid).price < row(offer).price);
            }
            let held = self.held[series].as_slice();
            held_count += held.len();
            assert!(held.windows(2).all(|pair| row(&pair[0]).number < row(&pair[1]).number));
            for slot in held {
                let row = row(slot);
                let Standing::Held { collar, due } = row.standing else { panic!("not held") };
                assert!(row.series as usize == series && row.price != row.limit && row.side.within(row.price, row.limit));
                assert!(now < due && due <= now + WAIT);
                assert!(self.turns.contains(&Turn::new(due, row.number, *slot)));
                // Serving again would change nothing.
                let reach = row.side.onward(row.price, collar, row.limit);
                let contra = self.best(row.series, row.side.contra());
                assert!(contra.is_none_or(|contra| !row.side.within(self.rows[contra as usize].price, reach)));
                let furthest = self.furthest[series][row.side as usize];
                assert!(furthest.is_some_and(|furthest| row.side.within(reach, furthest)));
            }
        }
        assert_eq!(ranked, self.resting().count());
        assert_eq!(held_count, self.turns.len());
        assert_eq!(held_count, self.resting().filter(|row| matches!(row.standing, Standing::Held { .. })).count());
        assert!(self.turns.iter().zip(self.turns.iter().skip(1)).all(|(one, two)| one < two));
        let mut quoted = 0;
        for maker in 0..MAKERS {
            for series in 0..SERIES {
                for side in [Side::Buy, Side::Sell] {
                    let Some(slot) = self.quotes[maker][series][side as usize] else { continue };
                    quoted += 1;
                    let row = row(&slot);
                    assert!(row.standing == Standing::Quote { maker: maker as u8 });
                    assert!(row.series as usize == series && row.side == side && row.price == row.limit);
                }
            }
        }
        assert_eq!(quoted, self.resting().filter(|row| matches!(row.standing, Standing::Quote { .. })).count());
    }
}

/// How many of the side's rows are worse than the one at `slot`.
#[inline]
fn position(side: &[Slot], ranks: &[Rank; ROWS], slot: Slot) -> usize {
    let rank = ranks[slot as usize];
    match side.last() {
        Some(&best) if ranks[best as usize] == rank => side.len() - 1,
        _ => side.partition_point(|&other| ranks[other as usize] < rank),
    }
}
