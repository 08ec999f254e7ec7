//! Writes a feed of random lines to standard output, the same for the same kind, seed and count.
//!
//!     feeds                     the kinds
//!     feeds KIND SEED COUNT     a feed of COUNT lines
//!
//! It runs the reference's market beside what it writes, only to know what rests, so that prices and numbers can be chosen near it.

#[path = "src/book.rs"]
mod book;
#[path = "src/collars.rs"]
mod collars;
#[path = "src/lines.rs"]
#[allow(dead_code)]
mod lines;
#[path = "src/market.rs"]
mod market;
#[path = "src/screens.rs"]
mod screens;
#[path = "src/values.rs"]
#[allow(dead_code)]
mod values;

use book::{Rolls, Row, Standing};
use lines::{Condition, Line, Order, Quote};
use market::Market;
use std::io::{self, BufWriter, Write};
use values::*;

/// SplitMix64.
struct Random(u64);

impl Random {
    fn next(&mut self) -> u64 {
        self.0 = self.0.wrapping_add(0x9e37_79b9_7f4a_7c15);
        let mut mixed = self.0;
        mixed = (mixed ^ (mixed >> 30)).wrapping_mul(0xbf58_476d_1ce4_e5b9);
        mixed = (mixed ^ (mixed >> 27)).wrapping_mul(0x94d0_49bb_1331_11eb);
        mixed ^ (mixed >> 31)
    }

    fn below(&mut self, bound: u32) -> u32 {
        (self.next() >> 32) as u32 % bound.max(1)
    }

    fn between(&mut self, low: u32, high: u32) -> u32 {
        low + self.below(high - low + 1)
    }

    fn percent(&mut self, percent: u32) -> bool {
        self.below(100) < percent
    }

    fn pick<T: Copy>(&mut self, values: &[T]) -> T {
        values[self.below(values.len() as u32) as usize]
    }

    /// The place of a weight, each as likely as it is heavy.
    fn weighed(&mut self, weights: &[u32]) -> usize {
        let mut rest = self.below(weights.iter().sum());
        for (place, &weight) in weights.iter().enumerate() {
            if rest < weight {
                return place;
            }
            rest -= weight;
        }
        0
    }
}

#[derive(Clone, Copy, PartialEq, Eq, Debug)]
enum Kindred {
    Calm,
    Crowded,
    Blank,
    Broken,
    Held,
    Shut,
    Bounds,
    Quotes,
    Orders,
}

const KINDS: [(&str, Kindred, &str); 9] = [
    ("calm", Kindred::Calm, "a bit of everything"),
    ("crowded", Kindred::Crowded, "256 rows, and places used again"),
    ("blank", Kindred::Blank, "blank sides of the market"),
    ("broken", Kindred::Broken, "broken lines, every second"),
    ("held", Kindred::Held, "many held orders, short steps of the clock"),
    ("shut", Kindred::Shut, "makers shut out and let in"),
    ("bounds", Kindred::Bounds, "values at and beside every bound"),
    ("quotes", Kindred::Quotes, "mostly quotes"),
    ("orders", Kindred::Orders, "mostly orders"),
];

/// How often each letter comes, and what its lines are like.
struct Profile {
    /// N, U, O, Q, E, X, T, W, S.
    letters: [u32; 9],
    series: (u32, u32),
    classes: u32,
    makers: u32,
    /// How often, of a hundred, a side of the market is blank.
    blank: u32,
    /// How often a market is wide.
    wide: u32,
    /// How often an order is a market order; a day order.
    market: u32,
    day: u32,
    /// Where prices come from: passive, marketable, near a row, at a bound of a screen, anything.
    prices: [u32; 5],
    /// How often a count is put out of its range.
    wild: u32,
    broken: u32,
    size: u32,
    step: u32,
    /// How often, while 256 rows rest, one is withdrawn.
    relief: u32,
}

fn profile(kind: Kindred) -> Profile {
    let calm = Profile {
        letters: [12, 3, 32, 27, 2, 12, 10, 1, 1],
        series: (1, 12),
        classes: 4,
        makers: 8,
        blank: 6,
        wide: 40,
        market: 30,
        day: 65,
        prices: [35, 25, 25, 12, 3],
        wild: 1,
        broken: 1,
        size: 30,
        step: 400,
        relief: 20,
    };
    match kind {
        Kindred::Calm => calm,
        Kindred::Crowded => Profile {
            letters: [2, 1, 60, 22, 1, 6, 7, 1, 0],
            series: (1, 64),
            makers: 16,
            market: 6,
            day: 93,
            prices: [86, 3, 6, 4, 1],
            size: 9,
            relief: 25,
            ..calm
        },
        Kindred::Blank => Profile { letters: [25, 6, 33, 23, 3, 5, 4, 1, 0], blank: 50, series: (1, 4), ..calm },
        Kindred::Broken => Profile { broken: 50, wild: 5, ..calm },
        Kindred::Held => Profile {
            letters: [8, 1, 50, 10, 1, 5, 24, 1, 0],
            series: (1, 64),
            blank: 1,
            wide: 75,
            market: 70,
            day: 92,
            prices: [15, 50, 25, 9, 1],
            size: 60,
            step: 60,
            relief: 40,
            wild: 0,
            broken: 0,
            ..calm
        },
        Kindred::Shut => Profile {
            letters: [8, 8, 8, 60, 9, 3, 3, 1, 0],
            series: (8, 64),
            classes: 3,
            makers: 4,
            prices: [30, 15, 15, 38, 2],
            ..calm
        },
        Kindred::Bounds => Profile {
            letters: [20, 10, 28, 21, 5, 5, 5, 5, 1],
            series: (2, 16),
            blank: 15,
            prices: [10, 15, 20, 45, 10],
            wild: 12,
            size: 4,
            step: 1_002,
            ..calm
        },
        Kindred::Quotes => Profile {
            letters: [8, 1, 4, 80, 3, 2, 2, 0, 0],
            series: (32, 32),
            makers: 4,
            blank: 2,
            prices: [84, 8, 7, 1, 0],
            wild: 0,
            broken: 0,
            ..calm
        },
        Kindred::Orders => Profile {
            letters: [5, 1, 80, 5, 0, 6, 3, 0, 0],
            series: (32, 32),
            blank: 2,
            market: 25,
            day: 60,
            prices: [45, 30, 22, 3, 0],
            wild: 0,
            broken: 0,
            ..calm
        },
    }
}

/// What was said of a series.
#[derive(Clone, Copy)]
struct Series {
    class: u32,
    strike: Cents,
    nbbo: Nbbo,
    /// About what it is worth.
    worth: Cents,
}

struct Feed {
    random: Random,
    kind: Kindred,
    profile: Profile,
    market: Market,
    rolls: Rolls,
    series: Vec<Series>,
    stocks: [Cents; CLASSES],
    /// About the highest number that was given.
    given: Number,
    out: BufWriter<io::Stdout>,
}

fn main() -> io::Result<()> {
    let arguments: Vec<String> = std::env::args().skip(1).collect();
    let known = |name: &str| KINDS.iter().find(|kind| kind.0 == name).map(|kind| kind.1);
    let parsed = match &arguments[..] {
        [kind, seed, count] => known(kind).zip(seed.parse::<u64>().ok()).zip(count.parse::<usize>().ok()),
        _ => None,
    };
    let Some(((kind, seed), count)) = parsed else {
        for (name, _, shows) in KINDS {
            println!("{name}: {shows}");
        }
        std::process::exit(if arguments.is_empty() { 0 } else { 2 });
    };
    let mut feed = Feed {
        random: Random(seed.wrapping_mul(0x2545_f491_4f6c_dd1d) ^ kind as u64),
        kind,
        profile: profile(kind),
        market: Market::new(),
        rolls: Rolls::new(),
        series: Vec::new(),
        stocks: [0; CLASSES],
        given: 0,
        out: BufWriter::with_capacity(1 << 16, io::stdout()),
    };
    feed.write(count)
}

impl Feed {
    fn write(&mut self, count: usize) -> io::Result<()> {
        for stock in &mut self.stocks {
            *stock = match self.kind {
                Kindred::Shut => self.random.between(150, 600),
                Kindred::Bounds => self.random.pick(&[1, 2, 100, 300, 5_000, 9_999_500, 9_999_999, 10_000_000]),
                _ => self.random.between(500, 9_000),
            };
        }
        let (low, high) = self.profile.series;
        let listed = (self.random.between(low, high) as usize).min(count);
        for place in 0..count {
            if self.random.percent(self.profile.broken) {
                self.say_broken()?;
            } else if self.series.len() < listed && place < 4 * listed {
                let line = self.listing();
                self.say(line)?;
            } else if place < 8 * listed && self.random.percent(40) {
                let line = if self.random.percent(15) { self.event() } else { self.nbbo() };
                self.say(line)?;
            } else {
                let line = self.line();
                self.say(line)?;
            }
        }
        if self.profile.broken > 0 && self.random.percent(20) {
            // Bytes after the last newline.
            let long = self.random.percent(50);
            self.out.write_all(if long { &[b'T'; 200] } else { b"T\t1" })?;
        }
        self.out.flush()
    }

    /// Writes a line and lets the market know it.
    fn say(&mut self, line: Line) -> io::Result<()> {
        self.heard(&line);
        write_line(&mut self.out, &line)
    }

    fn heard(&mut self, line: &Line) {
        self.rolls.clear();
        let Ok(number) = self.market.answer(line, &mut self.rolls) else { return };
        self.given = self.given.max(number);
        match *line {
            Line::List { class, strike, .. } => {
                let stock = self.stocks[class as usize];
                let inside = strike.abs_diff(stock) / 2;
                let worth = match self.kind {
                    Kindred::Bounds => self.random.pick(&[1, 30, 90, 100, 101, 130, 199, 200, 500, 501, 1_000, 2_000, 9_999_990]),
                    Kindred::Quotes | Kindred::Orders => self.random.between(20, stock / 2),
                    Kindred::Shut => stock.saturating_sub(self.random.between(1, 120)).max(20),
                    _ => inside + self.random.pick(&[20, 60, 90, 150, 190, 300, 490, 900, 1_900]),
                };
                self.series.push(Series { class, strike, nbbo: Nbbo::default(), worth: worth.clamp(1, PRICE_MAX) });
            }
            Line::Market { series, nbbo } => self.series[series as usize].nbbo = nbbo,
            Line::Tape { class, event } => {
                if let Some(price) = event.price() {
                    self.stocks[class as usize] = price;
                }
            }
            _ => {}
        }
    }

    fn line(&mut self) -> Line {
        if self.market.book().is_full() && self.random.percent(self.profile.relief) {
            return Line::Withdraw { number: self.number() };
        }
        match self.random.weighed(&self.profile.letters) {
            0 => self.nbbo(),
            1 => self.event(),
            2 => self.order(),
            3 => self.quote(),
            4 => Line::Enter { maker: self.maker(), class: self.class() },
            5 => Line::Withdraw { number: self.number() },
            6 => Line::Tick { millis: self.step() },
            7 => self.width(),
            _ => self.listing(),
        }
    }

    fn wild(&mut self) -> bool {
        self.random.percent(self.profile.wild) && self.random.percent(40)
    }

    fn class(&mut self) -> u32 {
        if self.wild() {
            return self.random.pick(&[0, 15, 16, 17, 255, 256, 999_999_999]);
        }
        self.random.below(self.profile.classes)
    }

    fn maker(&mut self) -> u32 {
        if self.wild() {
            return self.random.pick(&[0, 15, 16, 17, 256, 999_999_999]);
        }
        self.random.below(self.profile.makers)
    }

    fn place(&mut self) -> u32 {
        let listed = self.series.len() as u32;
        if listed == 0 || self.wild() {
            return self.random.pick(&[0, 63, 64, listed, listed + 1, 256, 999_999_999]);
        }
        self.random.below(listed)
    }

    fn size(&mut self) -> u32 {
        if self.wild() {
            return self.random.pick(&[0, 1, 999_999, 1_000_000, 999_999_999]);
        }
        if self.random.percent(1) {
            return self.random.between(1, SIZE_MAX);
        }
        self.random.between(1, self.profile.size)
    }

    fn step(&mut self) -> u32 {
        if self.wild() {
            return self.random.pick(&[0, 1, 999, 1_000, 1_001, 999_999_999]);
        }
        if self.random.percent(10) {
            return self.random.pick(&[0, 1, 500, 999, 1_000]);
        }
        self.random.below(self.profile.step + 1)
    }

    fn number(&mut self) -> u32 {
        if self.wild() {
            return self.random.pick(&[0, 1, 999_999, 1_000_000, 999_999_999]);
        }
        match self.random.below(10) {
            0 => self.random.between(self.given.saturating_sub(400), self.given + 1),
            _ => self.row().map_or(self.given, |row| row.number),
        }
    }

    /// A row that rests.
    fn row(&mut self) -> Option<Row> {
        let count = self.market.book().resting().count();
        let nth = self.random.below(count as u32) as usize;
        self.market.book().resting().nth(nth).copied()
    }

    /// A row that rests in the series, if a few tries find one.
    fn row_of(&mut self, series: u32) -> Option<Row> {
        let count = self.market.book().resting().filter(|row| row.series as u32 == series).count();
        let nth = self.random.below(count as u32) as usize;
        self.market.book().resting().filter(|row| row.series as u32 == series).nth(nth).copied()
    }

    fn side(&mut self) -> Side {
        self.random.pick(&[Side::Buy, Side::Sell])
    }

    fn listing(&mut self) -> Line {
        let class = self.class();
        let stock = self.stocks[(class as usize).min(15)];
        let strike = match self.random.below(8) {
            _ if self.wild() => self.random.pick(&[0, 1, 10_000_000, 10_000_001, 999_999_999]),
            _ if matches!(self.kind, Kindred::Quotes | Kindred::Orders) => self.random.between(stock + 200, stock + 900),
            0..=4 => (stock + self.random.below(800)).saturating_sub(400).clamp(1, PRICE_MAX),
            5 => stock,
            6 => self.random.between(100, 12_000),
            _ => self.random.pick(&[1, 10, 500, 5_000, 10_000_000]),
        };
        Line::List { class, kind: self.random.pick(&[Kind::Call, Kind::Put]), strike }
    }

    fn nbbo(&mut self) -> Line {
        let series = self.place();
        let worth = match self.series.get(series as usize) {
            Some(series) => series.worth,
            None => 100,
        };
        let worth = match self.kind {
            Kindred::Bounds if self.random.percent(50) => {
                let near = self.random.pick(&[1, 25, 99, 100, 101, 199, 200, 201, 500, 501, 1_000, 1_001, 2_000, 2_001, 9_999_999]);
                (near + self.random.below(3)).saturating_sub(1).max(1)
            }
            _ => (worth + self.random.below(worth / 5 + 9)).saturating_sub(worth / 10 + 4).max(1),
        };
        let spread = if self.random.percent(self.profile.wide) {
            self.random.between(26, 130) + worth / 20
        } else if self.random.percent(10) {
            self.random.pick(&[0, 1, 24, 25, 26, 39, 40, 41, 49, 50, 51, 79, 80, 81, 99, 100, 101])
        } else {
            self.random.below(25)
        };
        let mut bid = worth;
        let mut offer = worth + spread;
        if self.kind == Kindred::Bounds && self.random.percent(35) {
            offer = self.random.pick(&[99, 100, 100, 101, 101, 200]);
            bid = offer.saturating_sub(spread).max(1);
        }
        if self.wild() {
            bid = self.random.pick(&[0, 1, 10_000_000, 10_000_001, offer, offer + 1]);
        } else if self.wild() {
            offer = self.random.pick(&[0, 1, 10_000_000, 10_000_001, bid, bid.saturating_sub(1)]);
        } else {
            offer = offer.min(PRICE_MAX);
            bid = bid.min(offer);
        }
        let bid = if self.random.percent(self.profile.blank) { None } else { Some(bid) };
        let offer = if self.random.percent(self.profile.blank) { None } else { Some(offer) };
        Line::Market { series, nbbo: Nbbo { bid, offer } }
    }

    fn event(&mut self) -> Line {
        let class = self.class();
        let stock = self.stocks[(class as usize).min(15)];
        let price = if self.wild() {
            self.random.pick(&[0, 1, 10_000_000, 10_000_001, 999_999_999])
        } else {
            (stock + self.random.below(stock / 10 + 3)).saturating_sub(stock / 20 + 1).clamp(1, PRICE_MAX)
        };
        let event = match self.random.below(12) {
            0..=2 => Event::Close(price),
            3..=5 => Event::Opening(price),
            6..=8 => Event::Last(price),
            9 => Event::Halt,
            _ => Event::Resumption,
        };
        Line::Tape { class, event }
    }

    fn order(&mut self) -> Line {
        let series = self.place();
        let mut side = self.side();
        if self.kind == Kindred::Held && self.random.percent(80) {
            side = if series % 2 == 0 { Side::Buy } else { Side::Sell };
        }
        let market = self.random.percent(self.profile.market);
        let price = if market { None } else { Some(self.price(series, side)) };
        let condition = if self.random.percent(self.profile.day) { Condition::Day } else { Condition::Immediate };
        let mut size = self.size();
        if condition == Condition::Immediate && self.kind == Kindred::Crowded && self.random.percent(10) {
            size = self.random.between(50, 2_000);
        }
        Line::Order(Order { series, side, price, size, condition })
    }

    fn quote(&mut self) -> Line {
        let (maker, series, side) = (self.maker(), self.place(), self.side());
        Line::Quote(Quote { maker, series, side, price: self.price(series, side), size: self.size() })
    }

    fn width(&mut self) -> Line {
        let width = match self.random.below(5) {
            _ if self.wild() => Some(self.random.pick(&[0, 1, 1_000, 1_001, 999_999_999])),
            0 => None,
            1 => Some(self.random.pick(&[1, 2, 1_000])),
            _ => Some(self.random.between(1, 120)),
        };
        let official = |feed: &mut Feed| match feed.wild() {
            true => feed.random.pick(&[15, 16, 256, 999_999_999]),
            false => feed.random.below(16),
        };
        Line::Width { series: self.place(), width, first: official(self), second: official(self) }
    }

    fn price(&mut self, place: u32, side: Side) -> Cents {
        if self.wild() {
            return self.random.pick(&[0, 1, 2, 9_999_999, 10_000_000, 10_000_001, 999_999_999]);
        }
        let Some(&series) = self.series.get(place as usize) else { return 100 };
        let bid = series.nbbo.bid.unwrap_or(series.worth);
        let offer = series.nbbo.offer.unwrap_or(series.worth + 10);
        let (own, contra) = match side {
            Side::Buy => (bid, offer),
            Side::Sell => (offer, bid),
        };
        let by = self.random.below(30 + own / 10);
        let price = match self.random.weighed(&self.profile.prices) {
            // Passive: at or behind its own side of the market.
            0 => match side {
                Side::Buy => own.saturating_sub(by),
                Side::Sell => own + by,
            },
            // Marketable: at or through the contra side.
            1 => match side {
                Side::Buy => contra + by,
                Side::Sell => contra.saturating_sub(by),
            },
            2 => match self.row_of(place) {
                Some(row) => {
                    let collar = match row.standing {
                        Standing::Held { collar, .. } => collar,
                        _ => 25,
                    };
                    let away = self.random.pick(&[0, 0, 0, 1, collar, collar + 1, collar - 1, 2 * collar]);
                    match self.random.percent(50) {
                        true => row.price + away,
                        false => row.price.saturating_sub(away),
                    }
                }
                None => own,
            },
            3 => self.bound(&series),
            _ => {
                let digits = self.random.below(8);
                self.random.between(1, 10_u32.pow(digits))
            }
        };
        price.clamp(1, PRICE_MAX)
    }

    /// A price at a bound of a screen, or one cent beside it.
    fn bound(&mut self, series: &Series) -> Cents {
        let stock = self.stocks[series.class as usize];
        let bid = series.nbbo.bid.unwrap_or(series.worth);
        let offer = series.nbbo.offer.unwrap_or(series.worth);
        let at = match self.random.below(12) {
            0 => 2 * offer,
            1 => (3 * offer).div_ceil(2),
            2 => bid / 2,
            3 => offer + 100,
            4 => series.strike,
            5 => stock,
            6 => stock + 500,
            7 | 8 => stock.abs_diff(series.strike) / 2,
            9 => offer,
            10 => bid,
            _ => bid.div_ceil(2),
        };
        (at + self.random.below(3)).saturating_sub(1)
    }

    /// Writes a line that is broken, or was meant to be.
    fn say_broken(&mut self) -> io::Result<()> {
        let mut bytes = Vec::with_capacity(200);
        // A letter of its own may close the listing: while it is open, lines of S are broken.
        let line = if self.series.is_empty() || self.random.percent(5) { self.listing() } else { self.line() };
        write_line(&mut bytes, &line)?;
        bytes.pop();
        let place = self.random.below(bytes.len() as u32) as usize;
        match self.random.below(16) {
            0 => bytes.clear(),
            1 => bytes.truncate(place),
            2 => drop(bytes.remove(place)),
            3 => bytes[place] = self.random.next() as u8,
            4 => bytes.insert(place, self.random.next() as u8),
            5 => bytes.insert(place, b'\t'),
            6 => bytes.insert(place, b'0'),
            7 => bytes.push(b'\r'),
            8 => bytes.push(b'\t'),
            9 => bytes.extend_from_slice(b"\t1"),
            10 => {
                let tab = bytes.iter().rposition(|&byte| byte == b'\t').unwrap_or(0);
                let field = self.random.pick(&[&b"1000000000"[..], b"01", b"00", b"+1", b"-1", b"-", b"M", b"", b" 1", b"0x1", b"999999999", b"0"]);
                bytes.truncate(tab + 1);
                bytes.extend_from_slice(field);
            }
            11 => bytes.iter_mut().filter(|byte| **byte == b'\t').for_each(|byte| *byte = b' '),
            12 => bytes[0] = bytes[0].to_ascii_lowercase(),
            13 => {
                // 79 bytes and a newline are a line of 80.
                let length = self.random.pick(&[78, 79, 80, 81, 82, 160, 161, 500]);
                bytes.resize(length, b'1');
            }
            14 => bytes = vec![self.random.next() as u8; place],
            _ => {
                // Digits too many or too few.
                let digit = self.random.pick(b"0123456789");
                bytes.insert(place, digit);
            }
        }
        bytes.push(b'\n');
        let mut rest = &bytes[..];
        while !rest.is_empty() {
            let (line, after) = lines::read(rest);
            if let Some(line) = line {
                self.heard(&line);
            }
            rest = after;
        }
        self.out.write_all(&bytes)
    }
}

fn write_line(out: &mut impl Write, line: &Line) -> io::Result<()> {
    let side = |side: Side| match side {
        Side::Buy => 'B',
        Side::Sell => 'S',
    };
    let optional = |count: Option<u32>, none: &str| count.map_or(none.to_string(), |count| count.to_string());
    match *line {
        Line::List { class, kind, strike } => {
            let kind = match kind {
                Kind::Call => 'C',
                Kind::Put => 'P',
            };
            writeln!(out, "S\t{class}\t{kind}\t{strike}")
        }
        Line::Market { series, nbbo } => {
            writeln!(out, "N\t{series}\t{}\t{}", optional(nbbo.bid, "-"), optional(nbbo.offer, "-"))
        }
        Line::Tape { class, event } => match event {
            Event::Close(price) => writeln!(out, "U\t{class}\tC\t{price}"),
            Event::Opening(price) => writeln!(out, "U\t{class}\tO\t{price}"),
            Event::Last(price) => writeln!(out, "U\t{class}\tL\t{price}"),
            Event::Halt => writeln!(out, "U\t{class}\tH"),
            Event::Resumption => writeln!(out, "U\t{class}\tR"),
        },
        Line::Order(order) => {
            let condition = match order.condition {
                Condition::Day => 'D',
                Condition::Immediate => 'I',
            };
            let price = optional(order.price, "M");
            writeln!(out, "O\t{}\t{}\t{price}\t{}\t{condition}", order.series, side(order.side), order.size)
        }
        Line::Quote(quote) => {
            let Quote { maker, series, price, size, .. } = quote;
            writeln!(out, "Q\t{maker}\t{series}\t{}\t{price}\t{size}", side(quote.side))
        }
        Line::Enter { maker, class } => writeln!(out, "E\t{maker}\t{class}"),
        Line::Withdraw { number } => writeln!(out, "X\t{number}"),
        Line::Tick { millis } => writeln!(out, "T\t{millis}"),
        Line::Width { series, width, first, second } => {
            writeln!(out, "W\t{series}\t{}\t{first}\t{second}", optional(width, "-"))
        }
    }
}
