//! The market: its listing and the eight calls.

use crate::book::{Book, Rolls, Row, Standing, Taker, Withdrawal};
use crate::collars::{price_day_order, Display};
use crate::lines::{Condition, Line, Order, Quote};
use crate::screens::{screen_order, screen_quote, Extent, View};
use crate::values::*;

struct Series {
    class: u8,
    kind: Kind,
    strike: Cents,
    nbbo: Nbbo,
    /// The width that an update gave, or none where it goes by the ladder.
    width: Option<Cents>,
}

pub struct Market {
    series: Vec<Series>,
    /// Whether the listing is closed.
    made: bool,
    references: [Reference; CLASSES],
    /// By maker and class.
    shut: [[bool; CLASSES]; MAKERS],
    book: Box<Book>,
    clock: Millis,
    /// The number that was given last, 0 before the first.
    given: Number,
}

/// The number that was given to an order or quote, 0 for other calls.
pub type Answer = Result<Number, Refusal>;

/// `number` as a place below `count`.
fn name(number: u32, count: usize) -> Result<u8, Refusal> {
    if (number as usize) < count {
        Ok(number as u8)
    } else {
        Err(Refusal::Name)
    }
}

fn unless(refused: bool, refusal: Refusal) -> Result<(), Refusal> {
    if refused {
        Err(refusal)
    } else {
        Ok(())
    }
}

impl Market {
    pub fn new() -> Market {
        Market {
            series: Vec::with_capacity(SERIES),
            made: false,
            references: [Reference::Absent; CLASSES],
            shut: [[false; CLASSES]; MAKERS],
            book: Book::new(),
            clock: 0,
            given: 0,
        }
    }

    /// Answers a line, adding its trades and withdrawals to the rolls.
    #[inline]
    pub fn answer(&mut self, line: &Line, rolls: &mut Rolls) -> Answer {
        if !matches!(line, Line::List { .. }) {
            self.made = true;
        }
        match *line {
            Line::List { class, kind, strike } => self.list(class, kind, strike).map(|()| 0),
            Line::Market { series, nbbo } => self.set_nbbo(series, nbbo).map(|()| 0),
            Line::Tape { class, event } => self.take_event(class, event).map(|()| 0),
            Line::Order(order) => self.enter_order(order, rolls),
            Line::Quote(quote) => self.enter_quote(quote, rolls),
            Line::Enter { maker, class } => self.let_in(maker, class).map(|()| 0),
            Line::Withdraw { number } => self.withdraw(number, rolls).map(|()| 0),
            Line::Tick { millis } => self.tick(millis, rolls).map(|()| 0),
            Line::Width { series, width, first, second } => self.update_width(series, width, first, second).map(|()| 0),
        }
    }

    /// The book, for those who look on.
    #[allow(dead_code)]
    pub fn book(&self) -> &Book {
        &self.book
    }

    #[cfg(debug_assertions)]
    pub fn check(&self) {
        self.book.check(self.clock);
    }

    fn list(&mut self, class: u32, kind: Kind, strike: Cents) -> Result<(), Refusal> {
        let class = name(class, CLASSES)?;
        unless(!is_price(strike), Refusal::Price)?;
        unless(self.made || self.series.len() == SERIES, Refusal::Late)?;
        self.series.push(Series { class, kind, strike, nbbo: Nbbo::default(), width: None });
        Ok(())
    }

    fn set_nbbo(&mut self, series: u32, nbbo: Nbbo) -> Result<(), Refusal> {
        let series = name(series, self.series.len())?;
        let out_of_range = |side: Option<Cents>| side.is_some_and(|price| !is_price(price));
        unless(out_of_range(nbbo.bid) || out_of_range(nbbo.offer), Refusal::Price)?;
        unless(nbbo.both().is_some_and(|(bid, offer)| bid > offer), Refusal::Crossed)?;
        self.series[series as usize].nbbo = nbbo;
        Ok(())
    }

    fn take_event(&mut self, class: u32, event: Event) -> Result<(), Refusal> {
        let class = name(class, CLASSES)?;
        unless(event.price().is_some_and(|price| !is_price(price)), Refusal::Price)?;
        let reference = &mut self.references[class as usize];
        *reference = reference.after(event);
        Ok(())
    }

    fn enter_order(&mut self, order: Order, rolls: &mut Rolls) -> Answer {
        let Order { side, price, size, condition, .. } = order;
        let series = name(order.series, self.series.len())?;
        unless(price.is_some_and(|price| !is_price(price)), Refusal::Price)?;
        unless(!is_size(size), Refusal::Size)?;
        unless(self.given == NUMBER_MAX, Refusal::Spent)?;
        unless(condition == Condition::Day && self.book.is_full(), Refusal::Full)?;
        let nbbo = self.series[series as usize].nbbo;
        match price {
            None => unless(nbbo.both().is_none(), Refusal::NoMarket)?,
            Some(price) => screen_order(&self.view(series), side, price)?,
        }

        let number = self.next_number();
        let limit = price.unwrap_or(side.no_limit());
        match condition {
            Condition::Immediate => {
                let taker = Taker { number, series, side, size, reach: limit };
                let taken = self.book.take(taker, self.clock, rolls);
                if taken.left > 0 {
                    rolls.withdrawals.push(Withdrawal { number, left: taken.left });
                }
            }
            Condition::Day => {
                let pricing = price_day_order(side, limit, &nbbo, self.series[series as usize].width);
                let taker = Taker { number, series, side, size, reach: pricing.reach };
                let taken = self.book.take(taker, self.clock, rolls);
                if taken.left > 0 {
                    let (price, collar) = match pricing.display {
                        Display::Limit => (limit, None),
                        Display::Wide { at, collar } => (at, Some(collar)),
                        Display::Narrow { untraded, collar } => (taken.last.unwrap_or(untraded), Some(collar)),
                    };
                    let standing = match collar {
                        Some(collar) if price != limit => Standing::Held { collar, due: self.clock + WAIT },
                        _ => Standing::Plain,
                    };
                    self.book.rest(Row { number, price, limit, size: taken.left, series, side, standing });
                }
                self.book.serve(series, self.clock, rolls);
            }
        }
        Ok(number)
    }

    fn enter_quote(&mut self, quote: Quote, rolls: &mut Rolls) -> Answer {
        let Quote { side, price, size, .. } = quote;
        let maker = name(quote.maker, MAKERS)?;
        let series = name(quote.series, self.series.len())?;
        unless(!is_price(price), Refusal::Price)?;
        unless(!is_size(size), Refusal::Size)?;
        unless(self.given == NUMBER_MAX, Refusal::Spent)?;
        let older = self.book.quote_of(maker, series, side).map(|row| row.number);
        unless(older.is_none() && self.book.is_full(), Refusal::Full)?;
        let class = self.series[series as usize].class;
        unless(self.shut[maker as usize][class as usize], Refusal::Shut)?;
        let screened = screen_quote(&self.view(series), side, price);

        if let Err((refusal, Extent::Class)) = screened {
            self.withdraw_class(maker, class, rolls);
            self.shut[maker as usize][class as usize] = true;
            return Err(refusal);
        }
        if let Some(older) = older {
            self.book.withdraw(older, rolls);
        }
        screened.map_err(|(refusal, _)| refusal)?;

        let number = self.next_number();
        let taker = Taker { number, series, side, size, reach: price };
        let taken = self.book.take(taker, self.clock, rolls);
        if taken.left > 0 {
            let standing = Standing::Quote { maker };
            self.book.rest(Row { number, price, limit: price, size: taken.left, series, side, standing });
        }
        self.book.serve(series, self.clock, rolls);
        Ok(number)
    }

    fn let_in(&mut self, maker: u32, class: u32) -> Result<(), Refusal> {
        let maker = name(maker, MAKERS)?;
        let class = name(class, CLASSES)?;
        self.shut[maker as usize][class as usize] = false;
        Ok(())
    }

    fn withdraw(&mut self, number: Number, rolls: &mut Rolls) -> Result<(), Refusal> {
        unless(!self.book.withdraw(number, rolls), Refusal::Unknown)
    }

    fn tick(&mut self, millis: Millis, rolls: &mut Rolls) -> Result<(), Refusal> {
        unless(millis > STEP_MAX || self.clock + millis > CLOCK_MAX, Refusal::Clock)?;
        self.clock += millis;
        self.book.move_due(self.clock, rolls);
        Ok(())
    }

    fn update_width(&mut self, series: u32, width: Option<Cents>, first: u32, second: u32) -> Result<(), Refusal> {
        let series = name(series, self.series.len())?;
        name(first, OFFICIALS)?;
        name(second, OFFICIALS)?;
        unless(width.is_some_and(|width| !(1..=WIDTH_MAX).contains(&width)), Refusal::Price)?;
        unless(first == second, Refusal::Same)?;
        self.series[series as usize].width = width;
        Ok(())
    }

    /// All quotes of the maker in the class, the lowest number first.
    fn withdraw_class(&mut self, maker: u8, class: u8, rolls: &mut Rolls) {
        let mut numbers = [0; 2 * SERIES];
        let mut count = 0;
        for (place, series) in self.series.iter().enumerate() {
            if series.class != class {
                continue;
            }
            for side in [Side::Buy, Side::Sell] {
                if let Some(row) = self.book.quote_of(maker, place as u8, side) {
                    numbers[count] = row.number;
                    count += 1;
                }
            }
        }
        numbers[..count].sort_unstable();
        for &number in &numbers[..count] {
            self.book.withdraw(number, rolls);
        }
    }

    fn view(&self, series: u8) -> View {
        let Series { class, kind, strike, nbbo, .. } = self.series[series as usize];
        View { kind, strike, nbbo, reference: self.references[class as usize] }
    }

    fn next_number(&mut self) -> Number {
        self.given += 1;
        self.given
    }
}
