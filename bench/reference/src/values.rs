//! The values that the other parts share: sides, prices, references, refusals.

/// A price, strike or width, in whole cents.
pub type Cents = u32;
/// A moment or a stretch of time, in milliseconds.
pub type Millis = u32;
/// What names an admitted order or quote.
pub type Number = u32;

pub const PRICE_MAX: Cents = 10_000_000;
pub const WIDTH_MAX: Cents = 1_000;
pub const SIZE_MAX: u32 = 999_999;
pub const NUMBER_MAX: Number = 999_999;
pub const STEP_MAX: Millis = 1_000;
pub const CLOCK_MAX: Millis = 100_000_000;
pub const CLASSES: usize = 16;
pub const MAKERS: usize = 16;
pub const OFFICIALS: usize = 16;
pub const SERIES: usize = 64;
pub const ROWS: usize = 256;
/// How long a held order waits, after its entry, its last due moment or its last trade.
pub const WAIT: Millis = 1_000;

pub fn is_price(cents: Cents) -> bool {
    (1..=PRICE_MAX).contains(&cents)
}

pub fn is_size(size: u32) -> bool {
    (1..=SIZE_MAX).contains(&size)
}

#[derive(Clone, Copy, PartialEq, Eq, Debug)]
pub enum Side {
    Buy,
    Sell,
}

impl Side {
    pub fn contra(self) -> Side {
        match self {
            Side::Buy => Side::Sell,
            Side::Sell => Side::Buy,
        }
    }

    /// Whether `price` is no more aggressive for this side than `bound`.
    pub fn within(self, price: Cents, bound: Cents) -> bool {
        match self {
            Side::Buy => price <= bound,
            Side::Sell => price >= bound,
        }
    }

    /// `by` cents more aggressive than `price`, or the limit where that comes first.
    pub fn onward(self, price: Cents, by: Cents, limit: Cents) -> Cents {
        match self {
            Side::Buy => (price + by).min(limit),
            Side::Sell => price.saturating_sub(by).max(limit),
        }
    }

    /// The limit of a market order.
    pub fn no_limit(self) -> Cents {
        match self {
            Side::Buy => PRICE_MAX,
            Side::Sell => 1,
        }
    }
}

#[derive(Clone, Copy, PartialEq, Eq, Debug)]
pub enum Kind {
    Call,
    Put,
}

/// The national best bid and offer of a series.
#[derive(Clone, Copy, PartialEq, Eq, Debug, Default)]
pub struct Nbbo {
    pub bid: Option<Cents>,
    pub offer: Option<Cents>,
}

impl Nbbo {
    /// The side that an order or quote of `side` would trade with.
    pub fn contra(&self, side: Side) -> Option<Cents> {
        match side {
            Side::Buy => self.offer,
            Side::Sell => self.bid,
        }
    }

    pub fn both(&self) -> Option<(Cents, Cents)> {
        self.bid.zip(self.offer)
    }
}

/// What the tape reports of a class.
#[derive(Clone, Copy, PartialEq, Eq, Debug)]
pub enum Event {
    Close(Cents),
    Opening(Cents),
    Last(Cents),
    Halt,
    Resumption,
}

impl Event {
    pub fn price(self) -> Option<Cents> {
        match self {
            Event::Close(price) | Event::Opening(price) | Event::Last(price) => Some(price),
            Event::Halt | Event::Resumption => None,
        }
    }
}

/// What is known of the price of a class's stock.
#[derive(Clone, Copy, PartialEq, Eq, Debug, Default)]
pub enum Reference {
    #[default]
    Absent,
    Close(Cents),
    Sale(Cents),
    Halted(Cents),
}

impl Reference {
    pub fn price(self) -> Option<Cents> {
        match self {
            Reference::Absent => None,
            Reference::Close(price) | Reference::Sale(price) | Reference::Halted(price) => Some(price),
        }
    }

    pub fn after(self, event: Event) -> Reference {
        match (event, self) {
            (Event::Close(price), Reference::Absent | Reference::Close(_)) => Reference::Close(price),
            (Event::Opening(price), Reference::Absent | Reference::Close(_)) => Reference::Sale(price),
            (Event::Last(price), Reference::Sale(_)) => Reference::Sale(price),
            (Event::Halt, Reference::Sale(price)) => Reference::Halted(price),
            (Event::Resumption, Reference::Halted(price)) => Reference::Sale(price),
            _ => self,
        }
    }
}

/// The refusals that this program can give: 2 and 9 do not arise in it.
#[derive(Clone, Copy, PartialEq, Eq, Debug)]
pub enum Refusal {
    Shape,
    Name,
    Price,
    Size,
    Crossed,
    Clock,
    Unknown,
    Same,
    Spent,
    Full,
    NoMarket,
    Shut,
    Late,
    Through,
    Benchmark,
    Intrinsic,
}

impl Refusal {
    /// The whole line that is printed for it.
    pub fn answer(self) -> &'static [u8] {
        match self {
            Refusal::Shape => b"a\t1\t0\tshape\n",
            Refusal::Name => b"a\t3\t0\tname\n",
            Refusal::Price => b"a\t4\t0\tprice\n",
            Refusal::Size => b"a\t5\t0\tsize\n",
            Refusal::Crossed => b"a\t6\t0\tcrossed\n",
            Refusal::Clock => b"a\t7\t0\tclock\n",
            Refusal::Unknown => b"a\t8\t0\tunknown\n",
            Refusal::Same => b"a\t10\t0\tsame\n",
            Refusal::Spent => b"a\t11\t0\tspent\n",
            Refusal::Full => b"a\t12\t0\tfull\n",
            Refusal::NoMarket => b"a\t13\t0\tnomarket\n",
            Refusal::Shut => b"a\t14\t0\tshut\n",
            Refusal::Late => b"a\t15\t0\tlate\n",
            Refusal::Through => b"a\t21\t0\tthrough\n",
            Refusal::Benchmark => b"a\t22\t0\tbenchmark\n",
            Refusal::Intrinsic => b"a\t23\t0\tintrinsic\n",
        }
    }
}
