//! Collar widths, and the display price and reach of an order that comes in.

use crate::values::{Cents, Nbbo, Side};

/// The width that goes by the NBB.
pub fn ladder(bid: Cents) -> Cents {
    match bid {
        0..=199 => 25,
        200..=500 => 40,
        501..=1_000 => 50,
        1_001..=2_000 => 80,
        _ => 100,
    }
}

/// How a day order is priced on entering.
#[derive(Clone, Copy, PartialEq, Eq, Debug)]
pub struct Pricing {
    pub reach: Cents,
    pub display: Display,
}

/// Where the balance of a day order displays.
#[derive(Clone, Copy, PartialEq, Eq, Debug)]
pub enum Display {
    /// Not collared: at the limit.
    Limit,
    /// Collared, in a wide market.
    Wide { at: Cents, collar: Cents },
    /// Collared, in a narrow market: at the last trade's price, or at the order's own side of the market if it made none.
    Narrow { untraded: Cents, collar: Cents },
}

/// `width` is the one that an update put in force, if any.
pub fn price_day_order(side: Side, limit: Cents, nbbo: &Nbbo, width: Option<Cents>) -> Pricing {
    let not_collared = Pricing { reach: limit, display: Display::Limit };
    let Some((bid, offer)) = nbbo.both() else { return not_collared };
    let (own, contra) = match side {
        Side::Buy => (bid, offer),
        Side::Sell => (offer, bid),
    };
    let marketable = side.within(contra, limit);
    if !marketable {
        return not_collared;
    }
    let collar = width.unwrap_or_else(|| ladder(bid));
    if offer - bid > collar {
        // The contra side is more than a collar away, and the limit no nearer.
        let at = side.onward(own, collar, limit);
        Pricing { reach: side.onward(at, collar, limit), display: Display::Wide { at, collar } }
    } else {
        Pricing { reach: side.onward(contra, collar, limit), display: Display::Narrow { untraded: own, collar } }
    }
}
