//! The screens that the prices of limit orders and quotes are shown to.
//!
//! All products stay below 2^32: the largest is 150 times 10,000,000.

use crate::values::{Cents, Kind, Nbbo, Reference, Refusal, Side};

/// What a screen is shown of a series.
#[derive(Clone, Copy)]
pub struct View {
    pub kind: Kind,
    pub strike: Cents,
    pub nbbo: Nbbo,
    pub reference: Reference,
}

/// How far the refusal of a quote reaches.
#[derive(Clone, Copy, PartialEq, Eq, Debug)]
pub enum Extent {
    Side,
    Class,
}

/// The Limit Order Filter, then the order price check.
pub fn screen_order(view: &View, side: Side, price: Cents) -> Result<(), Refusal> {
    limit_order_filter(view, side, price)?;
    order_price_check(view, side, price)
}

/// The quote NBBO check, then the quote benchmark check.
pub fn screen_quote(view: &View, side: Side, price: Cents) -> Result<(), (Refusal, Extent)> {
    quote_nbbo_check(view, side, price).map_err(|refusal| (refusal, Extent::Side))?;
    quote_benchmark_check(view, side, price).map_err(|refusal| (refusal, Extent::Class))
}

fn refuse_where(refused: bool, refusal: Refusal) -> Result<(), Refusal> {
    if refused {
        Err(refusal)
    } else {
        Ok(())
    }
}

fn limit_order_filter(view: &View, side: Side, price: Cents) -> Result<(), Refusal> {
    let Some(contra) = view.nbbo.contra(side) else { return Ok(()) };
    let percent = if contra <= 100 { 100 } else { 50 };
    let through = match side {
        Side::Buy => 100 * price >= (100 + percent) * contra,
        Side::Sell => 100 * price <= (100 - percent) * contra,
    };
    refuse_where(through, Refusal::Through)
}

fn order_price_check(view: &View, side: Side, price: Cents) -> Result<(), Refusal> {
    let Reference::Sale(sale) = view.reference else { return Ok(()) };
    match (side, view.kind) {
        (Side::Buy, Kind::Put) => refuse_where(price >= view.strike, Refusal::Benchmark),
        (Side::Buy, Kind::Call) => refuse_where(price >= sale + 500, Refusal::Benchmark),
        (Side::Sell, kind) => {
            let value = match kind {
                Kind::Call => sale.checked_sub(view.strike),
                Kind::Put => view.strike.checked_sub(sale),
            };
            let below = value.is_some_and(|value| value > 0 && 100 * price <= 50 * value);
            refuse_where(below, Refusal::Intrinsic)
        }
    }
}

fn quote_nbbo_check(view: &View, side: Side, price: Cents) -> Result<(), Refusal> {
    let Some(contra) = view.nbbo.contra(side) else { return Ok(()) };
    let through = match side {
        Side::Buy if contra <= 100 => price >= contra + 100,
        Side::Buy => 100 * price >= 150 * contra,
        Side::Sell => contra > 100 && 100 * price <= 50 * contra,
    };
    refuse_where(through, Refusal::Through)
}

fn quote_benchmark_check(view: &View, side: Side, price: Cents) -> Result<(), Refusal> {
    let above = match (side, view.kind) {
        (Side::Buy, Kind::Put) => price >= view.strike,
        (Side::Buy, Kind::Call) => view.reference.price().is_some_and(|reference| price >= reference),
        (Side::Sell, _) => false,
    };
    refuse_where(above, Refusal::Benchmark)
}
