//! Lines: the forms, reading one, and cutting the input into them.

use crate::values::{Cents, Event, Kind, Millis, Nbbo, Number, Side};

/// A line that fits a form. The counts are as they were written, in range or not.
#[derive(Clone, Copy, PartialEq, Eq, Debug)]
pub enum Line {
    List { class: u32, kind: Kind, strike: Cents },
    Market { series: u32, nbbo: Nbbo },
    Tape { class: u32, event: Event },
    Order(Order),
    Quote(Quote),
    Enter { maker: u32, class: u32 },
    Withdraw { number: Number },
    Tick { millis: Millis },
    Width { series: u32, width: Option<Cents>, first: u32, second: u32 },
}

#[derive(Clone, Copy, PartialEq, Eq, Debug)]
pub struct Order {
    pub series: u32,
    pub side: Side,
    /// Absent for a market order.
    pub price: Option<Cents>,
    pub size: u32,
    pub condition: Condition,
}

#[derive(Clone, Copy, PartialEq, Eq, Debug)]
pub enum Condition {
    Day,
    Immediate,
}

#[derive(Clone, Copy, PartialEq, Eq, Debug)]
pub struct Quote {
    pub maker: u32,
    pub series: u32,
    pub side: Side,
    pub price: Cents,
    pub size: u32,
}

/// A line has at most this many bytes, its newline counted.
pub const LINE_MAX: usize = 80;

/// Reads the line at the front of `bytes`: what it says, or nothing where it is broken, and the bytes after its newline. Where `bytes`
/// has no newline, the line is broken and nothing is left.
///
/// No form comes near 80 bytes, so that a line which is too long fits none.
#[inline]
pub fn read(bytes: &[u8]) -> (Option<Line>, &[u8]) {
    let mut fields = Fields { bytes, at: 0 };
    match fields.line() {
        Some(line) => (Some(line), &bytes[fields.at..]),
        None => (None, after_newline(bytes).unwrap_or(&[])),
    }
}

pub fn after_newline(bytes: &[u8]) -> Option<&[u8]> {
    let newline = bytes.iter().position(|&byte| byte == b'\n')?;
    Some(&bytes[newline + 1..])
}

/// A place in the bytes of a line. Each reader goes past what it read, or gives nothing where the line does not go on so.
struct Fields<'a> {
    bytes: &'a [u8],
    at: usize,
}

impl Fields<'_> {
    #[inline(always)]
    fn line(&mut self) -> Option<Line> {
        let line = match self.byte()? {
            b'O' => Line::Order(Order {
                series: self.count()?,
                side: self.side()?,
                price: self.count_or(b'M')?,
                size: self.count()?,
                condition: self.letter(|byte| match byte {
                    b'D' => Some(Condition::Day),
                    b'I' => Some(Condition::Immediate),
                    _ => None,
                })?,
            }),
            b'Q' => Line::Quote(Quote {
                maker: self.count()?,
                series: self.count()?,
                side: self.side()?,
                price: self.count()?,
                size: self.count()?,
            }),
            b'N' => Line::Market {
                series: self.count()?,
                nbbo: Nbbo { bid: self.count_or(b'-')?, offer: self.count_or(b'-')? },
            },
            b'X' => Line::Withdraw { number: self.count()? },
            b'T' => Line::Tick { millis: self.count()? },
            b'U' => Line::Tape { class: self.count()?, event: self.event()? },
            b'E' => Line::Enter { maker: self.count()?, class: self.count()? },
            b'W' => Line::Width {
                series: self.count()?,
                width: self.count_or(b'-')?,
                first: self.count()?,
                second: self.count()?,
            },
            b'S' => Line::List {
                class: self.count()?,
                kind: self.letter(|byte| match byte {
                    b'C' => Some(Kind::Call),
                    b'P' => Some(Kind::Put),
                    _ => None,
                })?,
                strike: self.count()?,
            },
            _ => return None,
        };
        self.expect(b'\n')?;
        Some(line)
    }

    #[inline(always)]
    fn byte(&mut self) -> Option<u8> {
        let byte = *self.bytes.get(self.at)?;
        self.at += 1;
        Some(byte)
    }

    #[inline(always)]
    fn expect(&mut self, wanted: u8) -> Option<()> {
        (self.byte()? == wanted).then_some(())
    }

    /// A tab and one letter.
    #[inline(always)]
    fn letter<T>(&mut self, known: impl Fn(u8) -> Option<T>) -> Option<T> {
        self.expect(b'\t')?;
        known(self.byte()?)
    }

    #[inline(always)]
    fn side(&mut self) -> Option<Side> {
        self.letter(|byte| match byte {
            b'B' => Some(Side::Buy),
            b'S' => Some(Side::Sell),
            _ => None,
        })
    }

    #[inline(always)]
    fn event(&mut self) -> Option<Event> {
        self.expect(b'\t')?;
        match self.byte()? {
            b'C' => self.count().map(Event::Close),
            b'O' => self.count().map(Event::Opening),
            b'L' => self.count().map(Event::Last),
            b'H' => Some(Event::Halt),
            b'R' => Some(Event::Resumption),
            _ => None,
        }
    }

    /// A tab and a count.
    #[inline(always)]
    fn count(&mut self) -> Option<u32> {
        self.expect(b'\t')?;
        self.digits()
    }

    /// A tab and a count, or a tab and the byte that stands for none.
    #[inline(always)]
    fn count_or(&mut self, none: u8) -> Option<Option<u32>> {
        self.expect(b'\t')?;
        if self.bytes.get(self.at) == Some(&none) {
            self.at += 1;
            return Some(None);
        }
        self.digits().map(Some)
    }

    /// One to nine digits, no leading zero. A tenth digit, or one after a zero, is left for the next reader, which wants a tab or a
    /// newline.
    #[inline(always)]
    fn digits(&mut self) -> Option<u32> {
        let rest = self.bytes.get(self.at..)?;
        let first = digit(*rest.first()?)?;
        if first == 0 {
            self.at += 1;
            return Some(0);
        }
        let mut count = first;
        let mut length = 1;
        while length < 9 {
            match rest.get(length).and_then(|&byte| digit(byte)) {
                Some(next) => count = 10 * count + next,
                None => break,
            }
            length += 1;
        }
        self.at += length;
        Some(count)
    }
}

#[inline(always)]
fn digit(byte: u8) -> Option<u32> {
    let value = byte.wrapping_sub(b'0');
    (value <= 9).then_some(value as u32)
}

/// Cuts the input, block by block, into lines. It keeps the bytes of a line that has not ended, and of a long one no more than that it
/// is there.
pub struct Splitter {
    block: Box<[u8]>,
    /// How many bytes at the front of the block are filled; between blocks they are of a line that has not ended, under 80.
    filled: usize,
    /// How many of them are of lines that have ended.
    ended: usize,
    /// A line of 80 bytes or more has begun and not ended; its bytes were dropped.
    long: bool,
}

/// What has ended in a block.
pub struct Ended<'a> {
    /// Whether a line that was too long ended first.
    pub long: bool,
    /// Whole lines.
    pub lines: &'a [u8],
}

impl Splitter {
    pub fn new(size: usize) -> Splitter {
        assert!(size >= 2 * LINE_MAX);
        Splitter { block: vec![0; size].into_boxed_slice(), filled: 0, ended: 0, long: false }
    }

    /// The room to read more bytes into.
    pub fn room(&mut self) -> &mut [u8] {
        &mut self.block[self.filled..]
    }

    /// Hands on what has ended, now that `count` bytes were read into the room.
    pub fn add(&mut self, count: usize) -> Ended<'_> {
        let added = &self.block[self.filled..self.filled + count];
        if let Some(newline) = added.iter().rposition(|&byte| byte == b'\n') {
            self.ended = self.filled + newline + 1;
        }
        self.filled += count;
        let lines = &self.block[..self.ended];
        if !self.long {
            return Ended { long: false, lines };
        }
        match after_newline(lines) {
            Some(rest) => {
                self.long = false;
                Ended { long: true, lines: rest }
            }
            None => Ended { long: false, lines },
        }
    }

    /// Drops what has ended and keeps the bytes of the line that has not, before more are read.
    pub fn keep(&mut self) {
        let left = self.filled - self.ended;
        self.long |= left >= LINE_MAX;
        if self.long {
            self.filled = 0;
        } else {
            self.block.copy_within(self.ended..self.filled, 0);
            self.filled = left;
        }
        self.ended = 0;
    }

    /// Whether, at the end of the input, a line is left that has not ended.
    pub fn unended(&self) -> bool {
        self.long || self.filled > 0
    }
}
