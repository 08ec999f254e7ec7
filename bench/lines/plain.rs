// The same program as relines in plain Rust: the same blocks, the same cutting into lines, the same values, the same bytes back.
use std::io::{self, Read, Write};

const LONGEST: usize = 80;
const LARGEST: u32 = 999_999_999;
const BLOCK: usize = 65_536;

struct Shape;

#[derive(Clone, Copy)]
enum Side {
    Buy,
    Sell,
}

#[derive(Clone, Copy)]
enum Kind {
    Call,
    Put,
}

#[derive(Clone, Copy)]
enum OrderPrice {
    Market,
    Limit(u32),
}

#[derive(Clone, Copy)]
enum Condition {
    Day,
    Immediate,
}

#[derive(Clone, Copy)]
enum Event {
    Close(u32),
    Open(u32),
    Last(u32),
    Halt,
    Resume,
}

#[derive(Clone, Copy)]
enum Line {
    Series { class: u32, kind: Kind, strike: u32 },
    Nbbo { series: u32, bid: Option<u32>, offer: Option<u32> },
    Event { class: u32, event: Event },
    Order { series: u32, side: Side, price: OrderPrice, size: u32, condition: Condition },
    Quote { maker: u32, series: u32, side: Side, price: u32, size: u32 },
    Enable { maker: u32, class: u32 },
    Withdraw { number: u32 },
    Clock { ms: u32 },
    Width { series: u32, width: Option<u32>, first: u32, second: u32 },
}

fn read_count(bytes: &[u8], end: u8) -> Result<(u32, &[u8]), Shape> {
    let mut n: u32 = 0;
    let mut digits = 0;
    while digits < bytes.len() && digits < 9 && bytes[digits].is_ascii_digit() {
        n = n * 10 + (bytes[digits] - b'0') as u32;
        digits += 1;
    }
    if digits == 0 || digits >= bytes.len() || bytes[digits] != end {
        return Err(Shape);
    }
    if bytes[0] == b'0' && digits > 1 {
        return Err(Shape);
    }
    Ok((n, &bytes[digits + 1..]))
}

fn read_last_count(bytes: &[u8]) -> Result<u32, Shape> {
    let (n, rest) = read_count(bytes, b'\n')?;
    if rest.is_empty() { Ok(n) } else { Err(Shape) }
}

fn read_optional(bytes: &[u8]) -> Result<(Option<u32>, &[u8]), Shape> {
    if let [b'-', b'\t', rest @ ..] = bytes {
        return Ok((None, rest));
    }
    let (price, rest) = read_count(bytes, b'\t')?;
    Ok((Some(price), rest))
}

fn read_last_optional(bytes: &[u8]) -> Result<Option<u32>, Shape> {
    if let [b'-', b'\n'] = bytes {
        return Ok(None);
    }
    Ok(Some(read_last_count(bytes)?))
}

fn read_side(bytes: &[u8]) -> Result<(Side, &[u8]), Shape> {
    match bytes {
        [b'B', b'\t', rest @ ..] => Ok((Side::Buy, rest)),
        [b'S', b'\t', rest @ ..] => Ok((Side::Sell, rest)),
        _ => Err(Shape),
    }
}

fn read_kind(bytes: &[u8]) -> Result<(Kind, &[u8]), Shape> {
    match bytes {
        [b'C', b'\t', rest @ ..] => Ok((Kind::Call, rest)),
        [b'P', b'\t', rest @ ..] => Ok((Kind::Put, rest)),
        _ => Err(Shape),
    }
}

fn read_order_price(bytes: &[u8]) -> Result<(OrderPrice, &[u8]), Shape> {
    if let [b'M', b'\t', rest @ ..] = bytes {
        return Ok((OrderPrice::Market, rest));
    }
    let (price, rest) = read_count(bytes, b'\t')?;
    Ok((OrderPrice::Limit(price), rest))
}

fn read_condition(bytes: &[u8]) -> Result<Condition, Shape> {
    match bytes {
        [b'D', b'\n'] => Ok(Condition::Day),
        [b'I', b'\n'] => Ok(Condition::Immediate),
        _ => Err(Shape),
    }
}

fn read_event(bytes: &[u8]) -> Result<Event, Shape> {
    match bytes {
        [b'C', b'\t', rest @ ..] => Ok(Event::Close(read_last_count(rest)?)),
        [b'O', b'\t', rest @ ..] => Ok(Event::Open(read_last_count(rest)?)),
        [b'L', b'\t', rest @ ..] => Ok(Event::Last(read_last_count(rest)?)),
        [b'H', b'\n'] => Ok(Event::Halt),
        [b'R', b'\n'] => Ok(Event::Resume),
        _ => Err(Shape),
    }
}

fn read_line(bytes: &[u8]) -> Result<Line, Shape> {
    let [letter, b'\t', rest @ ..] = bytes else {
        return Err(Shape);
    };
    match *letter {
        b'S' => {
            let (class, rest) = read_count(rest, b'\t')?;
            let (kind, rest) = read_kind(rest)?;
            let strike = read_last_count(rest)?;
            Ok(Line::Series { class, kind, strike })
        }
        b'N' => {
            let (series, rest) = read_count(rest, b'\t')?;
            let (bid, rest) = read_optional(rest)?;
            let offer = read_last_optional(rest)?;
            Ok(Line::Nbbo { series, bid, offer })
        }
        b'U' => {
            let (class, rest) = read_count(rest, b'\t')?;
            let event = read_event(rest)?;
            Ok(Line::Event { class, event })
        }
        b'O' => {
            let (series, rest) = read_count(rest, b'\t')?;
            let (side, rest) = read_side(rest)?;
            let (price, rest) = read_order_price(rest)?;
            let (size, rest) = read_count(rest, b'\t')?;
            let condition = read_condition(rest)?;
            Ok(Line::Order { series, side, price, size, condition })
        }
        b'Q' => {
            let (maker, rest) = read_count(rest, b'\t')?;
            let (series, rest) = read_count(rest, b'\t')?;
            let (side, rest) = read_side(rest)?;
            let (price, rest) = read_count(rest, b'\t')?;
            let size = read_last_count(rest)?;
            Ok(Line::Quote { maker, series, side, price, size })
        }
        b'E' => {
            let (maker, rest) = read_count(rest, b'\t')?;
            let class = read_last_count(rest)?;
            Ok(Line::Enable { maker, class })
        }
        b'X' => Ok(Line::Withdraw { number: read_last_count(rest)? }),
        b'T' => Ok(Line::Clock { ms: read_last_count(rest)? }),
        b'W' => {
            let (series, rest) = read_count(rest, b'\t')?;
            let (width, rest) = read_optional(rest)?;
            let (first, rest) = read_count(rest, b'\t')?;
            let second = read_last_count(rest)?;
            Ok(Line::Width { series, width, first, second })
        }
        _ => Err(Shape),
    }
}

// The last bytes of a line, those from `start` on.
struct Tail {
    bytes: [u8; LONGEST],
    start: usize,
}

impl Tail {
    fn put(&mut self, byte: u8) {
        self.start -= 1;
        self.bytes[self.start] = byte;
    }

    fn letter(&mut self, letter: u8, end: u8) {
        self.put(end);
        self.put(letter);
    }

    fn count(&mut self, n: u32, end: u8) -> Result<(), Shape> {
        if n > LARGEST {
            return Err(Shape);
        }
        self.put(end);
        let mut rest = n;
        while rest >= 10 {
            self.put(b'0' + (rest % 10) as u8);
            rest /= 10;
        }
        self.put(b'0' + rest as u8);
        Ok(())
    }

    fn optional(&mut self, price: Option<u32>, end: u8) -> Result<(), Shape> {
        match price {
            Some(price) => self.count(price, end)?,
            None => self.letter(b'-', end),
        }
        Ok(())
    }

    fn side(&mut self, side: Side) {
        match side {
            Side::Buy => self.letter(b'B', b'\t'),
            Side::Sell => self.letter(b'S', b'\t'),
        }
    }

    fn event(&mut self, event: Event) -> Result<(), Shape> {
        let (letter, price) = match event {
            Event::Close(price) => (b'C', price),
            Event::Open(price) => (b'O', price),
            Event::Last(price) => (b'L', price),
            Event::Halt => {
                self.letter(b'H', b'\n');
                return Ok(());
            }
            Event::Resume => {
                self.letter(b'R', b'\n');
                return Ok(());
            }
        };
        self.count(price, b'\n')?;
        self.letter(letter, b'\t');
        Ok(())
    }

    fn line(&mut self, line: Line) -> Result<(), Shape> {
        match line {
            Line::Series { class, kind, strike } => {
                self.count(strike, b'\n')?;
                match kind {
                    Kind::Call => self.letter(b'C', b'\t'),
                    Kind::Put => self.letter(b'P', b'\t'),
                }
                self.count(class, b'\t')?;
                self.letter(b'S', b'\t');
            }
            Line::Nbbo { series, bid, offer } => {
                self.optional(offer, b'\n')?;
                self.optional(bid, b'\t')?;
                self.count(series, b'\t')?;
                self.letter(b'N', b'\t');
            }
            Line::Event { class, event } => {
                self.event(event)?;
                self.count(class, b'\t')?;
                self.letter(b'U', b'\t');
            }
            Line::Order { series, side, price, size, condition } => {
                match condition {
                    Condition::Day => self.letter(b'D', b'\n'),
                    Condition::Immediate => self.letter(b'I', b'\n'),
                }
                self.count(size, b'\t')?;
                match price {
                    OrderPrice::Limit(price) => self.count(price, b'\t')?,
                    OrderPrice::Market => self.letter(b'M', b'\t'),
                }
                self.side(side);
                self.count(series, b'\t')?;
                self.letter(b'O', b'\t');
            }
            Line::Quote { maker, series, side, price, size } => {
                self.count(size, b'\n')?;
                self.count(price, b'\t')?;
                self.side(side);
                self.count(series, b'\t')?;
                self.count(maker, b'\t')?;
                self.letter(b'Q', b'\t');
            }
            Line::Enable { maker, class } => {
                self.count(class, b'\n')?;
                self.count(maker, b'\t')?;
                self.letter(b'E', b'\t');
            }
            Line::Withdraw { number } => {
                self.count(number, b'\n')?;
                self.letter(b'X', b'\t');
            }
            Line::Clock { ms } => {
                self.count(ms, b'\n')?;
                self.letter(b'T', b'\t');
            }
            Line::Width { series, width, first, second } => {
                self.count(second, b'\n')?;
                self.count(first, b'\t')?;
                self.optional(width, b'\t')?;
                self.count(series, b'\t')?;
                self.letter(b'W', b'\t');
            }
        }
        Ok(())
    }
}

fn write_line(line: Line, out: &mut [u8]) -> Result<usize, Shape> {
    let mut tail = Tail { bytes: [0; LONGEST], start: LONGEST };
    tail.line(line)?;
    if out.len() < LONGEST {
        return Err(Shape);
    }
    let size = LONGEST - tail.start;
    out[0..size].copy_from_slice(&tail.bytes[tail.start..]);
    Ok(size)
}

fn answer(bytes: &[u8], out: &mut Vec<u8>) {
    let mut text = [0u8; LONGEST];
    match read_line(bytes).and_then(|line| write_line(line, &mut text)) {
        Ok(size) => out.extend_from_slice(&text[0..size]),
        Err(Shape) => out.extend_from_slice(b"shape\n"),
    }
}

fn main() -> io::Result<()> {
    let mut from = io::stdin().lock();
    let mut to = io::stdout().lock();
    let mut buffer = vec![0u8; BLOCK];
    let mut out: Vec<u8> = Vec::with_capacity(BLOCK);
    let mut passing = false;
    let mut held = 0;
    loop {
        let count = from.read(&mut buffer[held..])?;
        if count == 0 {
            break;
        }
        let end = held + count;
        let mut rest = &buffer[..end];
        while let Some(at) = rest.iter().position(|&byte| byte == b'\n') {
            let (line, left) = rest.split_at(at + 1);
            if passing || line.len() > LONGEST {
                out.extend_from_slice(b"shape\n");
            } else {
                answer(line, &mut out);
            }
            passing = false;
            rest = left;
        }
        passing = passing || rest.len() >= LONGEST;
        held = if passing { 0 } else { rest.len() };
        buffer.copy_within(end - held..end, 0);
        to.write_all(&out)?;
        to.flush()?;
        out.clear();
    }
    if passing || held > 0 {
        out.extend_from_slice(b"shape\n");
    }
    to.write_all(&out)
}
