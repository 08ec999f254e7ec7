//! What is printed after each line, kept until it is written out.

use crate::book::Rolls;
use crate::market::Answer;
use std::io::{self, Write};

/// More than is ever printed for one line: 256 trades of at most 35 bytes, 128 withdrawals of at most 16, and the answer.
const LINE_ROOM: usize = 16 * 1024;
const ROOM: usize = 256 * 1024;

pub struct Printer<W: Write> {
    kept: Box<[u8]>,
    count: usize,
    out: W,
}

impl<W: Write> Printer<W> {
    pub fn new(out: W) -> Printer<W> {
        Printer { kept: vec![0; ROOM].into_boxed_slice(), count: 0, out }
    }

    /// Prints the trades, the withdrawals and the answer of a line.
    #[inline]
    pub fn print(&mut self, rolls: &Rolls, answer: Answer) -> io::Result<()> {
        if self.count > ROOM - LINE_ROOM {
            self.write_out()?;
        }
        for trade in &rolls.trades {
            self.text(b"t");
            for count in [trade.series as u32, trade.price, trade.size, trade.taker, trade.resting] {
                self.field(count);
            }
            self.text(b"\n");
        }
        for withdrawal in &rolls.withdrawals {
            self.text(b"w");
            self.field(withdrawal.number);
            self.field(withdrawal.left);
            self.text(b"\n");
        }
        match answer {
            Ok(0) => self.text(b"a\t0\t0\ttaken\n"),
            Ok(number) => {
                self.text(b"a\t0");
                self.field(number);
                self.text(b"\ttaken\n");
            }
            Err(refusal) => self.text(refusal.answer()),
        }
        Ok(())
    }

    pub fn write_out(&mut self) -> io::Result<()> {
        self.out.write_all(&self.kept[..self.count])?;
        self.count = 0;
        self.out.flush()
    }

    #[inline(always)]
    fn text(&mut self, text: &[u8]) {
        self.kept[self.count..self.count + text.len()].copy_from_slice(text);
        self.count += text.len();
    }

    /// A tab and a count of at most eight digits.
    #[inline(always)]
    fn field(&mut self, count: u32) {
        let digits = match count {
            0..=9 => 1,
            10..=99 => 2,
            100..=999 => 3,
            1_000..=9_999 => 4,
            10_000..=99_999 => 5,
            100_000..=999_999 => 6,
            1_000_000..=9_999_999 => 7,
            _ => 8,
        };
        let field = &mut self.kept[self.count..self.count + 1 + digits];
        self.count += 1 + digits;
        let mut rest = count;
        for digit in field[1..].iter_mut().rev() {
            *digit = b'0' + (rest % 10) as u8;
            rest /= 10;
        }
        field[0] = b'\t';
    }
}
