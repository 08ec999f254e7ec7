// Writes one million lines of all nine forms, with counts of one to nine digits, the same in every run. One in fifty is broken.
use std::io::{self, Write};

struct Numbers(u64);

impl Numbers {
    fn next(&mut self) -> u64 {
        self.0 = self.0.wrapping_mul(6364136223846793005).wrapping_add(1442695040888963407);
        self.0 >> 33
    }

    fn below(&mut self, n: u64) -> u64 {
        self.next() % n
    }

    // Of one to nine digits, each number of digits as often as another.
    fn count(&mut self) -> u64 {
        let digits = 1 + self.below(9) as u32;
        self.below(10u64.pow(digits))
    }

    fn optional(&mut self) -> String {
        if self.below(4) == 0 { "-".to_string() } else { self.count().to_string() }
    }

    fn of<'a>(&mut self, words: &[&'a str]) -> &'a str {
        words[self.below(words.len() as u64) as usize]
    }
}

fn main() -> io::Result<()> {
    let mut n = Numbers(1);
    let mut out = io::BufWriter::new(io::stdout().lock());
    for _ in 0..1_000_000 {
        let line = match n.below(9) {
            0 => format!("S\t{}\t{}\t{}", n.count(), n.of(&["C", "P"]), n.count()),
            1 => format!("N\t{}\t{}\t{}", n.count(), n.optional(), n.optional()),
            2 => match n.below(5) {
                0 => format!("U\t{}\t{}", n.count(), n.of(&["H", "R"])),
                _ => format!("U\t{}\t{}\t{}", n.count(), n.of(&["C", "O", "L"]), n.count()),
            },
            3 => {
                let price = if n.below(4) == 0 { "M".to_string() } else { n.count().to_string() };
                format!("O\t{}\t{}\t{}\t{}\t{}", n.count(), n.of(&["B", "S"]), price, n.count(), n.of(&["D", "I"]))
            }
            4 => format!("Q\t{}\t{}\t{}\t{}\t{}", n.count(), n.count(), n.of(&["B", "S"]), n.count(), n.count()),
            5 => format!("E\t{}\t{}", n.count(), n.count()),
            6 => format!("X\t{}", n.count()),
            7 => format!("T\t{}", n.count()),
            _ => format!("W\t{}\t{}\t{}\t{}", n.count(), n.optional(), n.count(), n.count()),
        };
        let end = if n.below(50) == 0 { "x\n" } else { "\n" };
        write!(out, "{line}{end}")?;
    }
    out.flush()
}
