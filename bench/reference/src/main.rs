//! Reads lines from standard input, or from the file that the argument names, and answers each as RULES.md and LINES.md say.

mod book;
mod collars;
mod lines;
mod market;
mod printer;
mod screens;
mod values;

use book::Rolls;
use lines::{Line, Splitter};
use market::Market;
use printer::Printer;
use std::fs::File;
use std::io::{self, ErrorKind, Read, Write};
use std::os::fd::AsFd;
use std::process::ExitCode;
use values::Refusal;

const BLOCK: usize = 256 * 1024;

const HELP: &str = "\
Reads lines from standard input, or from the file that is named, and answers each.
The fields of a line are parted by one tab.

  S class kind strike              lists a series; kind C or P
  N series bid offer               its national best bid and offer, - where absent
  U class event                    C, O or L and a price; H; R
  O series side price size cond    an order; side B or S, price M for a market order, cond D or I
  Q maker series side price size   a quote
  E maker class                    lets a maker quote in a class again
  X number                         withdraws the row with the number
  T milliseconds                   moves the clock on
  W series width official official a collar width, - for the ladder

Printed after each: t series price size taker resting; w number left; a code number word.
";

fn main() -> ExitCode {
    let mut arguments = std::env::args_os().skip(1);
    let result = match (arguments.next(), arguments.next()) {
        (None, _) => standard(io::stdin()).and_then(run),
        (Some(help), None) if help == "--help" => {
            standard(io::stdout()).and_then(|mut out| out.write_all(HELP.as_bytes()))
        }
        (Some(path), None) => File::open(path).and_then(run),
        (Some(_), Some(_)) => Err(io::Error::new(ErrorKind::InvalidInput, "one file at most")),
    };
    match result {
        Ok(()) => ExitCode::SUCCESS,
        Err(error) => {
            // Nobody can be told where this fails.
            let _ = writeln!(io::stderr(), "reference: {error}");
            ExitCode::FAILURE
        }
    }
}

/// A standard stream without the buffer that it comes with.
fn standard(stream: impl AsFd) -> io::Result<File> {
    Ok(File::from(stream.as_fd().try_clone_to_owned()?))
}

fn run(mut input: File) -> io::Result<()> {
    let mut session = Session {
        market: Market::new(),
        rolls: Rolls::new(),
        printer: Printer::new(standard(io::stdout())?),
    };
    let mut splitter = Splitter::new(BLOCK);
    loop {
        session.printer.write_out()?;
        let count = match input.read(splitter.room()) {
            Ok(0) => break,
            Ok(count) => count,
            Err(error) if error.kind() == ErrorKind::Interrupted => continue,
            Err(error) => return Err(error),
        };
        let ended = splitter.add(count);
        if ended.long {
            session.answer(None)?;
        }
        let mut rest = ended.lines;
        while !rest.is_empty() {
            let (line, after) = lines::read(rest);
            session.answer(line)?;
            rest = after;
        }
        splitter.keep();
    }
    if splitter.unended() {
        session.answer(None)?;
    }
    session.printer.write_out()
}

struct Session {
    market: Market,
    rolls: Rolls,
    printer: Printer<File>,
}

impl Session {
    /// Answers a line, or a broken one, and prints what is to be printed.
    #[inline]
    fn answer(&mut self, line: Option<Line>) -> io::Result<()> {
        self.rolls.clear();
        let answer = match line {
            Some(line) => self.market.answer(&line, &mut self.rolls),
            None => Err(Refusal::Shape),
        };
        #[cfg(debug_assertions)]
        self.market.check();
        self.printer.print(&self.rolls, answer)
    }
}
