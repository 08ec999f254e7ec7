// Times one withdrawal and one insertion in a book, with 8 and with 256 rows resting, in the proved code of crates/book_speed.
use std::time::Instant;

unsafe extern "C" {
    fn book_rounds(rest: u32, spread: u8, rounds: u32) -> u32;
}

const ROUNDS: u32 = 400_000;

// Nanoseconds for one round: the fastest of seven runs, less the time that making and filling the book takes.
fn cost(rest: u32, spread: u8) -> f64 {
    let run = |rounds: u32| {
        let mut best = f64::MAX;
        for _ in 0..7 {
            let start = Instant::now();
            let withdrawn = unsafe { book_rounds(rest, spread, rounds) };
            assert_eq!(withdrawn, rounds, "each round withdraws a row");
            best = best.min(start.elapsed().as_nanos() as f64);
        }
        best
    };
    (run(ROUNDS) - run(0)) / ROUNDS as f64
}

fn main() {
    for spread in [1, 8, 64] {
        let few = cost(8, spread);
        let many = cost(256, spread);
        println!("{spread:2} series: 8 rows {few:6.1} ns, 256 rows {many:6.1} ns, ratio {:.2}", many / few);
    }
}
