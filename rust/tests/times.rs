//! How long deciding takes on the seeded books that are accepted: a measurement, which is run by
//!
//!     cargo test --release --test times -- --ignored --nocapture

#[allow(dead_code)]
mod generate;
#[allow(dead_code)]
mod plain;
#[allow(dead_code)]
mod support;

use std::time::{Duration, Instant};

use generate::books;
use generate::random::Random;
use zegbiko::{count, decide, MARKS, PLACEMENT};

const BOOKS: u64 = 100_000;

#[test]
#[ignore = "a measurement"]
fn deciding() {
    let (mut marks, mut placement) = ([0; MARKS], [0; PLACEMENT]);
    let mut once = |book: &[u8]| {
        let start = Instant::now();
        let decided = decide(book, &mut marks, &mut placement);
        decided.ok().map(|_| start.elapsed())
    };
    let drawn = (0..BOOKS).map(|case| books::any(&mut Random::of(1, case)));
    let best = |book: Vec<u8>| Some((count(&book).ok()?, (0..5).map(|_| once(&book)).min().flatten()?));
    let times: Vec<(usize, Duration)> = drawn.filter_map(best).collect();
    println!("the best of five times, in µs:");
    for (least, most) in [(1, MARKS), (1, 100), (101, 1000), (1001, MARKS)] {
        let meant = times.iter().filter(|(candidates, _)| (least..=most).contains(candidates));
        let mut times: Vec<Duration> = meant.map(|&(_, time)| time).collect();
        times.sort();
        let share = |percent: usize| times[(times.len() - 1) * percent / 100].as_secs_f64() * 1e6;
        print!("{:6} books of {least} to {most} candidates:", times.len());
        [50, 95, 99, 100].iter().for_each(|&percent| print!("  {percent} % at most {:.0}", share(percent)));
        println!();
    }
}
