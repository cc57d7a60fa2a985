//! A line of the table, and the clock.
use std::time::Instant;

/// What was timed, nanoseconds of it on each side, their ratio, and what it is to stay within: a ratio, nanoseconds of the Rattle,
/// or nothing.
pub struct Line {
    what: String,
    rattle: f64,
    rust: Option<f64>,
    ratio: f64,
    bar: &'static str,
}

impl Line {
    pub fn new(what: String, rattle: f64, rust: f64, bar: &'static str) -> Line {
        Line { what, rattle, rust: Some(rust), ratio: rattle / rust, bar }
    }

    /// A call that the Rust doesn't have: its ratio is to another call of the Rattle.
    pub fn alone(what: &str, rattle: f64, other: f64, bar: &'static str) -> Line {
        Line { what: what.to_string(), rattle, rust: None, ratio: rattle / other, bar }
    }

    pub fn print(&self) {
        let rust = self.rust.map_or(String::new(), |ns| format!("{ns:.0}"));
        let line = format!("{:56} {:>9.0} {rust:>9} {:>6.3}  {}", self.what, self.rattle, self.ratio, self.bar);
        println!("{}", line.trim_end());
    }
}

pub fn head() {
    println!("{:56} {:>9} {:>9} {:>6}  bar", "least times", "Rattle ns", "Rust ns", "ratio");
}

/// Nanoseconds of each call, the least over the rounds; in a round each is made `calls` times, one after the other.
pub fn least<const N: usize>(rounds: u32, calls: u32, mut made: [&mut dyn FnMut(); N]) -> [f64; N] {
    let mut least = [f64::MAX; N];
    for _ in 0..rounds {
        for (least, call) in least.iter_mut().zip(&mut made) {
            let start = Instant::now();
            for _ in 0..calls {
                call();
            }
            *least = least.min(start.elapsed().as_nanos() as f64 / f64::from(calls));
        }
    }
    least
}

/// Reading and writing by both sides. Nothing that was read is handed over from outside, so writing is timed behind a reading, and the
/// reading taken off. The calls: the Rattle and the Rust reading, the Rattle and the Rust reading and writing.
pub fn reading_and_writing(names: [&str; 2], bar: &'static str, calls: u32, made: [&mut dyn FnMut(); 4]) -> Vec<Line> {
    let [rattle, rust, rattle_both, rust_both] = least(3_000, calls, made);
    let line = |what: &str, rattle, rust| Line::new(what.to_string(), rattle, rust, bar);
    vec![line(names[0], rattle, rust), line(names[1], rattle_both - rattle, rust_both - rust)]
}
