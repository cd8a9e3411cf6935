//! The port beside the Rust with its own library's curves (tools/oracle --own-curves), as a bench ran it but for the requests in force. Each goes on from its
//! own board, and neither is ever set right. Told for each tenfold of steps: of each receive word in how many steps it differs, the distance that
//! 99.9 % of the steps keep within, and the worst.
//!
//!     --recording FILE    the steps of a recording (edition 1)
//!     --steps N           the recording again and again until N steps (default: once)
//!
//! Links board_c curves_c.

#[path = "../target/oracle_own/mod.rs"]
mod oracle;
#[allow(dead_code)]
#[path = "../examples/rytm.rs"]
mod rytm;

#[allow(dead_code)]
#[path = "board/case.rs"]
mod case;
#[allow(dead_code)]
#[path = "sources/fields.rs"]
mod fields;
#[allow(dead_code)]
#[path = "board/recording.rs"]
mod recording;
#[allow(dead_code)]
#[path = "board/sides.rs"]
mod sides;
#[allow(dead_code)]
#[path = "sources/state.rs"]
mod state;

use oracle::analog as rust;
use recording::Recording;
use rytm::Board;

const WORDS: [&str; 12] = ["BD", "BT", "SD", "LT", "hat", "MT", "cymbal", "RS", "audio-left", "audio-right", "mix-left", "mix-right"];

/// The distances of each word in some steps, each with its step.
struct Span {
    steps: u64,
    /// Steps with an unequal word.
    unequal: u64,
    distances: [Vec<(u32, u64)>; 12],
}

impl Span {
    fn new() -> Span {
        Span { steps: 0, unequal: 0, distances: std::array::from_fn(|_| Vec::new()) }
    }

    fn note(&mut self, step: u64, ours: &[i32; 12], theirs: &[i32; 12]) {
        self.steps += 1;
        self.unequal += (ours != theirs) as u64;
        for i in 0..12 {
            self.distances[i].push((ours[i].abs_diff(theirs[i]), step));
        }
    }

    fn print(&mut self, title: &str) {
        println!("{title}: {} of {} steps with an unequal word", self.unequal, self.steps);
        if self.unequal == 0 {
            return;
        }
        println!("{:>4} {:12}{:>10}{:>10}{:>10}{:>10}", "word", "", "unequal", "99.9 %", "worst", "at step");
        for (i, all) in self.distances.iter_mut().enumerate() {
            let unequal = all.iter().filter(|d| d.0 != 0).count();
            if unequal == 0 {
                println!("{i:>4} {:12}{:>10}", WORDS[i], 0);
                continue;
            }
            let (worst, at) = *all.iter().max_by_key(|d| (d.0, std::cmp::Reverse(d.1))).unwrap();
            let place = (all.len() * 999).div_ceil(1000) - 1;
            let most = all.select_nth_unstable(place).1 .0;
            println!("{i:>4} {:12}{unequal:>10}{most:>10}{worst:>10}{at:>10}", WORDS[i]);
        }
    }
}

fn stop(why: &str) -> ! {
    eprintln!("own: {why}");
    std::process::exit(2);
}

fn main() {
    let (mut file, mut steps) = (None, None);
    let mut words = std::env::args().skip(1);
    while let Some(word) = words.next() {
        let mut value = || words.next().unwrap_or_else(|| stop(&format!("{word}: a value is missing")));
        match word.as_str() {
            "--recording" => file = Some(value()),
            "--steps" => steps = Some(value().parse::<u64>().unwrap_or_else(|_| stop("--steps: not a number"))),
            _ => stop("options: --recording FILE [--steps N]"),
        }
    }
    let Some(file) = file else { stop("options: --recording FILE [--steps N]") };
    let bytes = std::fs::read(&file).unwrap_or_else(|e| stop(&format!("{file}: {e}")));
    let recording = Recording::read(&bytes).unwrap_or_else(|(number, why)| stop(&format!("{file}: refused by {number}: {why}")));
    let steps = steps.unwrap_or(recording.contents.len() as u64);
    println!("{}", oracle::ABOUT);
    let mut port = Board::fresh(recording.seed, recording.ideal);
    let mut own = rust::Analog::fresh(recording.seed, recording.ideal);
    let mut spans: Vec<Span> = Vec::new();
    for step in 0..steps {
        let case = recording.case((step % recording.contents.len() as u64) as usize);
        let ours = port.step(case.frame, case.dac, case.fx, case.audio, case.ext);
        let theirs = sides::rust_step(&mut own, &case);
        let span = (step.max(1)).ilog10() as usize;
        spans.resize_with(spans.len().max(span + 1), Span::new);
        spans[span].note(step, &ours.rx, &theirs.rx);
    }
    let mut from = 0;
    for span in &mut spans {
        let to = from + span.steps;
        span.print(&format!("steps {from} to {}", to - 1));
        from = to;
    }
    let unequal: u64 = spans.iter().map(|s| s.unequal).sum();
    let worst = spans.iter().flat_map(|s| s.distances.iter().flatten()).map(|d| d.0).max().unwrap_or(0);
    println!("{file}, {steps} steps: {unequal} with an unequal word, worst by {worst}");
}
