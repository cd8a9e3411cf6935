//! Plays a recording (edition 1) through the model, and asks before each step of every voice and side why it adds nothing.
//!
//! Links board_c why_c.

#[allow(dead_code)]
#[path = "../examples/rytm.rs"]
mod rytm;

#[allow(dead_code)]
#[path = "board/case.rs"]
mod case;
#[allow(dead_code)]
#[path = "board/recording.rs"]
mod recording;

use recording::Recording;
use rytm::{Board, Reason, Side};
use std::io::Write;

const VOICES: [&str; 8] = ["BD", "BT", "SD", "LT", "hat", "MT", "cymbal", "RS"];
const SIDES: [(Side, &str); 2] = [(Side::Left, "left"), (Side::Right, "right")];
/// What each number is refused because of.
const REFUSED: [&str; 9] = [
    "",
    "a frame under 664 bytes",
    "under 24 FX bytes",
    "not 16 DAC words",
    "a DAC word out of range",
    "an input out of range",
    "a bad opening",
    "a wrong length",
    "an entry that names no body",
];

/// The accepted steps of one voice and side.
#[derive(Clone, Copy, Default)]
struct Tally {
    heard: u64,
    /// The largest contribution's size.
    loudest: f32,
    /// By reason: how many, and the last.
    silent: [(u64, Option<Reason>); 5],
}

impl Tally {
    fn note(&mut self, reason: Reason) {
        let place = match reason {
            Reason::RoutedOff => 0,
            Reason::AmpDown(_) => 1,
            Reason::VcaZero => 2,
            Reason::FilteredZero(_) => 3,
            Reason::LostToRounding => 4,
            Reason::Heard(added) => {
                self.heard += 1;
                self.loudest = self.loudest.max(added.abs());
                return;
            }
        };
        self.silent[place] = (self.silent[place].0 + 1, Some(reason));
    }

    /// The reasons in words, the most frequent first.
    fn words(&self) -> String {
        let mut silent = self.silent;
        silent.sort_by_key(|(steps, _)| std::cmp::Reverse(*steps));
        let words = silent.iter().filter_map(|(steps, last)| last.map(|reason| format!("{reason} ({steps})")));
        words.collect::<Vec<_>>().join("; ")
    }
}

fn stop(why: &str, status: i32) -> ! {
    eprintln!("why: {why}");
    std::process::exit(status);
}

/// The lines of a recording.
fn lines(recording: &Recording) -> Vec<String> {
    let mut board = Board::fresh(recording.seed, recording.ideal);
    let mut tallies = [[Tally::default(); 2]; 8];
    let mut numbers = [0u64; 6];
    for step in 0..recording.contents.len() {
        let case = recording.case(step);
        for (voice, sides) in tallies.iter_mut().enumerate() {
            for (tally, (side, _)) in sides.iter_mut().zip(SIDES) {
                if let Ok(reason) = board.why(case.frame, case.dac, case.fx, case.audio, case.ext, voice as u32, side) {
                    tally.note(reason);
                }
            }
        }
        numbers[board.step(case.frame, case.dac, case.fx, case.audio, case.ext).number as usize] += 1;
    }
    let steps = recording.contents.len();
    let mut lines = vec![format!("{steps} steps, {:.3} s at 48 kHz: {} accepted", steps as f64 / 48000.0, numbers[0])];
    let refused = (1..6).filter(|&number| numbers[number] > 0);
    lines.extend(refused.map(|number| format!("{} refused by {number}: {}", numbers[number], REFUSED[number])));
    if numbers[0] == 0 {
        return lines;
    }
    let titles = format!("{:8} {:5} {:>7} {:>8}", "voice", "side", "heard", "loudest");
    lines.push(titles + "  not heard: why (in how many steps), with the last level or cutoff");
    for (voice, sides) in tallies.iter().enumerate() {
        for (tally, (_, side)) in sides.iter().zip(SIDES) {
            let loudest = if tally.heard > 0 { format!("{:.1e}", tally.loudest) } else { String::new() };
            let line = format!("{:8} {side:5} {:>7} {loudest:>8}  {}", format!("{voice} {}", VOICES[voice]), tally.heard, tally.words());
            lines.push(line.trim_end().to_string());
        }
    }
    lines
}

fn main() {
    let given: Vec<std::ffi::OsString> = std::env::args_os().skip(1).collect();
    let [file] = &given[..] else { stop("usage: tools/why RECORDING", 2) };
    let bytes = std::fs::read(file).unwrap_or_else(|e| stop(&format!("{}: {e}", file.to_string_lossy()), 1));
    let lines = match Recording::read(&bytes) {
        Ok(recording) => lines(&recording),
        Err((number, _)) => vec![format!("the recording is refused by {number}: {}", REFUSED[number as usize])],
    };
    let text = lines.join("\n") + "\n";
    let mut out = std::io::stdout();
    out.write_all(text.as_bytes()).and_then(|_| out.flush()).unwrap_or_else(|e| stop(&format!("the output cannot be written: {e}"), 1));
}
