//! Why a voice adds nothing: the port's answers before a step, and beside them those that the request's words give of what the Rust tells
//! of that step. An answered cutoff also has to be that of the port's next board, as its chain has it stored.

use crate::case::Case;
use crate::fields::bits;
use crate::oracle::{analog as rust, Told};
use crate::rng::Rng;
use crate::rytm::{rytm_why, Analog, Board, Reason, Side, Why};

const SIDES: [(Side, &str); 2] = [(Side::Left, "left"), (Side::Right, "right")];
const REASONS: [&str; 6] = ["routed off", "amp level at or below 0", "VCA word 0", "filtered sample zero", "lost to rounding", "heard"];
const BOARDS: [&str; 2] = ["boards that came from fresh ones", "random boards"];
/// In so many generated steps every voice has to meet every reason on both sides.
const ENOUGH: u64 = 500_000;

/// A question with the port's answer, by the C name and sometimes by the wrapper too.
pub struct Asked {
    voice: u32,
    side: usize,
    why: Why,
    wrapped: Option<Why>,
}

/// The wrapper's answer in the C name's form.
fn flat(answer: Result<Reason, u32>) -> Why {
    let (reason, value) = match answer {
        Err(number) => return Why { number, reason: 0, value: 0.0 },
        Ok(Reason::RoutedOff) => (1, 0.0),
        Ok(Reason::AmpDown(level)) => (2, level),
        Ok(Reason::VcaZero) => (3, 0.0),
        Ok(Reason::FilteredZero(cutoff)) => (4, cutoff),
        Ok(Reason::LostToRounding) => (5, 0.0),
        Ok(Reason::Heard(added)) => (6, added),
    };
    Why { number: 0, reason, value }
}

/// The first that is true, with its value: the request's list, of what the Rust's step told.
fn reason(told: &Told, side: usize) -> (u32, f32) {
    if told.off.unwrap() {
        return (1, 0.0);
    }
    let (level, vca, filtered, added) = (told.level[side].unwrap(), told.vca[side].unwrap(), told.filtered.unwrap(), told.added[side].unwrap());
    if level <= 0.0 {
        (2, level)
    } else if vca == 0 {
        (3, 0.0)
    } else if filtered == 0.0 {
        (4, told.cutoff.unwrap())
    } else if added == 0.0 {
        (5, 0.0)
    } else {
        (6, added)
    }
}

fn row(why: &Why) -> [u32; 3] {
    [why.number, why.reason, bits(why.value)]
}

fn show(why: &Why) -> String {
    format!("number {}, reason {}, value {:08x} ({:e})", why.number, why.reason, why.value.to_bits(), why.value)
}

#[derive(Clone, Copy)]
enum Kind {
    Apart,
    LevelZero,
    LevelBelow,
    Replaced,
    CutoffLeast,
    CutoffMost,
    Infinite,
    NoNumber,
    Zeros,
}

const KINDS: [&str; 9] = [
    "voices whose sides have different reasons",
    "amp level 0",
    "amp level below 0",
    "filtered sample zero by the replacement",
    "filtered sample zero, cutoff 10 Hz",
    "filtered sample zero, cutoff 21600 Hz",
    "heard, infinite",
    "heard, not a number",
    "another reason, contribution not a number",
];

pub struct Questions {
    rng: Rng,
    asked: u64,
    wrapped: u64,
    /// Cutoffs that were compared with the next board's.
    stored: u64,
    pub differ: u64,
    /// Refused, by number; of voices above 7 alone, by number too.
    refused: [u64; 12],
    past: [u64; 12],
    /// By boards, reason, side and voice.
    reasons: [[[[u64; 8]; 2]; 6]; 2],
    kinds: [[u64; 2]; KINDS.len()],
}

impl Questions {
    pub fn new(rng: Rng) -> Questions {
        let (reasons, kinds) = ([[[[0; 8]; 2]; 6]; 2], [[0; 2]; KINDS.len()]);
        Questions { rng, asked: 0, wrapped: 0, stored: 0, differ: 0, refused: [0; 12], past: [0; 12], reasons, kinds }
    }

    /// Asks the port of every voice and side, and now and then of a voice that there is not.
    pub fn ask(&mut self, board: &Board, case: &Case) -> Vec<Asked> {
        let mut voices: Vec<(u32, usize)> = (0..16).map(|i| (i / 2, i as usize % 2)).collect();
        if self.rng.one_in(8) {
            let any = self.rng.word();
            voices.push((self.rng.pick(&[8, 8, 9, 15, 16, 255, 256, 0x8000_0000, u32::MAX, any | 8]), self.rng.below(2) as usize));
        }
        voices.into_iter().map(|(voice, side)| self.question(board, case, voice, side)).collect()
    }

    /// The board goes by value and none comes back: there is nothing of it to compare.
    fn question(&mut self, board: &Board, case: &Case, voice: u32, side: usize) -> Asked {
        let (f, d, p) = (case.frame, case.dac, case.fx);
        let [al, ar, el, er] = case.inputs();
        let why = unsafe { rytm_why(*board.state(), f.as_ptr(), f.len(), d.as_ptr(), d.len(), p.as_ptr(), p.len(), al, ar, el, er, voice, side == 1) };
        let wrapped = self.rng.one_in(8).then(|| flat(board.why(f, d, p, case.audio, case.ext, voice, SIDES[side].0)));
        Asked { voice, side, why, wrapped }
    }

    /// Compares the answers about a step with what the Rust told of it and with the port's next board; what differs, in words.
    pub fn compare(&mut self, asked: &[Asked], case: &Case, told: &[Told; 8], next: &Analog, random: bool) -> Vec<String> {
        let number = case.number();
        let mut wrong = Vec::new();
        for a in asked {
            let expected = match (number, a.voice) {
                (0, v @ 0..=7) => {
                    let (reason, value) = reason(&told[v as usize], a.side);
                    Why { number: 0, reason, value }
                }
                (0, _) => Why { number: 11, reason: 0, value: 0.0 },
                _ => Why { number, reason: 0, value: 0.0 },
            };
            self.asked += 1;
            self.wrapped += a.wrapped.is_some() as u64;
            self.note(a, &expected, told, random);
            let differs = [Some(a.why), a.wrapped].into_iter().flatten().find(|why| row(why) != row(&expected));
            // No board that calls reach from a fresh one adds what is not a number.
            let unheard = !random && expected.number == 0 && told[a.voice as usize].added[a.side].is_some_and(f32::is_nan);
            if differs.is_some() || unheard {
                let (ours, side) = (differs.unwrap_or(a.why), SIDES[a.side].1);
                wrong.push(format!("voice {} {side}: port {}; by the Rust {}", a.voice, show(&ours), show(&expected)));
                self.differ += 1;
            }
            if a.why.number == 0 && a.why.reason == 4 {
                let stored = next.chains[a.voice as usize].coefs.fc;
                self.stored += 1;
                if bits(a.why.value) != bits(stored.min(0.45 * rust::FS)) {
                    wrong.push(format!("voice {} {}: port {}; its next board has the cutoff {stored:e}", a.voice, SIDES[a.side].1, show(&a.why)));
                    self.differ += 1;
                }
            }
        }
        if number == 0 {
            let apart = (0..8).filter(|&v| reason(&told[v], 0).0 != reason(&told[v], 1).0).count() as u64;
            self.kinds[Kind::Apart as usize][random as usize] += apart;
        }
        wrong
    }

    fn note(&mut self, a: &Asked, expected: &Why, told: &[Told; 8], random: bool) {
        if expected.number != 0 {
            self.refused[expected.number as usize] += 1;
            self.past[expected.number as usize] += (a.voice > 7) as u64;
            return;
        }
        let told = &told[a.voice as usize];
        let adds = told.added[a.side].unwrap_or(0.0);
        self.reasons[random as usize][expected.reason as usize - 1][a.side][a.voice as usize] += 1;
        let mut add = |kind: Kind, met: bool| self.kinds[kind as usize][random as usize] += met as u64;
        match expected.reason {
            2 => add(if expected.value == 0.0 { Kind::LevelZero } else { Kind::LevelBelow }, true),
            4 => {
                add(Kind::Replaced, !told.raw.unwrap().is_finite());
                add(Kind::CutoffLeast, expected.value == 10.0);
                add(Kind::CutoffMost, expected.value == 21_600.0);
            }
            6 => {
                add(Kind::Infinite, expected.value.is_infinite());
                add(Kind::NoNumber, expected.value.is_nan());
            }
            _ => {}
        }
        add(Kind::Zeros, expected.reason != 6 && adds.is_nan());
    }

    /// What of reason, side and voice was not met on the boards of one kind.
    fn missing(&self, boards: usize) -> Vec<String> {
        let all = (0..6).flat_map(|r| (0..2).flat_map(move |s| (0..8).map(move |v| (r, s, v))));
        let missing = all.filter(|&(r, s, v)| self.reasons[boards][r][s][v] == 0);
        missing.map(|(r, s, v)| format!("voice {v} {}, {} on {}", SIDES[s].1, REASONS[r], BOARDS[boards])).collect()
    }

    /// What a run that is long enough has to meet and this one did not: every reason on every voice and side of boards that came from fresh ones, every
    /// refusal of the questions, also of voices above 7, and sides with different reasons.
    fn unmet(&self) -> Vec<String> {
        let numbers = [1, 2, 3, 4, 5, 11];
        let never = numbers.iter().filter(|&&n| self.refused[n] == 0).map(|n| format!("a question refused by {n}"));
        let past = numbers.iter().filter(|&&n| self.past[n] == 0).map(|n| format!("a voice above 7 refused by {n}"));
        let apart = (self.kinds[Kind::Apart as usize][0] == 0).then(|| KINDS[Kind::Apart as usize].to_string());
        self.missing(0).into_iter().chain(never).chain(past).chain(apart).collect()
    }

    /// The end of the run: its questions, differences among them, and whether it was long enough to meet what it did not.
    pub fn end(&self, steps: u64, generated: bool) -> (String, u64, bool) {
        println!("reasons by voice and side on {}: {} of 96 met", BOARDS[0], 96 - self.missing(0).len());
        let fails = generated && steps >= ENOUGH && !self.unmet().is_empty();
        let short = if fails { format!(" ({} of what it has to meet not met)", self.unmet().len()) } else { String::new() };
        (format!(", {} questions{short}", self.asked), self.differ, fails)
    }

    pub fn print(&self) {
        println!("questions:");
        println!("{:50}{:>12}", "asked by the C name", self.asked);
        println!("{:50}{:>12}", "by the wrapper too", self.wrapped);
        println!("{:50}{:>12}", "cutoffs beside the next board's", self.stored);
        for (number, (n, past)) in self.refused.iter().zip(&self.past).enumerate() {
            if matches!(number, 1..=5 | 11) {
                println!("{:50}{n:>12}, of voices above 7 {past}", format!("refused by {number}"));
            }
        }
        for (boards, reasons) in BOARDS.iter().zip(&self.reasons) {
            println!("reasons on {boards}:");
            println!("  {:32}{}", "by voice", (0..8).map(|v| format!("{v:>12}")).collect::<String>());
            for (name, sides) in REASONS.iter().zip(reasons) {
                for (voices, (_, side)) in sides.iter().zip(SIDES) {
                    println!("  {:32}{}", format!("{name}, {side}"), voices.map(|n| format!("{n:>12}")).concat());
                }
            }
        }
        println!("{:50}{}", "", BOARDS.map(|boards| format!("{boards:>34}")).concat());
        for (name, counts) in KINDS.iter().zip(&self.kinds) {
            println!("{name:50}{}", counts.map(|n| format!("{n:>34}")).concat());
        }
        let mut never = self.unmet();
        never.extend(KINDS.iter().zip(&self.kinds).skip(1).filter(|(_, n)| n[0] + n[1] == 0).map(|(name, _)| name.to_string()));
        never.extend(self.missing(1));
        if !never.is_empty() {
            println!("never met: {}", never.join("; "));
        }
    }
}
