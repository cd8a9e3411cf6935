//! Compares the port's board with the Rust of tools/oracle, the published one with the requests in force, step by step: outcome, twelve words, mix and
//! the whole board, bit for bit; two values that are not numbers count as equal. The Rust refuses nothing: the refusals of
//! document 01 stand before it here. The coefficients that the port's chains keep are no part of the Rust's board: beside them stand those that the Rust
//! worked out in this very step, of all eight chains, and after a refusal those of before.
//!
//!     --steps N           generated steps (default 2000000)
//!     --seed S            seed of the generated steps (default 1)
//!     --recording FILE    the steps of a recording (edition 1) instead; a bad one ends with status 2
//!     --print             of each step of the recording the Rust's answer: outcome, twelve words, mix bit patterns
//!     --receive           each generated step by the call that copies its words, with slot tables and destinations of every kind
//!     --why               before each step the port is asked of every voice and side why it adds nothing; in half of the patterns some voices
//!                         all but fall silent
//!     --stale             boards with wrong coefficients in some chains: the Rust goes by them too where the step's cutoff and resonance have the stored ones' bits
//!     --record FILE       writes a recording of N generated steps of all styles (at most 4096), and compares nothing
//!
//! What a request changes is counted by itself where the oracle (tools/oracle) is without it: of R-3 the FM phases, which have to be all that it met; of R-5 the
//! steps whose mix differs, each of which has to be one with a chain whose sides are apart, and if generated steps met such a chain there have to be some; of R-7
//! the steps with a plain path sounding, an oscillator 1 without FM or ring, that differ, and again there have to be some. Each such step also has to be answered as
//! the port does of the same board and of the frame with the wave switches turned, and --why asks of that frame instead. A step that differs in anything else is a
//! difference.
//!
//! Links board_c why_c curves_c.

#[path = "../target/oracle/mod.rs"]
mod oracle;
#[path = "../examples/rytm.rs"]
mod rytm;

#[path = "sources/coverage.rs"]
mod coverage;
#[path = "sources/fields.rs"]
mod fields;
#[path = "sources/frames.rs"]
mod frames;
#[path = "sources/rng.rs"]
mod rng;
#[path = "sources/state.rs"]
mod state;
#[path = "sources/states.rs"]
mod states;

#[path = "board/boards.rs"]
mod boards;
#[path = "board/case.rs"]
mod case;
#[path = "board/coefs.rs"]
mod coefs;
#[path = "board/desk.rs"]
mod desk;
#[path = "board/faint.rs"]
mod faint;
#[path = "board/met.rs"]
mod met;
#[path = "board/receive.rs"]
mod receive;
#[path = "board/recording.rs"]
mod recording;
#[path = "board/sides.rs"]
mod sides;
#[path = "board/strips.rs"]
mod strips;
#[path = "board/why.rs"]
mod why;
#[path = "board/without.rs"]
mod without;

use case::Case;
use coefs::Stale;
use desk::Desk;
use faint::Faint;
use fields::{bits, Names};
use frames::{Style, STYLES};
use met::{Count, Met};
use oracle::analog as rust;
use oracle::{counted, told};
use receive::{Lent, Sides};
use recording::{Recording, Writer};
use rng::Rng;
use rytm::{Analog, Answer, Board, Coefs, Mix};
use std::collections::BTreeSet;
use why::Questions;
use without::{Cases, Found, Without};

/// One board on both sides.
struct Twin {
    port: Board,
    rust: rust::Analog,
    /// The Rust's board in the port's form.
    board: Analog,
    /// The board was random, or came from one.
    random: bool,
}

struct Report {
    steps: u64,
    differ: u64,
    /// The fields of an answer, and how often each differed.
    names: Names,
    of: Vec<u64>,
    /// What differs as a request has it that the oracle is without.
    without: Without,
    met: Met,
    copies: receive::Met,
    /// Where the port is asked why a voice adds nothing.
    questions: Option<Questions>,
    /// Where boards have wrong coefficients.
    stale: Option<Stale>,
    /// A fresh chain's coefficients.
    coefs: Coefs,
    /// Curve calls, of boards that came from fresh ones and of random ones.
    curves: [[counted::Count; counted::NAMES.len()]; 2],
}

/// The fields in which two answers differ, and whether any of them is one that no request left out changes.
#[derive(Default)]
struct Apart {
    fields: Vec<usize>,
    other: bool,
}

impl Report {
    fn new(questions: Option<Questions>, stale: Option<Stale>) -> Report {
        let (met, copies, coefs, curves) = (Met::new(), receive::Met::new(), coefs::fresh(), [counted::take(); 2]);
        let names = sides::names(&answer(Analog::of(&rust::Analog::fresh(1, false), &[coefs; 8])));
        let of = vec![0; names.words.len()];
        Report { steps: 0, differ: 0, names, of, without: Without::default(), met, copies, questions, stale, coefs, curves }
    }

    /// Takes the counts of the curve calls since the last time.
    fn tally(&mut self, random: bool) {
        for (c, n) in self.curves[random as usize].iter_mut().zip(counted::take()) {
            c.calls += n.calls;
            c.outside += n.outside;
            c.nan += n.nan;
            c.least = c.least.min(n.least);
            c.most = c.most.max(n.most);
        }
    }

    fn print_curves(&self) {
        for (boards, counts) in ["boards that came from fresh ones", "random boards"].iter().zip(&self.curves) {
            if counts.iter().all(|c| c.calls == 0) {
                continue;
            }
            println!("curve calls on {boards}:");
            println!("  {:8}{:>14}{:>14}{:>14}   {}", "", "calls", "out of range", "no number", "least and most of the numbers");
            for (name, c) in counted::NAMES.iter().zip(counts) {
                let span = if c.outside > c.nan { format!("   {:e} to {:e}", c.least, c.most) } else { String::new() };
                println!("  {name:8}{:>14}{:>14}{:>14}{span}", c.calls, c.outside, c.nan);
            }
        }
    }

    /// A fresh board on both sides, compared.
    fn fresh(&mut self, seed: u32, ideal: bool) -> Twin {
        let (port, rust) = (Board::fresh(seed, ideal), rust::Analog::fresh(seed, ideal));
        let board = Analog::of(&rust, &[self.coefs; 8]);
        self.met.fresh(seed, ideal);
        if let Some(stale) = &mut self.stale {
            stale.begin();
        }
        let place = || println!("fresh boards differ: seed {seed}, ideal {ideal}");
        let found = self.differs(&answer(*port.state()), &answer(board), Cases::default(), place);
        if self.count(&[found]) {
            return Twin { port: Board::of(board), rust, board, random: false };
        }
        Twin { port, rust, board, random: false }
    }

    /// In what the port's answer differs from the Rust's, of a step that met these cases; the first time all of it is told.
    fn differs(&mut self, port: &Answer, rust: &Answer, cases: Cases, place: impl Fn()) -> Apart {
        let (ours, theirs) = (sides::row(port), sides::row(rust));
        if ours == theirs {
            return Apart::default();
        }
        let fields = ours.against(&theirs, &self.names);
        let named: Vec<&str> = fields.iter().map(|(i, _)| self.names.words[*i].0.as_str()).collect();
        let found = Found::new(&named, port, rust, cases);
        let first = self.without.note(&found);
        if found.other && self.differ == 0 || !found.other && first {
            place();
            fields.iter().for_each(|(_, text)| println!("  {text}"));
        }
        Apart { fields: fields.iter().map(|(i, _)| *i).collect(), other: found.other }
    }

    /// Counts a step, in what its comparisons found; whether that is anything.
    fn count(&mut self, found: &[Apart]) -> bool {
        let fields: BTreeSet<usize> = found.iter().flat_map(|a| &a.fields).copied().collect();
        fields.iter().for_each(|&i| self.of[i] += 1);
        self.differ += found.iter().any(|a| a.other) as u64;
        !fields.is_empty()
    }

    /// One step by both, by the call that copies its words where something is lent for that; the port goes on from the Rust's
    /// board where they differ. The Rust's answer.
    fn step(&mut self, twin: &mut Twin, case: &Case, copy: Option<&Lent>, place: &str) -> Answer {
        let before = twin.board;
        let lent = (case.frame.to_vec(), case.dac.to_vec(), case.fx.to_vec());
        let frame = without::turned(case.frame);
        let (mut other, turned) = (twin.port, Case { frame: &frame, ..*case });
        let asked = self.questions.as_mut().map(|q| q.ask(&twin.port, &turned));
        if self.stale.is_some() {
            coefs::arm(&before);
        }
        let Sides { port: ours, rust: theirs, same } = match copy {
            Some(copy) => receive::call(&mut twin.port, &mut twin.rust, &before, case, copy, &mut self.copies),
            None => Sides { rust: coefs::rust_step(&mut twin.rust, &before, case), port: sides::port_step(&mut twin.port, case), same: true },
        };
        let cases = Cases::take();
        if let (Some(stale), 0) = (&mut self.stale, theirs.number) {
            stale.note(&before);
        }
        let written = !same || lent.0 != case.frame || lent.1 != case.dac || lent.2 != case.fx;
        twin.board = theirs.board;
        self.met.note(&before, case, &theirs, cases);
        let at = self.steps;
        self.steps += 1;
        let tell = || {
            println!("step {at} differs: {place}");
            case.print();
            if let Some(copy) = copy {
                copy.print();
            }
            let of = answer(before);
            println!("  board before: {}", sides::row(&of).all(&sides::names(&of), 15));
        };
        let found = if oracle::R7 || cases.plain == 0 {
            vec![self.differs(&ours, &theirs, cases, tell)]
        } else {
            // The Rust has to answer as the port does of the turned frame; what is apart from that answer in the port's own is R-7's.
            let answer = sides::port_step(&mut other, &turned);
            let place = || {
                tell();
                println!("  with the wave switches turned:");
            };
            let found = self.differs(&answer, &theirs, Cases { plain: 0, ..cases }, place);
            self.without.turned += !found.other as u64;
            vec![found, self.differs(&ours, &answer, Cases { apart: false, ..cases }, tell)]
        };
        if self.count(&found) {
            twin.port = Board::of(theirs.board);
        }
        if written {
            if self.differ == 0 {
                println!("step {at} wrote other lent memory than the copy: {place}");
                case.print();
                if let Some(copy) = copy {
                    copy.print();
                }
            }
            self.differ += 1;
        }
        if let (Some(q), Some(asked)) = (&mut self.questions, asked) {
            let first = q.differ == 0;
            let wrong = q.compare(&asked, case, &told::take(), &ours.board, twin.random);
            if first && !wrong.is_empty() {
                tell();
                wrong.iter().for_each(|text| println!("  {text}"));
            }
        }
        theirs
    }

    fn end(&self, coverage: bool, copies: bool, generated: bool) -> ! {
        if coverage {
            self.met.print();
            if copies {
                self.copies.print();
            }
            if let Some(q) = &self.questions {
                q.print();
            }
            self.print_curves();
        }
        let open: Vec<String> = self.names.words.iter().zip(&self.of).filter(|(_, n)| **n > 0).map(|((name, _), n)| format!("{name} {n}")).collect();
        if !open.is_empty() {
            println!("differing fields: {}", open.join(", "));
        }
        let undone = self.without.end(&self.met, generated);
        let these = if oracle::R3 && oracle::R5 && oracle::R7 { "" } else { " but these" };
        let (questions, wrong, unmet) = self.questions.as_ref().map_or((String::new(), 0, false), |q| q.end(self.steps, generated));
        let unmet = unmet || self.stale.as_ref().is_some_and(|s| s.end(self.steps));
        println!("compared {} steps{questions}: {} differences{these}", self.steps, self.differ + wrong);
        std::process::exit((self.differ + wrong != 0 || undone || unmet) as i32);
    }
}

/// A board as an answer without words and mix.
fn answer(board: Analog) -> Answer {
    Answer { number: 0, rx: [0; 12], mix: Mix { l: 0.0, r: 0.0 }, board }
}

/// A value that is not finite stays in these for ever, or for long.
fn stuck(b: &Analog) -> bool {
    let filters = b.hat.hp.low + b.cym.svf.iter().map(|s| s.low).sum::<f32>() + b.toms.iter().map(|t| t.y1).sum::<f32>();
    let chains = b.chains.iter().map(|c| c.lp1 + c.amp.level + c.amp_r.level + c.flt.level).sum::<f32>();
    !(filters + chains + b.comp.env + b.comp.sc.lo).is_finite()
}

/// Generated steps, in episodes of every style.
fn generated(report: &mut Report, steps: u64, seed: u64, copies: bool) {
    let mut rng = Rng::new(seed);
    let rng = &mut rng;
    // What fades, and the coefficients of random boards, are drawn apart: nothing else depends on them.
    let mut fades = Rng::new(!seed);
    let mut pairs = Rng::new(!seed.rotate_left(16));
    let mut episode = 0;
    while report.steps < steps {
        let (style, name) = STYLES[(episode % 5) as usize];
        let long = style == Style::Firmware && (episode == 5 || rng.one_in(6));
        let tempo = if long { 6000 } else { rng.pick(&[4, 40, 200, 1000]) };
        let length = if long { 150_000 } else { 1000 + rng.below(9000) };
        let any = rng.word();
        let (seed, ideal) = (rng.pick(&[0, 1, rytm::DEFAULT_SEED, any, any]), rng.one_in(4));
        let mut desk = Desk::new(rng, style, tempo);
        let mut twin = report.fresh(seed, ideal);
        let mut faint = (report.questions.is_some() && fades.one_in(2)).then(|| Faint::new(Rng::new(fades.next())));
        let fading = if faint.is_some() { ", fading voices" } else { "" };
        let place = format!("episode {episode}, {name}{fading}, board seed {seed}, ideal {ideal}");
        for _ in 0..(length as u64).min(steps - report.steps) {
            desk.step(rng);
            if let Some(faint) = &mut faint {
                faint.step(&mut desk);
            }
            let random = style == Style::States && rng.one_in(8);
            let spoilt = report.stale.as_mut().is_some_and(|s| random || s.rng.one_in(16));
            if random || spoilt {
                report.tally(twin.random);
                let mut board = if random { boards::random(rng, &desk.frames.frame, report.coefs) } else { twin.board };
                if let (Some(faint), true) = (&mut faint, random) {
                    faint.board(&mut board);
                }
                match &mut report.stale {
                    Some(stale) => {
                        if random {
                            stale.begin();
                        }
                        stale.spoil(&mut board, &desk.case());
                    }
                    None => coefs::right(&mut pairs, &mut board, &desk.case()),
                }
                twin = Twin { port: Board::of(board), rust: board.rust(), board, random: true };
                report.met.add(Count::Random, random);
            }
            let copy = copies.then(|| Lent::new(rng));
            report.step(&mut twin, &desk.case(), copy.as_ref(), &place);
            if stuck(&twin.board) && rng.one_in(256) {
                report.tally(twin.random);
                twin = report.fresh(seed, ideal);
            }
        }
        report.tally(twin.random);
        episode += 1;
    }
}

/// The steps of a recording.
fn recorded(report: &mut Report, file: &str, print: bool) {
    let bytes = std::fs::read(file).unwrap_or_else(|e| stop(&format!("{file}: {e}")));
    let recording = Recording::read(&bytes).unwrap_or_else(|(number, why)| stop(&format!("{file}: refused by {number}: {why}")));
    let mut twin = report.fresh(recording.seed, recording.ideal);
    for step in 0..recording.contents.len() {
        let place = format!("{file}, body {}", recording.contents[step]);
        let a = report.step(&mut twin, &recording.case(step), None, &place);
        if print {
            let words: Vec<String> = a.rx.iter().map(|w| w.to_string()).collect();
            println!("{} {} {:08x} {:08x}", a.number, words.join(" "), bits(a.mix.l), bits(a.mix.r));
        }
    }
    report.tally(false);
}

/// Writes a recording of generated steps, as many of each style.
fn record(file: &str, steps: u64, seed: u64) {
    let mut rng = Rng::new(seed);
    let mut writer = Writer::new();
    let steps = steps.min(4096) as usize;
    let mut taken = 0;
    for (i, (style, _)) in STYLES.iter().enumerate() {
        let mut desk = Desk::new(&mut rng, *style, 40);
        while taken < steps * (i + 1) / STYLES.len() {
            desk.step(&mut rng);
            taken += writer.take(&desk.case()) as usize;
        }
    }
    let bytes = writer.bytes(rng.word(), rng.one_in(4));
    std::fs::write(file, &bytes).unwrap_or_else(|e| stop(&format!("{file}: {e}")));
    println!("{file}: {taken} steps, {} bytes", bytes.len());
}

fn stop(why: &str) -> ! {
    eprintln!("compare: {why}");
    std::process::exit(2);
}

fn main() {
    let (mut steps, mut seed, mut file, mut to) = (2_000_000, 1, None, None);
    let (mut print, mut copies, mut why, mut stale) = (false, false, false, false);
    let mut words = std::env::args().skip(1);
    while let Some(word) = words.next() {
        let mut value = || words.next().unwrap_or_else(|| stop(&format!("{word}: a value is missing")));
        let number = |v: String| v.parse().unwrap_or_else(|_| stop(&format!("{v}: not a number")));
        match word.as_str() {
            "--steps" => steps = number(value()),
            "--seed" => seed = number(value()),
            "--recording" => file = Some(value()),
            "--print" => print = true,
            "--receive" => copies = true,
            "--why" => why = true,
            "--stale" => stale = true,
            "--record" => to = Some(value()),
            _ => stop("options: --steps N --seed S [--receive | --why | --stale | --record FILE] | --recording FILE [--print | --why]"),
        }
    }
    if copies && (file.is_some() || to.is_some()) {
        stop("--receive is for generated steps that are compared");
    }
    if why && (copies || print || to.is_some()) {
        stop("--why is for steps that are compared, and by itself");
    }
    if stale && (copies || why || file.is_some() || to.is_some()) {
        stop("--stale is for generated steps that are compared, and by itself");
    }
    if why && !oracle::R5 {
        stop("--why asks of each side by its own amp level: not --without R-5");
    }
    if let Some(to) = to {
        return record(&to, steps, seed);
    }
    println!("{}", oracle::ABOUT);
    let apart = |turn: u32| Rng::new(seed.rotate_left(turn));
    let mut report = Report::new(why.then(|| Questions::new(apart(32))), stale.then(|| Stale::new(apart(48))));
    let generate = file.is_none();
    match file {
        Some(file) => recorded(&mut report, &file, print),
        None if print => stop("--print needs --recording"),
        None => generated(&mut report, steps, seed, copies),
    }
    report.end(!print, copies, generate);
}
