//! Compares the port's sources with the published Rust (built by tools/oracle), sample by sample and state by state,
//! bit for bit; two values that are not numbers count as equal. First the calls that the sources stand on, each by
//! itself: `Record::parse`, `Wave::from_bits`, `Wave::at`, `Pair::sample`. Then each source alone, then all eight in the
//! board's order from one random sequence.
//!
//!     --steps N   phases of each waveform, samples of the pair, of each source alone, and of the eight together
//!                 (default 2000000)
//!     --seed S    seed of the cases (default 1)
//!
//! Links sources_c curves_c.

#[path = "../target/oracle/mod.rs"]
mod oracle;
#[allow(dead_code)]
#[path = "../examples/rytm.rs"]
mod rytm;

#[path = "sources/coverage.rs"]
mod coverage;
#[path = "sources/fields.rs"]
mod fields;
#[path = "sources/frames.rs"]
mod frames;
#[path = "sources/port.rs"]
mod port;
#[path = "sources/references.rs"]
mod references;
#[path = "sources/rng.rs"]
mod rng;
#[path = "sources/state.rs"]
mod state;
#[path = "sources/states.rs"]
mod states;

use coverage::Coverage;
use frames::{Frames, Style, STYLES};
use oracle::analog as rust;
use port::Model;
use rng::Rng;
use rytm::Wobble;
use state::{Source, State, SOURCES};

/// One source on both sides.
struct Twin {
    /// Its place in the board's order.
    index: usize,
    port: State,
    model: Model,
}

/// The random sequence on both sides.
struct Draws {
    port: Wobble,
    model: rust::Wobble,
}

impl Draws {
    fn new(w: Wobble) -> Draws {
        Draws { port: w, model: rust::Wobble { s: w.s, depth: w.depth } }
    }

    fn of_model(&self) -> Wobble {
        Wobble { s: self.model.s, depth: self.model.depth }
    }
}

/// Where in the run a sample stands.
struct Place<'a> {
    run: &'a str,
    episode: u64,
    style: &'static str,
    at: u64,
}

struct Report {
    compared: u64,
    differ: u64,
    /// Differences of each source, in the board's order.
    of: [u64; 8],
    cover: Coverage,
}

impl Report {
    /// One sample of one source by both; the port goes on from the Rust's state where they differ. The Rust's sample.
    fn sample(&mut self, twin: &mut Twin, draws: &mut Draws, frames: &Frames, place: &Place) -> f32 {
        let (f, dac) = (&frames.frame, &frames.dac);
        let (before, w) = (twin.model.state(), draws.of_model());
        let (state, next, y) = twin.port.sample(f, dac, draws.port);
        let rust_y = twin.model.sample(f, dac, &mut draws.model);
        let rust_state = twin.model.state();
        let (ours, theirs) = (port::row(&state, &next, y), port::row(&rust_state, &draws.of_model(), rust_y));
        self.cover.note(&before, &rust_state, f, dac, w.depth);
        self.compared += 1;
        (twin.port, draws.port) = (state, next);
        if ours == theirs {
            return rust_y;
        }
        if self.of[twin.index] == 0 {
            let (source, name) = SOURCES[twin.index];
            println!("{name} ({}) differs at sample {}: episode {}, {}", place.run, place.at, place.episode, place.style);
            let names = port::names(&state, &w);
            for (_, field) in ours.against(&theirs, &names) {
                println!("  {field}");
            }
            println!("  before: {}", port::row(&before, &w, 0.0).all(&names, 1));
            for part in fields::concerned(source) {
                let bytes: Vec<String> = f[part.clone()].iter().map(|b| format!("{b:02x}")).collect();
                println!("  frame {}..{}: {}", part.start, part.end, bytes.join(" "));
            }
            if let Source::Tom(i) = source {
                println!("  DAC word {}: {}", 8 + i, dac[8 + i]);
            }
        }
        self.of[twin.index] += 1;
        self.differ += 1;
        twin.port = rust_state;
        draws.port = draws.of_model();
        rust_y
    }
}

fn fresh(index: usize) -> Twin {
    let source = SOURCES[index].0;
    Twin { index, port: State::fresh(source), model: Model::fresh(source) }
}

/// Puts both sides of every source and of the random sequence into the same random state.
fn scatter(rng: &mut Rng, twins: &mut [Twin], frames: &Frames) -> Draws {
    for t in twins.iter_mut() {
        t.port = states::random(rng, SOURCES[t.index].0, &frames.frame);
        t.model = Model::of(&t.port);
    }
    Draws::new(states::wobble(rng, true))
}

/// Runs these sources together for so many samples, in episodes of every style.
fn run(report: &mut Report, run: &str, indexes: std::ops::Range<usize>, steps: u64, rng: &mut Rng) {
    let mut place = Place { run, episode: 0, style: "", at: 0 };
    while place.at < steps {
        let (style, name) = STYLES[(place.episode % 5) as usize];
        place.style = name;
        let mut twins: Vec<Twin> = indexes.clone().map(fresh).collect();
        let sources: Vec<Source> = indexes.clone().map(|i| SOURCES[i].0).collect();
        let long = style == Style::Firmware && (place.episode == 5 || rng.one_in(6));
        let tempo = if long { 6000 } else { rng.pick(&[4, 40, 200, 1000]) };
        let length = if long { 200_000 } else { 2000 + rng.below(18_000) };
        let mut frames = Frames::new(rng, style, &sources, tempo);
        let mut draws = Draws::new(states::wobble(rng, false));
        if style != Style::Firmware && rng.one_in(3) {
            draws = scatter(rng, &mut twins, &frames);
        }
        for _ in 0..(length as u64).min(steps - place.at) {
            if frames.due(rng) {
                frames.write(rng);
            }
            if style == Style::States && rng.one_in(8) {
                draws = scatter(rng, &mut twins, &frames);
            }
            for twin in twins.iter_mut() {
                let y = report.sample(twin, &mut draws, &frames, &place);
                if !y.is_finite() && rng.one_in(64) {
                    // Most such states stay so for ever.
                    *twin = fresh(twin.index);
                }
            }
            place.at += 1;
        }
        place.episode += 1;
    }
}

/// The options: steps and seed.
fn options() -> (u64, u64) {
    let words: Vec<String> = std::env::args().skip(1).collect();
    let (mut steps, mut seed) = (2_000_000, 1);
    for pair in words.chunks(2) {
        match (pair[0].as_str(), pair.get(1).and_then(|w| w.parse().ok())) {
            ("--steps", Some(n)) => steps = n,
            ("--seed", Some(n)) => seed = n,
            _ => {
                eprintln!("options: --steps N --seed S");
                std::process::exit(2);
            }
        }
    }
    (steps, seed)
}

fn main() {
    let (steps, seed) = options();
    println!("{}", oracle::ABOUT);
    let references = references::compare(seed, steps);
    let mut rng = Rng::new(seed);
    let mut report = Report { compared: 0, differ: 0, of: [0; 8], cover: Coverage::new() };
    let w = Wobble { s: 1, depth: 1.0 };
    for (index, (_, name)) in SOURCES.into_iter().enumerate() {
        let twin = fresh(index);
        let (ours, theirs) = (port::row(&twin.port, &w, 0.0), port::row(&twin.model.state(), &w, 0.0));
        if ours != theirs {
            let fields: Vec<String> = ours.against(&theirs, &port::names(&twin.port, &w)).into_iter().map(|(_, text)| text).collect();
            println!("{name}: fresh states differ: {}", fields.join("; "));
            report.differ += 1;
        }
    }
    for (index, (_, name)) in SOURCES.into_iter().enumerate() {
        run(&mut report, "alone", index..index + 1, steps, &mut rng);
        println!("{name:12}{steps:>12} samples, {} differences", report.of[index]);
    }
    let alone = report.of;
    report.of = [0; 8];
    run(&mut report, "board's order", 0..8, steps, &mut rng);
    println!("{:12}{:>12} samples, {} differences", "all in order", 8 * steps, report.of.iter().sum::<u64>());
    report.cover.print();
    let open: Vec<&str> = (0..8).filter(|&i| alone[i] + report.of[i] > 0).map(|i| SOURCES[i].1).collect();
    if !open.is_empty() {
        println!("differing: {}", open.join(", "));
    }
    println!("compared {} samples: {} differences", report.compared, report.differ);
    std::process::exit((references + report.differ != 0) as i32);
}
