//! What the port may differ in from an oracle without a request (tools/oracle), and how often it did: of R-3 the FM phases, of R-5 the mix where a chain's
//! sides are apart, of R-7 the voices whose plain path sounds, and the mix. A plain path is an oscillator 1 without FM or ring.

use crate::frames::switch;
use crate::met::Met;
use crate::oracle::{analog::bit, plain_voices, sides_apart, R3, R5, R7};
use crate::rytm::Answer;
use crate::state::DUALS;
use std::borrow::Cow;

/// What a step met.
#[derive(Clone, Copy, Default)]
pub struct Cases {
    /// A chain's sides are apart.
    pub apart: bool,
    /// The voices whose plain path sounds, a bit each.
    pub plain: u8,
}

impl Cases {
    /// Of the Rust's last step.
    pub fn take() -> Cases {
        Cases { apart: sides_apart() > 0, plain: plain_voices() }
    }
}

/// The frame of which the port answers as the Rust does of this one: without R-7 the wave switch is turned of each dual voice that has neither FM nor ring on.
pub fn turned(frame: &[u8]) -> Cow<'_, [u8]> {
    let mut f = Cow::Borrowed(frame);
    for s in DUALS.iter().filter(|_| !R7 && frame.len() >= 664) {
        if !bit(frame, s.sw[4]) && bit(frame, s.sw[5]) {
            switch(f.to_mut(), s.sw[1], !bit(frame, s.sw[1]));
        }
    }
    f
}

/// How a step differs.
pub struct Found {
    phases: u64,
    mixed: bool,
    plain: bool,
    /// In what no request left out changes.
    pub other: bool,
}

impl Found {
    /// Of the fields, by name, that differ.
    pub fn new(fields: &[&str], port: &Answer, rust: &Answer, cases: Cases) -> Found {
        let phases = phases(port, rust);
        let (mix, plain) = (mix(fields, cases), plain(cases));
        let of_mix = |name: &str| mix.contains(&name);
        let of_plain = |name: &str| plain.iter().any(|p| p == name);
        let known = fields.iter().filter(|f| of_mix(f) || of_plain(f)).count() as u64;
        let any = |of: &dyn Fn(&str) -> bool| fields.iter().any(|f| of(f));
        Found { phases, mixed: any(&of_mix), plain: any(&of_plain), other: fields.len() as u64 > phases + known }
    }
}

/// FM phases that differ as R-3 has it: 1 in the Rust, 0 in the port.
fn phases(port: &Answer, rust: &Answer) -> u64 {
    let pairs = port.board.duals.iter().zip(&rust.board.duals);
    pairs.filter(|(p, r)| !R3 && p.ph1.to_bits() == 0 && r.ph1 == 1.0).count() as u64
}

/// The fields that may differ as R-5 has it: the right mix, the compressor, which hears it, and where the compressor's level differs the left mix.
fn mix(fields: &[&str], cases: Cases) -> Vec<&'static str> {
    if R5 || !cases.apart {
        return Vec::new();
    }
    let left: &[&str] = if fields.contains(&"comp.env") { &["rx[10]", "mix.l"] } else { &[] };
    [&["rx[11]", "mix.r", "comp.env", "comp.sc.lo", "comp.sc.hi"], left].concat()
}

/// The fields that may differ as R-7 has it: of each voice whose plain path sounds its word and its filter's state, and the mix and the compressor.
fn plain(cases: Cases) -> Vec<String> {
    if R7 || cases.plain == 0 {
        return Vec::new();
    }
    let voices = (0..8).filter(|v| cases.plain >> v & 1 != 0);
    let own = voices.flat_map(|v| [format!("rx[{v}]"), format!("chains[{v}].low"), format!("chains[{v}].band"), format!("chains[{v}].lp1")]);
    let mix = ["rx[10]", "rx[11]", "mix.l", "mix.r", "comp.env", "comp.sc.lo", "comp.sc.hi"];
    own.chain(mix.map(String::from)).collect()
}

/// The differences that are known, by request.
#[derive(Default)]
pub struct Without {
    /// Of R-3 the phases, of R-5 the steps, of R-7 the steps.
    phases: u64,
    mixes: u64,
    plain: u64,
    /// Steps with a plain path that the port answered as the Rust, of the turned frame.
    pub turned: u64,
}

impl Without {
    /// Whether one of them is the first of its kind.
    pub fn note(&mut self, found: &Found) -> bool {
        let first = found.phases > 0 && self.phases == 0 || found.mixed && self.mixes == 0 || found.plain && self.plain == 0;
        self.phases += found.phases;
        self.mixes += found.mixed as u64;
        self.plain += found.plain as u64;
        first
    }

    /// The end of the run: whether it did not differ as it has to.
    pub fn end(&self, met: &Met, generated: bool) -> bool {
        let (ones, apart, plain) = (met.fm_ones(), met.apart(), met.plain());
        if !R3 {
            println!("FM phases of 1 in the Rust and 0 in the port: {}, met in the Rust: {ones}", self.phases);
        }
        if !R5 {
            println!("steps whose mix differs: {}, of {apart} with a chain whose sides are apart", self.mixes);
        }
        if !R7 {
            let (differ, turned) = (self.plain, self.turned);
            println!("steps that differ by an oscillator 1 without FM or ring: {differ}, of {plain} in which one sounds, of which the port answers {turned} as the Rust with the wave switches turned");
        }
        let never = |steps: u64, differ: u64| generated && steps > 0 && differ == 0;
        !R3 && self.phases != ones || !R5 && never(apart, self.mixes) || !R7 && never(plain, self.plain)
    }
}
