//! What the steps met, read off their inputs and off the Rust's boards before and after.

use crate::case::{Case, HIGH, LOW};
use crate::coverage::Coverage;
use crate::oracle::analog as rust;
use crate::rytm::{Analog, Answer, Chain, SegEnv};
use crate::state::State;
use crate::strips::AMP_ENV_R;
use crate::without::Cases;

macro_rules! counts {
    ($kind:ident $names:ident: $($id:ident $name:literal,)*) => {
        #[derive(Clone, Copy)]
        pub enum $kind { $($id,)* }
        const $names: &[&str] = &[$($name,)*];
    };
}

counts! { Hold HOLDS:
    Rate3 "mode 3, rate 0",
    At3 "mode 3, at the target",
    Near3 "mode 3, nearer than 0.001 and short of it",
    Release3 "mode 3 releases",
    Rate0 "mode 0, rate 0",
    Keep0 "mode 0 keeps a hold",
    Run0 "mode 0 keeps running",
    Ramp "9, B, F release",
    KeepOther "other modes keep a hold",
    RunOther "other modes keep running",
}

counts! { Count NAMES:
    Fresh0 "fresh boards: seed 0",
    Fresh1 "fresh boards: seed 1",
    FreshDefault "fresh boards: default seed",
    FreshOther "fresh boards: other seeds",
    FreshIdeal "fresh boards: ideal",
    Random "random boards",
    FrameBelow "frame under 560 bytes",
    FrameFrom560 "frame of 560 to 662",
    Frame663 "frame of 663",
    Frame664 "frame of 664",
    FrameMore "frame of more",
    FxBelow "FX under 20 bytes",
    Fx20 "FX of 20",
    Fx21 "FX of 21",
    Fx22 "FX of 22",
    Fx23 "FX of 23",
    Fx24 "FX of 24",
    FxMore "FX of more",
    Dac15 "DAC of 15 words",
    Dac17 "DAC of 17 words",
    DacOther "DAC of other counts but 16",
    DacLow "DAC word at the lower limit, accepted",
    DacHigh "DAC word at the upper limit, accepted",
    DacBelow "DAC word one below, nothing else wrong",
    DacAbove "DAC word one above, nothing else wrong",
    InOne "input at 1 or -1, accepted",
    InPast "input just past 1, nothing else wrong",
    InNan "input not a number, nothing else wrong",
    InInfinite "input infinite, nothing else wrong",
    Several "more than one fault",
    LeftStart "chain: left amp restarts",
    LeftAgain "chain: left amp command seen again, no restart",
    RightStart "chain: right amp restarts",
    RightAgain "chain: right amp command seen again, no restart",
    LeftAlone "chain: left amp restarts, right does not",
    RightAlone "chain: right amp restarts, left has no command",
    RightLate "chain: right amp restarts, left had its command",
    Same "chain: amp records the same",
    Different "chain: amp records different",
    Modes "chain: amp records of different modes",
    LeftHeld "chain: left amp held, right falls",
    RightHeld "chain: right amp held, left falls",
    BothSound "chain: both amp levels above 0",
    LeftSounds "chain: left amp level above 0, right not",
    RightSounds "chain: right amp level above 0, left not",
    Mute "chain: both amp levels at or below 0",
    Apart "steps with a chain whose sides are apart",
    Plain "steps in which an oscillator 1 sounds without FM or ring",
    FltStart "chain: filter restarts",
    FltChange "chain: filter record changes, no restart",
    Driven "chain: overdriven",
    Cleared "chain: integrators cleared (at least)",
    ClearedNan "chain: cleared, one-pole left not finite",
    NanPole "chain: one-pole not finite",
    Undistorted "distortion word 0",
    Distorted "distorted",
    Clip "receive word at a limit",
    MixNan "mix not a number",
    MixInfinite "mix infinite",
    Below "compressor: below the knee",
    Knee "compressor: in the knee",
    Above "compressor: above the knee",
    Attack "compressor: attacks",
    Release "compressor: releases",
    MupLow "compressor: MUP to 48",
    MupHigh "compressor: MUP above 48",
    MixMore "compressor: MIX above 127",
}

/// Values of a parameter that act alike.
const GROUPS: [(&str, usize, &[(&str, u8, u8)]); 5] = [
    ("attack", 8, &[("0", 0, 0), ("1", 1, 1), ("2", 2, 2), ("3", 3, 3), ("4", 4, 4), ("5", 5, 5), ("6", 6, 6), ("more", 7, 255)]),
    ("release", 10, &[("0", 0, 0), ("1", 1, 1), ("2", 2, 2), ("3", 3, 3), ("4", 4, 4), ("5", 5, 5), ("6", 6, 6), ("7", 7, 7), ("more", 8, 255)]),
    ("ratio", 12, &[("0", 0, 0), ("1", 1, 1), ("2", 2, 2), ("3", 3, 3), ("more", 4, 255)]),
    ("SEQ", 14, &[("0", 0, 0), ("1", 1, 1), ("2", 2, 2), ("3", 3, 3), ("more", 4, 255)]),
    (
        "VOL",
        20,
        &[
            ("0 to 39", 0, 39),
            ("to 51", 40, 51),
            ("to 63", 52, 63),
            ("to 75", 64, 75),
            ("to 87", 76, 87),
            ("to 99", 88, 99),
            ("to 111", 100, 111),
            ("to 123", 112, 123),
            ("to 127", 124, 127),
            ("128 to 255", 128, 255),
        ],
    ),
];

/// The envelopes of a chain.
const ENVELOPES: [&str; 3] = ["left amp", "right amp", "filter"];

const FILTERS: [&str; 8] = ["0 LP2", "1 BP", "2 HP1", "3 PK", "4 HP2", "5 BS", "6 LP1", "7 LP2"];

pub struct Met {
    count: [u64; NAMES.len()],
    /// By number, those of a step.
    answers: [u64; 6],
    sources: Coverage,
    /// By envelope.
    holds: [[u64; HOLDS.len()]; 3],
    filter: [[u64; 8]; 8],
    routed_off: [u64; 8],
    groups: [[u64; 10]; 5],
}

impl Met {
    pub fn new() -> Met {
        let (holds, filter) = ([[0; HOLDS.len()]; 3], [[0; 8]; 8]);
        Met { count: [0; NAMES.len()], answers: [0; 6], sources: Coverage::new(), holds, filter, routed_off: [0; 8], groups: [[0; 10]; 5] }
    }

    pub fn add(&mut self, c: Count, met: bool) {
        self.count[c as usize] += met as u64;
    }

    pub fn fresh(&mut self, seed: u32, ideal: bool) {
        use Count::*;
        let kind = match seed {
            0 => Fresh0,
            1 => Fresh1,
            crate::rytm::DEFAULT_SEED => FreshDefault,
            _ => FreshOther,
        };
        self.add(kind, true);
        self.add(FreshIdeal, ideal);
    }

    /// How many FM phases had a remainder that rounds to 1.
    pub fn fm_ones(&self) -> u64 {
        self.sources.fm_ones()
    }

    /// How many steps had a chain whose sides are apart.
    pub fn apart(&self) -> u64 {
        self.count[Count::Apart as usize]
    }

    /// How many steps had a plain path that sounded.
    pub fn plain(&self) -> u64 {
        self.count[Count::Plain as usize]
    }

    /// One step: the board before it, what it was given, the Rust's answer, and what it met of the requests' cases.
    pub fn note(&mut self, before: &Analog, case: &Case, answer: &Answer, cases: Cases) {
        if let Some(n) = self.answers.get_mut(answer.number as usize) {
            *n += 1;
        }
        self.given(case, answer.number);
        self.add(Count::Apart, cases.apart);
        self.add(Count::Plain, cases.plain != 0);
        if answer.number != 0 {
            return;
        }
        self.sources(before, case, &answer.board);
        for v in 0..8 {
            self.chain(v, &before.chains[v], case.frame, &answer.board.chains[v]);
        }
        self.mix(before, case, answer);
    }

    fn given(&mut self, case: &Case, number: u32) {
        use Count::*;
        let frame = match case.frame.len() {
            0..=559 => FrameBelow,
            560..=662 => FrameFrom560,
            663 => Frame663,
            664 => Frame664,
            _ => FrameMore,
        };
        self.add(frame, true);
        let fx = [FxBelow, Fx20, Fx21, Fx22, Fx23, Fx24, FxMore];
        self.add(fx[case.fx.len().clamp(19, 25) - 19], true);
        match case.dac.len() {
            16 => {}
            15 => self.add(Dac15, true),
            17 => self.add(Dac17, true),
            _ => self.add(DacOther, true),
        }
        self.add(DacLow, number == 0 && case.dac.contains(&LOW));
        self.add(DacHigh, number == 0 && case.dac.contains(&HIGH));
        let faults = case.faults().iter().filter(|&&f| f).count();
        self.add(Several, faults > 1);
        self.add(DacBelow, faults == 1 && number == 4 && case.dac.contains(&(LOW - 1)));
        self.add(DacAbove, faults == 1 && number == 4 && case.dac.contains(&(HIGH + 1)));
        let input = |test: fn(&f32) -> bool| case.inputs().iter().any(test);
        self.add(InOne, number == 0 && input(|x| x.abs() == 1.0));
        self.add(InPast, faults == 1 && number == 5 && input(|x| x.abs() == 1.0000001));
        self.add(InNan, faults == 1 && number == 5 && input(|x| x.is_nan()));
        self.add(InInfinite, faults == 1 && number == 5 && input(|x| x.is_infinite()));
    }

    fn sources(&mut self, b: &Analog, case: &Case, a: &Analog) {
        let dac: &[i32; 16] = case.dac.try_into().unwrap();
        let depth = b.wobble.depth;
        for i in 0..3 {
            self.sources.note(&State::Dual(i, b.duals[i]), &State::Dual(i, a.duals[i]), case.frame, dac, depth);
            self.sources.note(&State::Tom(i, b.toms[i]), &State::Tom(i, a.toms[i]), case.frame, dac, depth);
        }
        self.sources.note(&State::Cym(b.cym), &State::Cym(a.cym), case.frame, dac, depth);
        self.sources.note(&State::Hat(b.hat), &State::Hat(a.hat), case.frame, dac, depth);
    }

    fn chain(&mut self, v: usize, b: &Chain, f: &[u8], a: &Chain) {
        use Count::*;
        let (byte, low) = rust::FLT_TYPE_AT[v];
        self.filter[v][(f[byte] >> low & 7) as usize] += 1;
        self.routed_off[v] += (f[rust::ROUTE] >> rust::ROUTE_BIT[v] & 1) as u64;
        let ovr = rust::word(f, rust::OVR + 2 * v) as f32 / 65536.0;
        self.add(Driven, 1.0 + 8.0 * ovr * ovr > 1.01);
        let record = |records: usize| &f[records + 8 * v..][..8];
        let (amp, amp_r, flt) = (record(rust::AMP_ENV), record(AMP_ENV_R), record(rust::FLT_ENV));
        let (left, right) = (amp[0] | amp[1] != 0, amp_r[0] | amp_r[1] != 0);
        let (left_starts, right_starts) = (left && !b.amp.cmd, right && !b.amp_r.cmd);
        self.add(LeftStart, left_starts);
        self.add(LeftAgain, left && b.amp.cmd);
        self.add(RightStart, right_starts);
        self.add(RightAgain, right && b.amp_r.cmd);
        self.add(LeftAlone, left_starts && !right_starts);
        self.add(RightAlone, right_starts && !left);
        self.add(RightLate, right_starts && left && b.amp.cmd);
        self.add(Same, amp == amp_r);
        self.add(Different, amp != amp_r);
        self.add(Modes, amp[4] >> 4 != amp_r[4] >> 4);
        self.add(LeftHeld, a.amp.hold && a.amp_r.level < b.amp_r.level && !right_starts);
        self.add(RightHeld, a.amp_r.hold && a.amp.level < b.amp.level && !left_starts);
        let sounds = match (a.amp.level > 0.0, a.amp_r.level > 0.0) {
            (true, true) => BothSound,
            (true, _) => LeftSounds,
            (_, true) => RightSounds,
            _ => Mute,
        };
        self.add(sounds, true);
        let rate = u32::from_be_bytes(flt[4..].try_into().unwrap()) & 0xf_ffff;
        let changed = (flt[2], flt[3], rate) != (b.flt.key.start, b.flt.key.target, b.flt.key.rate);
        let starts = changed && matches!(flt[4] >> 4, 9 | 0xF);
        self.add(FltStart, starts);
        self.add(FltChange, changed && !starts);
        self.hold(0, &b.amp, amp, left_starts);
        self.hold(1, &b.amp_r, amp_r, right_starts);
        self.hold(2, &b.flt, flt, starts);
        // Both integrators at zero from a state that no filter brings there.
        let from = !b.low.is_finite() || !b.band.is_finite() || b.low.abs() > 0.001 || b.lp1.is_finite() && !a.lp1.is_finite();
        let cleared = a.low == 0.0 && a.band == 0.0 && from;
        self.add(Cleared, cleared);
        self.add(ClearedNan, cleared && !a.lp1.is_finite());
        self.add(NanPole, !a.lp1.is_finite());
    }

    /// Which hold rule an envelope met.
    fn hold(&mut self, envelope: usize, e: &SegEnv, r: &[u8], starts: bool) {
        use Hold::*;
        let record = rust::Record::parse(r);
        let still = u32::from_be_bytes(r[4..].try_into().unwrap()) & 0xf_ffff == 0;
        let level = if starts { record.start } else { e.level };
        let away = (record.target - level).abs();
        let rule = match (r[4] >> 4, still, e.hold) {
            (3, true, _) => Rate3,
            (3, ..) if away == 0.0 => At3,
            (3, ..) if away < 1e-3 => Near3,
            (3, ..) => Release3,
            (0, true, _) => Rate0,
            (0, _, true) => Keep0,
            (0, ..) => Run0,
            (9 | 0xB | 0xF, ..) => Ramp,
            (_, _, true) => KeepOther,
            _ => RunOther,
        };
        self.holds[envelope][rule as usize] += 1;
    }

    fn mix(&mut self, before: &Analog, case: &Case, answer: &Answer) {
        use Count::*;
        let distorted = rust::word(case.frame, rust::DIST) != 0;
        self.add(Distorted, distorted);
        self.add(Undistorted, !distorted);
        self.add(Clip, answer.rx.iter().any(|w| w.abs() == HIGH));
        self.add(MixNan, answer.mix.l.is_nan() || answer.mix.r.is_nan());
        self.add(MixInfinite, answer.mix.l.is_infinite() || answer.mix.r.is_infinite());
        let p = case.fx;
        for (g, (_, at, kinds)) in GROUPS.iter().enumerate() {
            let kind = kinds.iter().position(|(_, lo, hi)| (*lo..=*hi).contains(&p[*at])).unwrap();
            self.groups[g][kind] += 1;
        }
        let env = answer.board.comp.env;
        let over = 20.0 * env.max(1e-6).log10() + 0.9 * (105.0 - p[6] as f32);
        let part = if over <= -10.0 {
            Below
        } else if over >= 10.0 {
            Above
        } else {
            Knee
        };
        self.add(part, true);
        self.add(Attack, env > before.comp.env);
        self.add(Release, env < before.comp.env);
        self.add(if p[16] <= 48 { MupLow } else { MupHigh }, true);
        self.add(MixMore, p[18] > 127);
    }

    pub fn print(&self) {
        let names = ["done", "short frame", "short parameters", "DAC count", "DAC range", "input range"];
        for (n, (name, c)) in names.iter().zip(&self.answers).enumerate() {
            println!("{:50}{c:>12}", format!("answer {n}, {name}"));
        }
        println!("{:50}{}", "hold by envelope", ENVELOPES.map(|name| format!("{name:>12}")).concat());
        for (rule, name) in HOLDS.iter().enumerate() {
            println!("{name:50}{}", self.holds.map(|n| format!("{:>12}", n[rule])).concat());
        }
        println!("{:26}{}", "filter code by voice", (0..8).map(|v| format!("{v:>12}")).collect::<String>());
        for (code, name) in FILTERS.iter().enumerate() {
            println!("{name:26}{}", (0..8).map(|v| format!("{:>12}", self.filter[v][code])).collect::<String>());
        }
        println!("{:26}{}", "routed off", self.routed_off.iter().map(|n| format!("{n:>12}")).collect::<String>());
        for ((name, _, kinds), counts) in GROUPS.iter().zip(&self.groups) {
            let each: Vec<String> = kinds.iter().zip(counts).map(|((kind, ..), n)| format!("{kind}: {n}")).collect();
            println!("{name:12}{}", each.join(", "));
        }
        for (name, n) in NAMES.iter().zip(&self.count) {
            println!("{name:50}{n:>12}");
        }
        let mut never: Vec<String> = NAMES.iter().zip(&self.count).filter(|(_, n)| **n == 0).map(|(name, _)| name.to_string()).collect();
        never.extend((0..6).filter(|&n| self.answers[n] == 0).map(|n| format!("answer {n}")));
        for (name, n) in ENVELOPES.iter().zip(&self.holds) {
            never.extend(HOLDS.iter().zip(n).filter(|(_, n)| **n == 0).map(|(rule, _)| format!("{name}, {rule}")));
        }
        never.extend((0..8).filter(|&v| self.filter[v].contains(&0)).map(|v| format!("a filter code of voice {v}")));
        never.extend((0..8).filter(|&v| self.routed_off[v] == 0).map(|v| format!("voice {v} routed off")));
        for ((name, _, kinds), counts) in GROUPS.iter().zip(&self.groups) {
            never.extend(kinds.iter().zip(counts).filter(|(_, n)| **n == 0).map(|((kind, ..), _)| format!("{name} {kind}")));
        }
        if !never.is_empty() {
            println!("never met: {}", never.join("; "));
        }
        println!("sources:");
        self.sources.print();
    }
}
