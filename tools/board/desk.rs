//! Generated steps: frame, DAC words, FX parameters and inputs, and what makes a step refused.

use crate::case::{Case, HIGH, LOW};
use crate::frames::{Frames, Style};
use crate::rng::Rng;
use crate::state::{Source, SOURCES};
use crate::strips::{compressor, master, sort_noise, Strip};

pub struct Desk {
    pub frames: Frames,
    strips: Vec<Strip>,
    style: Style,
    /// One step in so many is spoilt.
    spoil: Option<u32>,
    wide_fx: bool,
    /// How loud the DAC's layers and returns and the inputs are: shift of a 24-bit word.
    quiet: u32,
    silent: bool,
    frame_len: usize,
    fx: [u8; 40],
    fx_len: usize,
    fx_usual: usize,
    pub dac: [i32; 20],
    dac_len: usize,
    inputs: [f32; 4],
}

const SHORT_FRAMES: [usize; 12] = [0, 1, 100, 559, 560, 561, 600, 640, 662, 663, 663, 663];
const SHORT_FX: [usize; 9] = [0, 1, 7, 19, 20, 21, 22, 23, 23];
const DAC_COUNTS: [usize; 6] = [0, 1, 15, 15, 17, 20];
const DAC_PAST: [i32; 6] = [LOW - 1, HIGH + 1, HIGH + 1, i32::MIN, i32::MAX, 16_777_216];

fn input_past(rng: &mut Rng) -> f32 {
    let above = f32::from_bits(0x3f80_0001);
    let any = f32::from_bits(rng.word());
    let past = if (-1.0..=1.0).contains(&any) { 2.0 } else { any };
    rng.pick(&[above, -above, 2.0, -1.5, f32::NAN, -f32::NAN, f32::INFINITY, f32::NEG_INFINITY, f32::MAX, past])
}

impl Desk {
    pub fn new(rng: &mut Rng, style: Style, tempo: u32) -> Desk {
        let sources: Vec<Source> = SOURCES.map(|(s, _)| s).to_vec();
        let mut frames = Frames::new(rng, style, &sources, tempo);
        if rng.one_in(2) {
            // Quiet where nothing is written.
            frames.clean[..360].fill(0);
        }
        let mut fx = [0; 40];
        for i in 0..8 {
            fx[6 + 2 * i] = [100, 3, 3, 2, 0, 47, 64, 100][i];
        }
        let wide_fx = rng.one_in(2);
        if wide_fx {
            fx.iter_mut().for_each(|b| *b = rng.word() as u8);
            (0..8).for_each(|_| compressor(rng, &mut fx, true));
        }
        // In half of the patterns the strips write the right amp records as copies. What they write in the others is drawn apart: nothing else depends on it.
        let mut apart = Rng::new(rng.clone().next());
        let pans = apart.one_in(2);
        Desk {
            frames,
            strips: (0..8).map(|v| Strip::new(rng, v, tempo, pans.then(|| Rng::new(apart.next())))).collect(),
            style,
            spoil: rng.pick(&[None, Some(3), Some(12), Some(60), Some(60)]),
            wide_fx,
            quiet: rng.pick(&[0, 0, 2, 6]),
            silent: rng.one_in(3),
            frame_len: 0,
            fx,
            fx_len: 24,
            fx_usual: rng.pick(&[24, 24, 25, 40]),
            dac: [0; 20],
            dac_len: 16,
            inputs: [0.0; 4],
        }
    }

    pub fn case(&self) -> Case<'_> {
        let [al, ar, el, er] = self.inputs;
        let (frame, dac, fx) = (&self.frames.frame[..self.frame_len], &self.dac[..self.dac_len], &self.fx[..self.fx_len]);
        Case { frame, dac, fx, audio: [al, ar], ext: [el, er] }
    }

    pub fn step(&mut self, rng: &mut Rng) {
        if self.frames.due(rng) {
            self.block(rng);
        }
        for i in (0..8).chain(11..20) {
            self.dac[i] = if self.silent && rng.below(64) > 0 { 0 } else { self.dac_word(rng) };
        }
        for i in 0..3 {
            self.dac[8 + i] = self.frames.dac[8 + i] << 8 >> 8;
        }
        for i in 0..4 {
            self.inputs[i] = if self.silent && rng.below(64) > 0 { 0.0 } else { self.input(rng) };
        }
        (self.frame_len, self.fx_len, self.dac_len) = (self.frames.frame.len(), self.fx_usual, 16);
        if self.spoil.is_some_and(|n| rng.one_in(n)) {
            // Most often one fault alone, so that each is decided by itself too.
            for _ in 0..rng.pick(&[1, 1, 1, 2, 3]) {
                self.spoil(rng);
            }
        }
    }

    fn dac_word(&self, rng: &mut Rng) -> i32 {
        let any = rng.word() as i32 >> 8 >> self.quiet;
        if rng.one_in(32) {
            rng.pick(&[LOW, HIGH, 0, 1, -1, LOW + 1])
        } else {
            any
        }
    }

    fn input(&self, rng: &mut Rng) -> f32 {
        if rng.one_in(16) {
            return rng.pick(&[1.0, -1.0, 0.0, -0.0, 0.99999994, -0.99999994, 1e-40, 1e-30, 0.5]);
        }
        (2.0 * rng.unit() - 1.0) / (1 << self.quiet) as f32
    }

    fn block(&mut self, rng: &mut Rng) {
        for s in self.strips.iter_mut() {
            s.block(rng, &mut self.frames.clean);
        }
        master(rng, &mut self.frames.clean);
        let turns = match self.style {
            Style::Firmware => rng.one_in(20) as u32,
            _ => rng.below(3),
        };
        for _ in 0..turns {
            compressor(rng, &mut self.fx, self.wide_fx);
        }
        self.frames.write(rng);
        let f = &mut self.frames.frame;
        match self.style {
            Style::Damaged if rng.one_in(2) => {
                for _ in 0..rng.below(12) {
                    let at = if rng.one_in(2) { rng.below(90) } else { 160 + rng.below(200) };
                    f[at as usize] ^= 1 << rng.below(8);
                }
            }
            Style::Noise | Style::States if *f != self.frames.clean => sort_noise(rng, f),
            _ => {}
        }
    }

    /// Makes the step one that is refused, at the edge where that begins.
    fn spoil(&mut self, rng: &mut Rng) {
        match rng.below(5) {
            0 => self.frame_len = rng.pick(&SHORT_FRAMES),
            1 => self.fx_len = rng.pick(&SHORT_FX),
            2 => self.dac_len = rng.pick(&DAC_COUNTS),
            3 => self.dac[rng.below(16) as usize] = rng.pick(&DAC_PAST),
            _ => self.inputs[rng.below(4) as usize] = input_past(rng),
        }
    }
}
