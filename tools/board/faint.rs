//! Voices that all but fall silent: the source off, the amp just above 0, a small VCA word, and a filter that rings out until its numbers are the
//! smallest there are.

use crate::case::{HIGH, LOW};
use crate::desk::Desk;
use crate::frames::put;
use crate::oracle::analog as rust;
use crate::rng::Rng;
use crate::rytm::Analog;
use crate::state::DUALS;
use crate::strips::AMP_ENV_R;

/// What a voice is set to while it fades.
struct Setting {
    /// By side.
    amp: [[u8; 8]; 2],
    vca: [u32; 2],
    overdrive: u32,
    frequency: u32,
    resonance: u32,
    /// The layer's word in the first step.
    kick: i32,
}

impl Setting {
    fn new(rng: &mut Rng) -> Setting {
        // Levels of 1 and more, 0, or one that creeps from 0 to 1.
        let amps = [1, 1, 2, 40, 127, 0].map(|level| [0x40, 0, level, level, 0xB0, 0, 0, 0]);
        let creeps = [0x40, 0, 0, 1, 0xB0, 15, 0xFF, 0xFF];
        let mut amp = || if rng.one_in(3) { creeps } else { rng.pick(&amps) };
        let amp = [amp(), amp()];
        let mut vca = || rng.pick(&[1, 1, 1, 2, 50, 32767, 0]);
        let vca = [vca(), vca()];
        Setting {
            amp,
            vca,
            overdrive: rng.pick(&[0, 0, 0x8000]),
            frequency: 16_000 + rng.below(16_768),
            resonance: rng.pick(&[0, 0, 0x2000, 0x5000]),
            kick: rng.pick(&[1, -1, 1000, -100_000, HIGH]),
        }
    }

    fn write(&self, f: &mut [u8], v: usize) {
        match v {
            1 => put(f, rust::TOMS[0].tune, 65535),
            3 => put(f, rust::TOMS[1].tune, 65535),
            5 => put(f, rust::TOMS[2].tune, 65535),
            rust::HAT_VOICE => put(f, rust::HAT_VCA, 0),
            rust::CYM_VOICE => put(f, rust::CYM_VCA, 0),
            _ => DUALS.iter().filter(|d| d.voice == v).for_each(|d| f[d.cv + 4..d.cv + 8].fill(0)),
        }
        put(f, rust::OVR + 2 * v, self.overdrive);
        put(f, rust::FRQ + 2 * v, self.frequency);
        put(f, rust::RES + 2 * v, self.resonance);
        put(f, rust::FLT_ENV + 8 * v, 0);
        for (side, (records, words)) in [(rust::AMP_ENV, rust::VCA_L), (AMP_ENV_R, rust::VCA_R)].into_iter().enumerate() {
            f[records + 8 * v..][..8].copy_from_slice(&self.amp[side]);
            put(f, words + 2 * v, self.vca[side]);
        }
        f[rust::ROUTE] &= !(1 << rust::ROUTE_BIT[v]);
    }
}

pub struct Faint {
    rng: Rng,
    /// The toms' exciters rest.
    still: bool,
    /// Steps until others fade.
    left: u32,
    voices: [Option<Setting>; 8],
}

impl Faint {
    pub fn new(mut rng: Rng) -> Faint {
        Faint { still: rng.one_in(2), rng, left: 0, voices: [const { None }; 8] }
    }

    /// Sets the fading voices of the desk's step.
    pub fn step(&mut self, desk: &mut Desk) {
        let begins = self.left == 0;
        if begins {
            self.left = 100 + self.rng.below(700);
            self.voices = std::array::from_fn(|_| (!self.rng.one_in(4)).then(|| Setting::new(&mut self.rng)));
        }
        self.left -= 1;
        let mut rests = |i: usize, word: i32| {
            if (LOW..=HIGH).contains(&desk.dac[i]) {
                desk.dac[i] = word;
            }
        };
        for (v, setting) in self.voices.iter().enumerate() {
            if let Some(setting) = setting {
                setting.write(&mut desk.frames.frame, v);
                rests(v, if begins { setting.kick } else { 0 });
            }
        }
        if self.still {
            (8..11).for_each(|i| rests(i, 0));
        }
    }

    /// Of a random board the fading voices' filters, and the sources that ring.
    pub fn board(&mut self, board: &mut Analog) {
        let rng = &mut self.rng;
        let mut tiny = || f32::from_bits((rng.word() & 1) << 31 | rng.word() >> (8 + rng.below(24)));
        for (v, _) in self.voices.iter().enumerate().filter(|(_, setting)| setting.is_some()) {
            let c = &mut board.chains[v];
            (c.low, c.band, c.lp1) = (tiny(), tiny(), tiny());
            match v {
                1 | 3 | 5 => (board.toms[v / 2].y1, board.toms[v / 2].y2) = (tiny(), tiny()),
                rust::HAT_VOICE => (board.hat.hp.low, board.hat.hp.band) = (tiny(), tiny()),
                rust::CYM_VOICE => board.cym.svf.iter_mut().for_each(|s| (s.low, s.band) = (tiny(), tiny())),
                _ => {}
            }
        }
    }
}
