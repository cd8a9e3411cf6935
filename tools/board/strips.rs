//! What the firmware writes for the eight chains, the mix and the compressor.

use crate::frames::{put, record};
use crate::oracle::analog as rust;
use crate::rng::Rng;

/// The right amp records; the left ones are at AMP_ENV.
pub const AMP_ENV_R: usize = rust::AMP_ENV + 64;

/// What a right amp record does during a note.
#[derive(Clone, Copy)]
enum Way {
    /// The left one's bytes.
    Copy,
    /// Levels, mode and rate of its own; it starts with the left one.
    Own,
    /// The left one's levels, mode and rate; it starts by itself.
    Alone,
    /// Zeros, sometimes after a start at 0.
    Silent,
}

/// A right amp record that is not always the left one's copy.
struct Pan {
    rng: Rng,
    way: Way,
}

/// One voice's chain: notes of attack, hold and decay.
pub struct Strip {
    voice: usize,
    /// Blocks from note to note, at most; those until the next and since the last.
    tempo: u32,
    wait: u32,
    since: u32,
    /// Blocks that the start command lasts, and those until the decay.
    command: u32,
    hold: u32,
    pan: Option<Pan>,
}

fn any_or(rng: &mut Rng, list: &[u32]) -> u32 {
    if rng.one_in(3) {
        rng.word()
    } else {
        rng.pick(list)
    }
}

pub fn set_filter(f: &mut [u8], v: usize, code: u8) {
    let (byte, low) = rust::FLT_TYPE_AT[v];
    f[byte] = f[byte] & !(7 << low) | code << low;
}

/// Exponents of a rate, slow where the notes are long.
fn rates(rng: &mut Rng, tempo: u32) -> (i32, i32) {
    if tempo > 2000 || rng.one_in(4) {
        (11, 15)
    } else {
        (5, 12)
    }
}

impl Pan {
    /// Writes the right record, `since` blocks after the note began.
    fn block(&mut self, f: &mut [u8], left: usize, right: usize, since: u32, tempo: u32) {
        let (rng, often) = (&mut self.rng, if tempo > 2000 { 400 } else { 8 });
        if since == 0 {
            self.way = rng.pick(&[Way::Copy, Way::Copy, Way::Copy, Way::Own, Way::Alone, Way::Silent]);
        }
        match self.way {
            Way::Copy => f.copy_within(left..left + 8, right),
            Way::Own => {
                if since == 0 || rng.one_in(often) {
                    let (start, target) = (rng.pick(&[0, 0, 20, 127]), rng.pick(&[127, 127, 64, 0, -128]));
                    let (mode, exps) = (rng.pick(&[0xB, 0xB, 9, 0xF, 3, 3, 0]), rates(rng, tempo));
                    record(rng, f, right, 0, start, target, mode, exps);
                    if rng.one_in(3) {
                        f[right + 5..right + 8].fill(0);
                    }
                }
                f.copy_within(left..left + 2, right);
            }
            Way::Alone => {
                f.copy_within(left..left + 8, right);
                let first = if rng.one_in(often) { rng.pick(&[0x4000, 0x4000, 0x0001, 0x0100]) } else { 0 };
                put(f, right, first);
            }
            Way::Silent if since == 0 && rng.one_in(2) => {
                let (target, exps) = (rng.pick(&[0, -128]), rates(rng, tempo));
                record(rng, f, right, 0x4000, 0, target, 0xB, exps);
            }
            Way::Silent => f[right..right + 8].fill(0),
        }
    }
}

impl Strip {
    /// With `pan` the right amp record is not always the left one's copy.
    pub fn new(rng: &mut Rng, voice: usize, tempo: u32, pan: Option<Rng>) -> Strip {
        let pan = pan.map(|rng| Pan { rng, way: Way::Copy });
        Strip { voice, tempo, wait: rng.below(4), since: 0, command: 1, hold: 1, pan }
    }

    fn knobs(&self, rng: &mut Rng, f: &mut [u8]) {
        let v = self.voice;
        for (o, list) in [
            (rust::OVR, &[0, 0, 2000, 2900, 0x8000, 0xffff][..]),
            (rust::FRQ, &[0, 0x7fff, 0x8000, 0xf800, 0x1000, 0xe000]),
            (rust::RES, &[0, 0, 0x4000, 0x7f00, 0x7eff, 0xffff]),
            (rust::VCA_L, &[0, 1, 16384, 32767, 32767, 65535]),
            (rust::VCA_R, &[0, 1, 16384, 32767, 32767, 65535]),
        ] {
            let w = any_or(rng, list);
            put(f, o + 2 * v, w);
        }
        let code = rng.below(8) as u8;
        set_filter(f, v, code);
    }

    /// A note begins: the amp's start command, the filter's record of a start type.
    fn note(&mut self, rng: &mut Rng, f: &mut [u8]) {
        let (amp, flt) = (rust::AMP_ENV + 8 * self.voice, rust::FLT_ENV + 8 * self.voice);
        self.wait = 1 + rng.below(self.tempo);
        self.since = 0;
        self.command = 1 + rng.below(2);
        self.hold = self.command + rng.below(1 + self.wait / 2);
        self.knobs(rng, f);
        let (first, start, target) = (rng.pick(&[0x4000, 0x4000, 0x0001, 0x0100]), rng.pick(&[0, 0, 0, 20]), rng.pick(&[127, 127, 127, 90]));
        let (mode, exps) = (rng.pick(&[0xB, 0xB, 9, 0xF]), rates(rng, self.tempo));
        record(rng, f, amp, first, start, target, mode, exps);
        let depth = any_or(rng, &[0, 0x2000, 0x7fff, 0x8000, 0xe000]);
        let (start, target) = (rng.range(-5, 127), rng.pick(&[0, 0, 64, 127, -128]));
        let (mode, exps) = (rng.pick(&[9, 0xF, 0xF, 0xB]), rates(rng, self.tempo));
        record(rng, f, flt, depth, start, target, mode, exps);
        self.right(f);
    }

    /// The right amp record.
    fn right(&mut self, f: &mut [u8]) {
        let (left, right) = (rust::AMP_ENV + 8 * self.voice, AMP_ENV_R + 8 * self.voice);
        match &mut self.pan {
            Some(pan) => pan.block(f, left, right, self.since, self.tempo),
            None => f.copy_within(left..left + 8, right),
        }
    }

    fn set_mode(f: &mut [u8], o: usize, mode: u8) {
        f[o + 4] = f[o + 4] & 0x0F | mode << 4;
    }

    /// One block of the note: command withdrawn, hold and its alternate, the end of the hold, the decay.
    pub fn block(&mut self, rng: &mut Rng, f: &mut [u8]) {
        if self.wait == 0 {
            return self.note(rng, f);
        }
        self.wait -= 1;
        self.since += 1;
        let (amp, flt) = (rust::AMP_ENV + 8 * self.voice, rust::FLT_ENV + 8 * self.voice);
        if self.since == self.command {
            put(f, amp, 0);
            if rng.one_in(3) {
                f[amp + 5..amp + 8].fill(0);
            }
            let mode = rng.pick(&[0, 0xB, 3]);
            Self::set_mode(f, flt, mode);
        } else if self.since == self.hold {
            if rng.one_in(2) {
                f[amp..amp + 8].fill(0);
            } else {
                let (target, exps) = (rng.pick(&[-128, 0, 0]), rates(rng, self.tempo));
                record(rng, f, amp, 0, 0, target, 0xB, exps);
            }
        } else if self.since == self.hold + 1 {
            let (target, exps) = (rng.pick(&[-128, 0]), rates(rng, self.tempo));
            record(rng, f, amp, 0, 0, target, 0xB, exps);
        }
        if self.since >= self.command && self.since < self.hold {
            Self::set_mode(f, amp, if self.since % 2 == 0 { 3 } else { 0 });
        }
        if self.tempo <= 2000 || rng.one_in(200) {
            self.turn(rng, f, amp, flt);
        }
        self.right(f);
    }

    /// Now and then a knob is turned.
    fn turn(&self, rng: &mut Rng, f: &mut [u8], amp: usize, flt: usize) {
        let any = rng.word();
        match rng.below(64) {
            0 | 1 => self.knobs(rng, f),
            2 => put(f, flt, any),
            3 => {
                let mode = rng.pick(&[0, 3, 9, 0xB, 0xF, 5, 0xC]);
                Self::set_mode(f, flt, mode);
            }
            4 => f[flt + 3] = any as u8,
            5 => {
                let mode = rng.pick(&[0, 3, 9, 0xB, 0xF, 1, 8]);
                Self::set_mode(f, amp, mode);
            }
            6 => put(f, amp, 0x4000),
            7 => f[amp + 3] = any as u8,
            _ => {}
        }
    }
}

/// Distortion and route: the FX track's part of the frame.
pub fn master(rng: &mut Rng, f: &mut [u8]) {
    if rng.one_in(16) {
        let w = any_or(rng, &[0, 0, 0, 1, 0x4000, 0xffff]);
        put(f, rust::DIST, w);
    }
    if rng.one_in(16) {
        f[rust::ROUTE] = any_or(rng, &[0, 0, 0, 8, 1, 0xff]) as u8;
    }
}

/// The compressor's knobs: how many settings each has, and the values on its edges.
const KNOBS: [(u32, &[u8]); 8] = [
    (128, &[0, 95, 104, 105, 106, 127]),
    (7, &[0, 6, 7]),
    (8, &[0, 7, 8]),
    (4, &[0, 3, 4]),
    (4, &[0, 1, 2, 3, 4]),
    (128, &[0, 47, 48, 49, 127]),
    (128, &[0, 64, 127, 128]),
    (128, &[0, 39, 40, 41, 64, 124, 125, 126, 127, 128, 200, 255]),
];

/// Turns one of the compressor's knobs; with `wide` to any byte.
pub fn compressor(rng: &mut Rng, fx: &mut [u8], wide: bool) {
    let i = rng.below(8) as usize;
    let (settings, edges) = KNOBS[i];
    let any = rng.word();
    fx[6 + 2 * i] = match rng.below(3) {
        0 if wide => any as u8,
        1 => rng.pick(edges),
        _ => rng.below(settings) as u8,
    };
    fx[7 + 2 * i] = (any >> 8) as u8;
}

/// Random frames rarely hold a record twice: gives the chains' records the modes and rates that tell.
pub fn sort_noise(rng: &mut Rng, f: &mut [u8]) {
    for o in (rust::AMP_ENV..rust::BD.env).step_by(8) {
        let mode = rng.pick(&[0, 3, 3, 9, 0xB, 0xF, 0xA, f[o + 4] >> 4]);
        Strip::set_mode(f, o, mode);
        match rng.below(6) {
            0 | 1 => f[o + 5..o + 8].fill(0),
            2 => f[o + 5] |= 0x0F,
            3 => put(f, o, 0),
            _ => {}
        }
    }
    for (o, one_in) in [(rust::DIST, 3), (rust::OVR, 3), (rust::RES, 4)] {
        for v in 0..8 {
            if rng.one_in(one_in) && (o != rust::DIST || v == 0) {
                put(f, o + 2 * v, 0);
            }
        }
    }
    if rng.one_in(2) {
        f[rust::ROUTE] &= rng.word() as u8 & rng.word() as u8;
    }
}
