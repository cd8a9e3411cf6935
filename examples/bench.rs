//! One second of sound from one hit of every voice: the peak of each receive word, one step's words as the firmware copies them,
//! what each voice adds to the mix in that step, or why it adds nothing, with three faults made, and the time it took.

#[allow(dead_code)]
mod rytm;

use rytm::{Board, Reason, Side};

const STEPS: usize = 48_000;
const COMMANDS: usize = 64;
const BURST: usize = 20;
const COPIED: usize = 480;
const SLOTS: [u8; 8] = [0, 2, 4, 1, 3, 5, 6, 7];

struct Frame([u8; 664]);

impl Frame {
    fn word(&mut self, o: usize, w: u16) {
        self.0[o..o + 2].copy_from_slice(&w.to_be_bytes());
    }

    fn on(&mut self, switch: usize) {
        self.0[160 + switch / 8] |= 1 << (switch % 8);
    }

    /// An envelope record: first word, start, target, mode, exponent of the rate.
    fn record(&mut self, o: usize, first: u16, start: i8, target: i8, mode: u8, exponent: u8) {
        self.word(o, first);
        self.0[o + 2..o + 8].copy_from_slice(&[start as u8, target as u8, mode << 4, exponent, 0, 0]);
    }

    /// The frame of a hit while its commands last (two blocks), or after.
    fn hit(commands: bool) -> Frame {
        let (first, mode) = if commands { (0x4000, 0xF) } else { (0, 0) };
        let mut f = Frame([0; 664]);
        for (i, (trig, ring)) in [(12, 45), (0, 33), (28, 5)].into_iter().enumerate() {
            let (cv, env, tom, n) = (90 + 8 * i, 360 + 32 * i, 118 + 4 * i, i as u16 + 1);
            f.word(cv, 678 * n);
            f.word(cv + 2, 1017 * n);
            f.word(cv + 4, 32767);
            f.word(cv + 6, 8000);
            f.on(ring);
            if commands {
                f.on(trig);
            }
            f.record(env, first, 15, 0, mode, 13);
            f.record(env + 16, first, 127, -128, mode, 14);
            f.record(env + 24, first, 127, 0, mode, 14);
            f.word(tom, 488 * n);
            f.word(tom + 2, 0x3000);
        }
        for (k, w) in [8955, 13278, 16122, 22800, 23555, 34896].into_iter().enumerate() {
            f.word(618 + 4 * k, w);
            f.word(642 + 4 * k, w);
        }
        f.record(488, 0x4000, 127, -128, mode, 14);
        f.word(140, 32767);
        for (r, start) in [(2, 66), (3, -93), (4, 115), (7, 127)] {
            f.record(496 + 8 * r, 0x4000, start, -128, mode, 14);
        }
        f.word(158, 32767);
        for v in 0..8 {
            f.word(10 + 2 * v, 16384);
            f.word(26 + 2 * v, 16384);
            f.word(58 + 2 * v, 0x2000);
            f.word(74 + 2 * v, 0x2000);
            for side in [168, 232] {
                f.record(side + 8 * v, first, 0, 127, if commands { 0xB } else { 3 }, 0);
            }
        }
        f
    }

    /// BD off the main bus, SD's right VCA word 0, MT's left amp let down.
    fn faults(&mut self) {
        self.0[166] |= 8;
        self.word(30, 0);
        self.record(208, 0, 0, -128, 0xB, 0);
    }
}

fn tell(voice: u32, side: &str, why: Result<Reason, u32>) {
    print!("voice {voice} {side:5} ");
    match why {
        Ok(reason) => println!("{reason:.6}"),
        Err(number) => println!("refused by {number}"),
    }
}

fn main() {
    let mut fx = [0; 24];
    for (i, p) in [80, 3, 3, 2, 0, 47, 64, 100].into_iter().enumerate() {
        fx[6 + 2 * i] = p;
    }
    let (mut frame, mut dac, mut peak, mut copy) = (Frame::hit(true), [0; 16], [0; 12], [0; 12]);
    let from = std::time::Instant::now();
    let mut board = Board::fresh(rytm::DEFAULT_SEED, false);
    let mut asked = board;
    for n in 0..STEPS {
        if n == COMMANDS {
            frame = Frame::hit(false);
        }
        dac[8..11].fill(if n < BURST { 4_000_000 } else { 0 });
        if n == COPIED {
            // Its board is let go; the first goes on by the step below.
            let mut other = board;
            let copied = other.receive(&frame.0, &dac, &fx, [0.25, -0.25], [0.0, 0.0], &SLOTS, &mut copy);
            if copied.number != 0 {
                println!("the copy is refused by {}", copied.number);
                std::process::exit(1);
            }
            asked = board;
        }
        let step = board.step(&frame.0, &dac, &fx, [0.25, -0.25], [0.0, 0.0]);
        if step.number != 0 {
            println!("step {n} refused by {}", step.number);
            std::process::exit(1);
        }
        for (p, w) in peak.iter_mut().zip(step.rx) {
            *p = w.abs().max(*p);
        }
    }
    let took = from.elapsed().as_secs_f64();
    for (i, p) in peak.iter().enumerate() {
        println!("word {i:2} peak {p:7}");
    }
    for (i, w) in copy.iter().enumerate() {
        println!("step {COPIED} copied {i:2} {w:8}");
    }
    frame.faults();
    for voice in 0..8 {
        for (side, name) in [(Side::Left, "left"), (Side::Right, "right")] {
            tell(voice, name, asked.why(&frame.0, &dac, &fx, [0.25, -0.25], [0.0, 0.0], voice, side));
        }
    }
    println!("a second of sound in {took:.3} s");
}
