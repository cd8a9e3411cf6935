//! Plays good and damaged recordings with the replay program and compares what it writes with this reader's lines: its own reading of the
//! format (board/recording.rs) and the steps of the Rust of tools/oracle.
//!
//!     --recordings N    how many (default 100000)
//!     --seed S          seed of the generated recordings (default 1)
//!     --time FILE       plays FILE twenty times with each instead, and tells steps a second
//!     --program FILE    the program
//!
//! Links board_c curves_c.

#[path = "../target/oracle/mod.rs"]
mod oracle;
#[allow(dead_code)]
#[path = "../examples/rytm.rs"]
mod rytm;

#[allow(dead_code)]
#[path = "board/case.rs"]
mod case;
#[allow(dead_code)]
#[path = "board/desk.rs"]
mod desk;
#[allow(dead_code)]
#[path = "sources/fields.rs"]
mod fields;
#[allow(dead_code)]
#[path = "sources/frames.rs"]
mod frames;
#[path = "board/recording.rs"]
mod recording;
#[path = "sources/rng.rs"]
mod rng;
#[allow(dead_code)]
#[path = "board/sides.rs"]
mod sides;
#[allow(dead_code)]
#[path = "sources/state.rs"]
mod state;
#[path = "board/strips.rs"]
mod strips;

use desk::Desk;
use frames::STYLES;
use oracle::analog as rust;
use recording::{Recording, Writer};
use rng::Rng;
use std::fmt::Write as _;
use std::io::{Read, Write as _};
use std::process::{Command, Stdio};
use std::sync::atomic::{AtomicU64, Ordering};
use std::time::{Duration, Instant};

const OPENING: usize = 20;
const BODY: usize = 768;
/// What the program reads at most.
const MOST: usize = 65_536;

/// A recording that is being made: its opening's fields may say anything.
#[derive(Clone)]
struct Draft {
    opening: [u8; 8],
    seed: u32,
    steps: u32,
    bodies: u32,
    contents: Vec<u32>,
    body: Vec<Vec<u8>>,
    tail: Vec<u8>,
}

impl Draft {
    fn bytes(&self) -> Vec<u8> {
        let mut b = self.opening.to_vec();
        for w in [self.seed, self.steps, self.bodies].iter().chain(&self.contents) {
            b.extend(w.to_be_bytes());
        }
        b.extend(self.body.concat());
        b.extend(&self.tail);
        b
    }
}

/// Bodies of every style, of silence and of noise, cut out of recordings that the comparison's generator makes.
fn bodies(rng: &mut Rng) -> Vec<Vec<u8>> {
    let mut all = vec![vec![0; BODY], vec![255; BODY]];
    for _ in 0..12 {
        for (style, _) in STYLES {
            let mut desk = Desk::new(rng, style, 4);
            let mut writer = Writer::new();
            let mut taken = 0;
            while taken < 12 {
                desk.step(rng);
                taken += writer.take(&desk.case()) as usize;
            }
            let made = writer.bytes(0, false);
            let count = u32::from_be_bytes(made[16..20].try_into().unwrap()) as usize;
            all.extend(made[made.len() - BODY * count..].chunks(BODY).map(|b| b.to_vec()));
        }
    }
    for _ in 0..20 {
        all.push((0..BODY).map(|_| rng.word() as u8).collect());
    }
    all
}

/// A good recording of so many steps and bodies.
fn good(rng: &mut Rng, pool: &[Vec<u8>], steps: usize, bodies: usize) -> Draft {
    let any = rng.word();
    let mut contents = Vec::with_capacity(steps);
    while contents.len() < steps {
        let (run, entry) = (rng.pick(&[1, 1, 2, 5, 40, 70]), rng.below(bodies as u32));
        (0..run).for_each(|_| contents.push(entry));
    }
    contents.truncate(steps);
    Draft {
        opening: [b'R', b'V', b'B', b'R', 1, rng.one_in(4) as u8, 0, 0],
        seed: rng.pick(&[0, 1, rytm::DEFAULT_SEED, 0x0100_0000, any, any]),
        steps: steps as u32,
        bodies: bodies as u32,
        contents,
        body: (0..bodies).map(|_| pool[rng.below(pool.len() as u32) as usize].clone()).collect(),
        tail: Vec::new(),
    }
}

/// Mostly short ones; one in a hundred of any size up to the limit.
fn sized(rng: &mut Rng, pool: &[Vec<u8>]) -> Draft {
    let (bodies, room);
    if rng.one_in(100) {
        bodies = 1 + rng.below(85) as usize;
        room = (MOST - OPENING - BODY * bodies) / 4;
    } else {
        bodies = 1 + rng.below(6) as usize;
        room = 40;
    }
    let steps = 1 + rng.below(room as u32) as usize;
    good(rng, pool, steps, bodies)
}

const KINDS: [&str; 10] = ["good", "at the limit", "past the limit", "cut", "lengthened", "bits flipped", "field at its edge", "wrong opening", "entry past the bodies", "no recording"];

fn make(rng: &mut Rng, pool: &[Vec<u8>], kind: usize) -> Vec<u8> {
    let mut d = sized(rng, pool);
    match kind {
        // 20 + 4 s + 768 b is 65536 where s is 16379 - 192 b; past it by whole steps, or by a byte or more at the end.
        1 => {
            let bodies = rng.pick(&[1, 40, 80, 83, 84, 85]);
            d = good(rng, pool, 16_379 - 192 * bodies, bodies);
        }
        2 => {
            let bodies = rng.pick(&[1, 84, 85]);
            let (more, tail) = rng.pick(&[(1, 0), (2, 0), (0, 1), (0, 2), (100, 3), (49_157, 0)]);
            d = good(rng, pool, 16_379 - 192 * bodies + more, bodies);
            d.tail = vec![0; tail];
            if rng.one_in(3) {
                d.opening[rng.below(8) as usize] ^= 1 << rng.below(8);
            }
        }
        4 => {
            let most = rng.pick(&[8, 8, 8, 2000]);
            d.tail = (0..1 + rng.below(most)).map(|_| rng.word() as u8).collect();
        }
        6 => {
            let (steps, bodies) = (d.steps, d.bodies);
            let counts = [0, 1, 4_096, 4_097, 65_536, 65_537, 0x0100_0000, u32::MAX];
            match rng.below(4) {
                0 => d.steps = rng.pick(&counts),
                1 => d.bodies = rng.pick(&counts),
                2 => d.steps = rng.pick(&[steps + 1, steps - 1, steps + 192, steps << 8]),
                _ => d.bodies = rng.pick(&[bodies + 1, bodies - 1, bodies << 8]),
            }
        }
        7 => {
            let at = rng.below(8) as usize;
            d.opening[at] = rng.pick(&[0, 1, 2, 3, 255, b'R', b'r', 82 ^ 1]);
        }
        8 => {
            let at = rng.below(d.steps) as usize;
            let any = rng.word();
            d.contents[at] = rng.pick(&[d.bodies, d.bodies, d.bodies + 1, d.bodies - 1, 1 << 31, u32::MAX, any, d.bodies << 24]);
            if rng.one_in(8) {
                d.tail = vec![0; 4];
            }
        }
        _ => (),
    }
    let mut b = d.bytes();
    match kind {
        3 => {
            let any = rng.below(b.len() as u32) as usize;
            let whole = b.len();
            b.truncate(rng.pick(&[any, any, 0, 1, 19, 20, 21, whole - 1, whole - 4]).min(whole));
        }
        5 => {
            for _ in 0..1 + rng.below(4) {
                let front = OPENING + 4 * d.contents.len();
                let at = if rng.one_in(2) { rng.below(front as u32) } else { rng.below(b.len() as u32) };
                b[at as usize] ^= 1 << rng.below(8);
            }
        }
        9 => {
            let length = rng.pick(&[0, 1, 19, 20, 21, 100, 788, 792, 3000]);
            b = (0..length).map(|_| rng.word() as u8).collect();
            if rng.one_in(2) && length >= 4 {
                b[..4].copy_from_slice(b"RVBR");
            }
        }
        _ => (),
    }
    b
}

/// What the program has to write, and the refusal's number with the steps played.
fn expected(b: &[u8]) -> (String, u32, u64) {
    let refused = |n: u32| (format!("{n}\n"), n, 0);
    let recording = match Recording::read(b) {
        Err((6, _)) => return refused(6),
        _ if b.len() > MOST => return refused(7),
        Err((n, _)) => return refused(n),
        Ok(r) => r,
    };
    let mut board = rust::Analog::fresh(recording.seed, recording.ideal);
    let mut text = String::new();
    for step in 0..recording.contents.len() {
        let case = recording.case(step);
        let number = case.number();
        let rx = if number == 0 {
            let dac: &[i32; 16] = case.dac.try_into().unwrap();
            board.frame(case.frame, dac, case.fx, rust::Inputs { audio: case.audio.into(), ext: case.ext.into() }).rx
        } else {
            [0; 12]
        };
        write!(text, "{step} {number}").unwrap();
        rx.iter().for_each(|w| write!(text, " {w}").unwrap());
        text.push('\n');
    }
    (text, 0, recording.contents.len() as u64)
}

/// What the program wrote, unless it failed.
fn written(program: &str, b: &[u8]) -> Result<Vec<u8>, String> {
    let mut child = Command::new(program).stdin(Stdio::piped()).stdout(Stdio::piped()).spawn().map_err(|e| e.to_string())?;
    // It stops reading past the limit, so that a longer input may meet a closed pipe.
    if let Err(e) = child.stdin.take().unwrap().write_all(b) {
        if b.len() <= MOST {
            return Err(format!("it did not read its input: {e}"));
        }
    }
    let mut out = Vec::new();
    child.stdout.take().unwrap().read_to_end(&mut out).map_err(|e| e.to_string())?;
    let status = child.wait().map_err(|e| e.to_string())?;
    if status.success() { Ok(out) } else { Err(status.to_string()) }
}

static TRIED: AtomicU64 = AtomicU64::new(0);

/// Ends the run where one recording takes a minute.
fn watch() {
    std::thread::spawn(|| loop {
        let before = TRIED.load(Ordering::Relaxed);
        std::thread::sleep(Duration::from_secs(60));
        if TRIED.load(Ordering::Relaxed) == before {
            println!("recording {before}: the program does not end");
            std::process::exit(1);
        }
    });
}

/// Steps a second of both on one recording, the best of twenty.
fn time(program: &str, file: &str) {
    let b = std::fs::read(file).unwrap_or_else(|e| stop(&format!("{file}: {e}")));
    let (text, _, steps) = expected(&b);
    let (mut ours, mut theirs) = (Duration::MAX, Duration::MAX);
    for _ in 0..20 {
        let from = Instant::now();
        let out = written(program, &b);
        ours = ours.min(from.elapsed());
        assert!(out.as_deref() == Ok(text.as_bytes()), "the answers differ");
        let from = Instant::now();
        expected(&b);
        theirs = theirs.min(from.elapsed());
    }
    let rate = |t: Duration| steps as f64 / t.as_secs_f64();
    println!("{steps} steps: the program {:.0} steps a second with its start, the Rust {:.0}", rate(ours), rate(theirs));
}

fn stop(why: &str) -> ! {
    eprintln!("damage: {why}");
    std::process::exit(2);
}

fn main() {
    let (mut count, mut seed, mut program, mut timed) = (100_000, 1, String::new(), None);
    let mut words = std::env::args().skip(1);
    while let Some(word) = words.next() {
        let mut number = || words.next().and_then(|v| v.parse::<u64>().ok()).unwrap_or_else(|| stop(&format!("{word}: a number is missing")));
        match word.as_str() {
            "--recordings" => count = number(),
            "--seed" => seed = number(),
            "--time" => timed = words.next(),
            "--program" => program = words.next().unwrap_or_default(),
            _ => stop("options: --recordings N --seed S | --time FILE"),
        }
    }
    println!("{}", oracle::ABOUT);
    if let Some(file) = timed {
        return time(&program, &file);
    }
    let mut rng = Rng::new(seed);
    let pool = bodies(&mut rng);
    let (mut kinds, mut answers, mut steps, mut differ) = ([0u64; KINDS.len()], [0u64; 9], 0, 0u64);
    let (mut longest, mut playing) = (0, Duration::ZERO);
    watch();
    for n in 0..count {
        // Those at and past the limit are long: one in two hundred.
        let kind = if rng.one_in(200) { 1 + rng.below(2) as usize } else { rng.pick(&[0, 0, 3, 4, 5, 5, 6, 6, 7, 8, 8, 9]) };
        let b = make(&mut rng, &pool, kind);
        let (text, number, played) = expected(&b);
        kinds[kind] += 1;
        answers[number as usize] += 1;
        steps += played;
        longest = longest.max(b.len());
        let from = Instant::now();
        let out = written(&program, &b);
        playing += from.elapsed();
        if out.as_deref() != Ok(text.as_bytes()) {
            if differ == 0 {
                let file = "target/damaged";
                std::fs::write(file, &b).unwrap();
                println!("recording {n} ({}) differs; {file} has it", KINDS[kind]);
                match out {
                    Err(why) => println!("  the program failed: {why}"),
                    Ok(out) => {
                        let out = String::from_utf8_lossy(&out);
                        let at = out.lines().zip(text.lines()).position(|(a, b)| a != b).unwrap_or(out.lines().count().min(text.lines().count()));
                        println!("  line {at}: wrote {:?}, expected {:?}", out.lines().nth(at), text.lines().nth(at));
                    }
                }
            }
            differ += 1;
        }
        TRIED.fetch_add(1, Ordering::Relaxed);
    }
    KINDS.iter().zip(kinds).for_each(|(k, n)| println!("{k:22} {n}"));
    println!("played {} with {steps} steps; refused by 6: {}, by 7: {}, by 8: {}", answers[0], answers[6], answers[7], answers[8]);
    println!("longest {longest} bytes; the program took {:.0} s", playing.as_secs_f64());
    println!("{count} recordings: {differ} differences");
    std::process::exit((differ != 0) as i32);
}
