//! The call that copies the receive words, on the two sides: slot tables and destinations, and the copy as the source's words say it.

use crate::case::Case;
use crate::coefs;
use crate::oracle::analog as rust;
use crate::rng::Rng;
use crate::rytm::{Analog, Answer, Board, Mix};

/// A destination has at most so many words; as many around it have to stay as they are.
const ROOM: usize = 24;

/// Slot tables by what is wrong with them.
#[derive(Clone, Copy)]
enum Kind {
    Right,
    Short,
    Long,
    Past,
    Twice,
}

const KINDS: [(Kind, &str); 5] = [
    (Kind::Right, "right"),
    (Kind::Short, "of under 8 bytes"),
    (Kind::Long, "of more than 8 bytes"),
    (Kind::Past, "with a byte of 8 or more"),
    (Kind::Twice, "with a voice named twice"),
];

/// What the call is lent beside a step.
#[derive(Clone)]
pub struct Lent {
    kind: Kind,
    slots: Vec<u8>,
    room: usize,
    /// The destination and what lies around it: any words.
    memory: [i32; 3 * ROOM],
}

impl Lent {
    /// One call in three with a wrong table, one in four with a destination of any length.
    pub fn new(rng: &mut Rng) -> Lent {
        let kind = if rng.one_in(3) { KINDS[1 + rng.below(4) as usize].0 } else { Kind::Right };
        let room = if rng.one_in(4) { rng.below(ROOM as u32 + 1) as usize } else { 12 };
        Lent { kind, slots: table(rng, kind), room, memory: std::array::from_fn(|_| rng.word() as i32) }
    }

    fn dest(&mut self) -> &mut [i32] {
        &mut self.memory[ROOM..ROOM + self.room]
    }

    /// Takes the words out of a copy, to their places among the raw ones.
    fn take(&mut self) -> [i32; 12] {
        let mut rx = [0; 12];
        let voices: Vec<usize> = self.slots.iter().map(|&v| v as usize).collect();
        for (raw, copy) in [10, 11].iter().chain(&voices).chain(&[8, 9]).zip(self.dest()) {
            rx[*raw] = std::mem::take(copy).wrapping_neg();
        }
        rx
    }

    /// The lowest refusal that applies, or 0: a step's own first.
    fn number(&self, case: &Case) -> u32 {
        let mut named = self.slots.clone();
        named.sort_unstable();
        match case.number() {
            0 if named != [0, 1, 2, 3, 4, 5, 6, 7] => 9,
            0 if self.room != 12 => 10,
            number => number,
        }
    }

    pub fn print(&self) {
        println!("  slot table: {:?}", self.slots);
        println!("  destination of {} words, and around it: {:?}", self.room, self.memory);
    }
}

fn table(rng: &mut Rng, kind: Kind) -> Vec<u8> {
    let mut slots: Vec<u8> = (0..8).collect();
    for i in (1..8).rev() {
        slots.swap(i, rng.below(i as u32 + 1) as usize);
    }
    let (at, any) = (rng.below(8) as usize, rng.word() as u8);
    match kind {
        Kind::Right => {}
        Kind::Short => slots.truncate(rng.pick(&[0, 1, 4, 6, 7, 7, 7])),
        Kind::Long => {
            let more = rng.pick(&[1, 1, 1, 2, 8, 200]);
            let next = rng.pick(&[0, 8, slots[0], any]);
            slots.extend((0..more).map(|i| next.wrapping_add(i)));
        }
        Kind::Past => slots[at] = rng.pick(&[8, 8, 9, 16, 0x80 | slots[at], 255, any.max(8)]),
        Kind::Twice if rng.one_in(4) => slots.iter_mut().for_each(|s| *s &= 3),
        Kind::Twice => slots[at] = slots[(at + 1 + rng.below(7) as usize) % 8],
    }
    slots
}

/// The audio interrupt's copy (analog.rs, lines 612 to 618): of the raw frame, which is the voices 0 to 7, AUDIO IN and MAIN,
/// first MAIN, then the voices by slot, then AUDIO IN, every word negated.
fn copied(raw: &[i32; 12], slots: &[u8]) -> Vec<i32> {
    let (voices, others) = raw.split_at(8);
    let (audio_in, main) = others.split_at(2);
    let by_slot = slots.iter().map(|&v| &voices[v as usize]);
    main.iter().chain(by_slot).chain(audio_in).map(|w| -w).collect()
}

/// What the calls met.
pub struct Met {
    /// By kind of table: with no refusal of a step, and all.
    kinds: [[u64; 2]; 5],
    /// By the destination's length, of calls with nothing else wrong.
    rooms: [u64; ROOM + 1],
    /// Refused by 9 and by 10.
    refused: [u64; 2],
}

impl Met {
    pub fn new() -> Met {
        Met { kinds: [[0; 2]; 5], rooms: [0; ROOM + 1], refused: [0; 2] }
    }

    fn note(&mut self, lent: &Lent, case: &Case, number: u32) {
        self.kinds[lent.kind as usize][0] += (case.number() == 0) as u64;
        self.kinds[lent.kind as usize][1] += 1;
        self.rooms[lent.room] += matches!(number, 0 | 10) as u64;
        if number > 8 {
            self.refused[number as usize - 9] += 1;
        }
    }

    pub fn print(&self) {
        for (name, count) in ["answer 9, slot table", "answer 10, destination count"].iter().zip(&self.refused) {
            println!("{name:50}{count:>12}");
        }
        for ((_, name), [good, all]) in KINDS.iter().zip(&self.kinds) {
            println!("{:50}{all:>12}, with a good step {good}", format!("slot tables {name}"));
        }
        let rooms: Vec<String> = self.rooms.iter().enumerate().map(|(room, n)| format!("{room}: {n}")).collect();
        println!("destinations by length, nothing else wrong: {}", rooms.join(", "));
        let mut never: Vec<String> = KINDS.iter().zip(&self.kinds).filter(|(_, n)| n[0] == 0).map(|((_, name), _)| format!("slot tables {name}")).collect();
        never.extend((0..=ROOM).filter(|&room| self.rooms[room] == 0).map(|room| format!("a destination of {room} words")));
        never.extend([9, 10].iter().filter(|&&n| self.refused[n - 9] == 0).map(|n| format!("answer {n}")));
        if !never.is_empty() {
            println!("never met: {}", never.join("; "));
        }
    }
}

/// The two sides of one call: their answers, the copy's words at their raw places; whether all memory but the copy is the same.
pub struct Sides {
    pub port: Answer,
    pub rust: Answer,
    pub same: bool,
}

pub fn call(port: &mut Board, rust: &mut rust::Analog, before: &Analog, case: &Case, lent: &Lent, met: &mut Met) -> Sides {
    let (mut ours, mut theirs) = (lent.clone(), lent.clone());
    let answer = port.receive(case.frame, case.dac, case.fx, case.audio, case.ext, &lent.slots, ours.dest());
    let mut port = Answer { number: answer.number, rx: [0; 12], mix: answer.mix, board: *port.state() };
    let number = lent.number(case);
    met.note(lent, case, number);
    let rust = if number == 0 {
        let step = coefs::rust_step(rust, before, case);
        theirs.dest().copy_from_slice(&copied(&step.rx, &lent.slots));
        port.rx = ours.take();
        Answer { rx: theirs.take(), ..step }
    } else {
        Answer { number, rx: [0; 12], mix: Mix { l: 0.0, r: 0.0 }, board: *before }
    };
    Sides { port, rust, same: ours.memory == theirs.memory && ours.slots == lent.slots }
}
