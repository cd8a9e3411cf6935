//! Structures as a row of words that compare bit for bit, and the names of those words.

use crate::rytm::{Cym, DualOsc, Env, Hat, Tom, Wobble};
use crate::state::Source;

/// What takes the fields of a structure one after the other.
pub trait Fields {
    /// One word of the field; floats are said to be such.
    fn put(&mut self, name: &'static str, index: Option<usize>, word: u32, float: bool);
    /// The fields to come belong to this part, until `leave`.
    fn enter(&mut self, name: &'static str, index: Option<usize>);
    fn leave(&mut self);

    fn word(&mut self, name: &'static str, w: u32) {
        self.put(name, None, w, false);
    }

    fn float(&mut self, name: &'static str, x: f32) {
        self.put(name, None, bits(x), true);
    }

    fn floats(&mut self, name: &'static str, xs: &[f32]) {
        for (i, &x) in xs.iter().enumerate() {
            self.put(name, Some(i), bits(x), true);
        }
    }

    fn bytes(&mut self, name: &'static str, bs: &[u8]) {
        for (i, &b) in bs.iter().enumerate() {
            self.put(name, Some(i), b as u32, false);
        }
    }

    fn levels(&mut self, name: &'static str, es: &[Env]) {
        for (i, e) in es.iter().enumerate() {
            self.put(name, Some(i), bits(e.level), true);
        }
    }

    fn wobble(&mut self, w: &Wobble) {
        self.enter("wobble", None);
        self.word("s", w.s);
        self.float("depth", w.depth);
        self.leave();
    }

    fn dual(&mut self, d: &DualOsc) {
        self.bytes("last_p", &d.last_p);
        self.bytes("last_a", &d.last_a);
        self.bytes("last_m", &d.last_m);
        self.word("trig", d.trig as u32);
        self.float("ph1", d.ph1);
        self.float("ph2", d.ph2);
        self.float("pitch", d.pitch.level);
        self.float("amp", d.amp.level);
        self.float("amp2", d.amp2.level);
        self.floats("det", &d.det);
        for (i, x) in d.drift.iter().enumerate() {
            self.enter("drift", Some(i));
            self.float("cents", x.cents);
            self.float("ratio", x.ratio);
            self.word("n", x.n);
            self.leave();
        }
    }

    fn tom(&mut self, t: &Tom) {
        self.float("y1", t.y1);
        self.float("y2", t.y2);
        self.float("det", t.det);
        self.word("quiet", t.quiet);
    }

    fn cym(&mut self, c: &Cym) {
        self.floats("ph", &c.ph);
        self.floats("det", &c.det);
        self.levels("env", &c.env);
        self.bytes("mode", &c.mode);
        for (i, s) in c.svf.iter().enumerate() {
            self.enter("svf", Some(i));
            self.float("low", s.low);
            self.float("band", s.band);
            self.leave();
        }
    }

    fn hat(&mut self, h: &Hat) {
        self.floats("ph", &h.ph);
        self.floats("det", &h.det);
        self.float("env", h.env.level);
        self.float("hp.low", h.hp.low);
        self.float("hp.band", h.hp.band);
        self.word("mode", h.mode as u32);
    }
}

/// The bit pattern; the same for all values that are not numbers.
pub fn bits(x: f32) -> u32 {
    if x.is_nan() {
        0x7fc0_0000
    } else {
        x.to_bits()
    }
}

const MOST: usize = 448;

/// The words alone.
pub struct Row {
    len: usize,
    word: [u32; MOST],
}

impl Row {
    pub fn new() -> Row {
        Row { len: 0, word: [0; MOST] }
    }

    /// The places where the port's row differs from the Rust's, with name and both words.
    pub fn against(&self, rust: &Row, names: &Names) -> Vec<(usize, String)> {
        let show = |i: usize, w: u32| if names.words[i].1 { format!("{w:08x} ({:e})", f32::from_bits(w)) } else { format!("{w:x}") };
        let differ = (0..self.len).filter(|&i| self.word[i] != rust.word[i]);
        differ.map(|i| (i, format!("{}: port {}, Rust {}", names.words[i].0, show(i, self.word[i]), show(i, rust.word[i])))).collect()
    }

    /// All fields by name, the first few left out.
    pub fn all(&self, names: &Names, skip: usize) -> String {
        names.words.iter().zip(&self.word[..self.len]).skip(skip).map(|((n, _), w)| format!("{n} {w:x}")).collect::<Vec<_>>().join(", ")
    }
}

impl PartialEq for Row {
    fn eq(&self, other: &Row) -> bool {
        self.word[..self.len] == other.word[..other.len]
    }
}

impl Fields for Row {
    #[inline]
    fn put(&mut self, _: &'static str, _: Option<usize>, word: u32, _: bool) {
        self.word[self.len] = word;
        self.len += 1;
    }

    fn enter(&mut self, _: &'static str, _: Option<usize>) {}

    fn leave(&mut self) {}
}

/// The names of a row's words, and which are floats.
pub struct Names {
    pub words: Vec<(String, bool)>,
    path: Vec<String>,
}

impl Names {
    pub fn new() -> Names {
        Names { words: Vec::new(), path: Vec::new() }
    }
}

fn indexed(name: &str, index: Option<usize>) -> String {
    index.map_or(name.to_string(), |i| format!("{name}[{i}]"))
}

impl Fields for Names {
    fn put(&mut self, name: &'static str, index: Option<usize>, _: u32, float: bool) {
        let mut path = self.path.clone();
        path.push(indexed(name, index));
        self.words.push((path.join("."), float));
    }

    fn enter(&mut self, name: &'static str, index: Option<usize>) {
        self.path.push(indexed(name, index));
    }

    fn leave(&mut self) {
        self.path.pop();
    }
}

/// The parts of the frame that a source reads.
pub fn concerned(source: Source) -> Vec<std::ops::Range<usize>> {
    match source {
        Source::Dual(i) => vec![90 + 8 * i..98 + 8 * i, 160..168, 360 + 32 * i..392 + 32 * i],
        Source::Tom(i) => vec![118 + 4 * i..122 + 4 * i],
        Source::Cym => vec![142..144, 158..160, 496..560, 640..664],
        Source::Hat => vec![130..132, 140..142, 488..496, 616..640],
    }
}
