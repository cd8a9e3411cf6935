//! Recordings in edition 1 of document 02's first request.

use crate::case::Case;

pub struct Recording {
    pub seed: u32,
    pub ideal: bool,
    /// The body of each step.
    pub contents: Vec<usize>,
    bodies: Vec<Body>,
}

struct Body {
    frame: Vec<u8>,
    fx: Vec<u8>,
    dac: Vec<i32>,
    inputs: [f32; 4],
}

const OPENING: usize = 20;
const BODY: usize = 768;

fn word(b: &[u8], o: usize) -> u32 {
    u32::from_be_bytes(b[o..o + 4].try_into().unwrap())
}

fn body(b: &[u8]) -> Body {
    Body {
        frame: b[..664].to_vec(),
        fx: b[664..688].to_vec(),
        dac: (0..16).map(|i| word(b, 688 + 4 * i) as i32).collect(),
        inputs: std::array::from_fn(|i| f32::from_bits(word(b, 752 + 4 * i))),
    }
}

impl Recording {
    /// The recording, or the number of its refusal and what is wrong.
    pub fn read(b: &[u8]) -> Result<Recording, (u32, String)> {
        let fault = |number: u32, why: String| Err((number, why));
        if b.len() < OPENING {
            return fault(6, format!("an opening of {} bytes", b.len()));
        }
        let (steps, bodies) = (word(b, 12), word(b, 16));
        let wrong = [
            (&b[..4] != b"RVBR", "letters"),
            (b[4] != 1, "edition"),
            (b[5] > 1, "ideal byte"),
            (b[6] != 0 || b[7] != 0, "zero bytes"),
            (!(1..=65_536).contains(&steps), "step count"),
            (!(1..=4_096).contains(&bodies), "body count"),
        ];
        if let Some((_, what)) = wrong.iter().find(|(w, _)| *w) {
            return fault(6, format!("opening: {what}"));
        }
        let length = OPENING + 4 * steps as usize + BODY * bodies as usize;
        if b.len() != length {
            return fault(7, format!("{} bytes, {length} expected", b.len()));
        }
        let contents: Vec<usize> = (0..steps as usize).map(|i| word(b, OPENING + 4 * i) as usize).collect();
        if let Some(step) = contents.iter().position(|&n| n >= bodies as usize) {
            return fault(8, format!("step {step} names body {} of {bodies}", contents[step]));
        }
        let first = OPENING + 4 * steps as usize;
        let bodies = b[first..].chunks(BODY).map(body).collect();
        Ok(Recording { seed: word(b, 8), ideal: b[5] == 1, contents, bodies })
    }

    pub fn case(&self, step: usize) -> Case<'_> {
        let b = &self.bodies[self.contents[step]];
        let [al, ar, el, er] = b.inputs;
        Case { frame: &b.frame, dac: &b.dac, fx: &b.fx, audio: [al, ar], ext: [el, er] }
    }
}

/// A recording that is being made.
pub struct Writer {
    contents: Vec<u32>,
    bodies: Vec<Vec<u8>>,
}

impl Writer {
    pub fn new() -> Writer {
        Writer { contents: Vec::new(), bodies: Vec::new() }
    }

    /// Takes the step if a recording can hold it; bytes past a body's are cut.
    pub fn take(&mut self, case: &Case) -> bool {
        if case.frame.len() < 664 || case.fx.len() < 24 || case.dac.len() != 16 || self.contents.len() == 65_536 {
            return false;
        }
        let mut body = [&case.frame[..664], &case.fx[..24]].concat();
        body.extend(case.dac.iter().flat_map(|w| w.to_be_bytes()));
        body.extend(case.inputs().iter().flat_map(|x| x.to_bits().to_be_bytes()));
        let last = self.bodies.last() == Some(&body);
        if !last && self.bodies.len() == 4_096 {
            return false;
        }
        if !last {
            self.bodies.push(body);
        }
        self.contents.push(self.bodies.len() as u32 - 1);
        true
    }

    pub fn bytes(&self, seed: u32, ideal: bool) -> Vec<u8> {
        let mut b = b"RVBR".to_vec();
        b.extend([1, ideal as u8, 0, 0]);
        for w in [seed, self.contents.len() as u32, self.bodies.len() as u32].iter().chain(&self.contents) {
            b.extend(w.to_be_bytes());
        }
        b.extend(self.bodies.concat());
        b
    }
}
