//! What a step is given besides the board, and which refusals apply to it.

#[derive(Clone, Copy)]
pub struct Case<'a> {
    pub frame: &'a [u8],
    pub dac: &'a [i32],
    pub fx: &'a [u8],
    pub audio: [f32; 2],
    pub ext: [f32; 2],
}

pub const LOW: i32 = -8_388_608;
pub const HIGH: i32 = 8_388_607;

impl Case<'_> {
    pub fn inputs(&self) -> [f32; 4] {
        [self.audio[0], self.audio[1], self.ext[0], self.ext[1]]
    }

    /// Which of the refusals 1 to 5 apply.
    pub fn faults(&self) -> [bool; 5] {
        [
            self.frame.len() < 664,
            self.fx.len() < 24,
            self.dac.len() != 16,
            self.dac.iter().any(|w| !(LOW..=HIGH).contains(w)),
            self.inputs().iter().any(|x| !(-1.0..=1.0).contains(x)),
        ]
    }

    /// The lowest refusal that applies, or 0.
    pub fn number(&self) -> u32 {
        self.faults().iter().position(|&f| f).map_or(0, |i| i as u32 + 1)
    }

    pub fn print(&self) {
        for (i, row) in self.frame.chunks(32).enumerate() {
            println!("  frame {:3}: {}", 32 * i, hex(row));
        }
        println!("  FX: {}", hex(self.fx));
        println!("  DAC: {:?}", self.dac);
        let names = ["audio left", "audio right", "ext left", "ext right"];
        let inputs: Vec<String> = names.iter().zip(self.inputs()).map(|(n, x)| format!("{n} {:08x} ({x:e})", x.to_bits())).collect();
        println!("  inputs: {}", inputs.join(", "));
    }
}

fn hex(bytes: &[u8]) -> String {
    bytes.iter().map(|b| format!("{b:02x}")).collect::<Vec<_>>().join(" ")
}
