//! The Analog Rytm's voice board: a safe wrapper of the static libraries (libboard_c.a, for `Board::why` libwhy_c.a too, and libcurves_c.a beside them).
//! The structures are those of include/rytm.h.

/// The random sequence; depth 0 with ideal components.
#[repr(C)]
#[derive(Clone, Copy, Debug)]
pub struct Wobble {
    pub s: u32,
    pub depth: f32,
}

#[repr(C)]
#[derive(Clone, Copy, Debug)]
pub struct Drift {
    pub cents: f32,
    pub ratio: f32,
    pub n: u32,
}

#[repr(C)]
#[derive(Clone, Copy, Debug)]
pub struct Env {
    pub level: f32,
}

#[repr(C)]
#[derive(Clone, Copy, Debug)]
pub struct DualOsc {
    pub last_p: [u8; 8],
    pub last_a: [u8; 8],
    pub ph1: f32,
    pub ph2: f32,
    pub pitch: Env,
    pub amp: Env,
    pub last_m: [u8; 8],
    pub amp2: Env,
    pub trig: bool,
    pub det: [f32; 2],
    pub drift: [Drift; 2],
}

#[repr(C)]
#[derive(Clone, Copy, Debug)]
pub struct Svf {
    pub low: f32,
    pub band: f32,
}

#[repr(C)]
#[derive(Clone, Copy, Debug)]
pub struct Hat {
    pub ph: [f32; 6],
    pub det: [f32; 6],
    pub env: Env,
    pub mode: u8,
    pub hp: Svf,
}

#[repr(C)]
#[derive(Clone, Copy, Debug)]
pub struct Cym {
    pub ph: [f32; 6],
    pub det: [f32; 6],
    pub env: [Env; 8],
    pub mode: [u8; 8],
    pub svf: [Svf; 5],
}

#[repr(C)]
#[derive(Clone, Copy, Debug)]
pub struct Tom {
    pub y1: f32,
    pub y2: f32,
    pub det: f32,
    pub quiet: u32,
}

/// The parts of a chain's record that it watches.
#[repr(C)]
#[derive(Clone, Copy, Debug)]
pub struct Key {
    pub start: u8,
    pub target: u8,
    pub rate: u32,
}

#[repr(C)]
#[derive(Clone, Copy, Debug)]
pub struct SegEnv {
    pub key: Key,
    pub level: f32,
    pub hold: bool,
    pub cmd: bool,
}

/// A filter's coefficients, with the cutoff in Hz and the resonance that they came from. A step works them out anew where either of these differs in
/// its bits, and else goes by the stored ones.
#[repr(C)]
#[derive(Clone, Copy, Debug)]
pub struct Coefs {
    pub fc: f32,
    pub res: f32,
    pub g: f32,
    pub k: f32,
    pub a1: f32,
    pub a2: f32,
    pub a3: f32,
    pub a: f32,
}

#[repr(C)]
#[derive(Clone, Copy, Debug)]
pub struct Chain {
    /// The left side's amp.
    pub amp: SegEnv,
    pub flt: SegEnv,
    pub low: f32,
    pub band: f32,
    pub lp1: f32,
    /// The right side's amp.
    pub amp_r: SegEnv,
    pub coefs: Coefs,
}

/// The compressor's sidechain filters.
#[repr(C)]
#[derive(Clone, Copy, Debug)]
pub struct Sc {
    pub lo: f32,
    pub hi: f32,
}

#[repr(C)]
#[derive(Clone, Copy, Debug)]
pub struct Comp {
    pub env: f32,
    pub sc: Sc,
}

#[repr(C)]
#[derive(Clone, Copy, Debug)]
pub struct Mix {
    pub l: f32,
    pub r: f32,
}

/// The whole board.
#[repr(C)]
#[derive(Clone, Copy, Debug)]
pub struct Analog {
    pub duals: [DualOsc; 3],
    pub hat: Hat,
    pub toms: [Tom; 3],
    pub cym: Cym,
    pub chains: [Chain; 8],
    pub comp: Comp,
    pub wobble: Wobble,
}

const _: () = assert!(std::mem::size_of::<Analog>() == 1236);

#[repr(C)]
#[derive(Clone, Copy, Debug)]
pub struct Answer {
    pub number: u32,
    pub rx: [i32; 12],
    pub mix: Mix,
    pub board: Analog,
}

#[repr(C)]
#[derive(Clone, Copy, Debug)]
pub struct Received {
    pub number: u32,
    pub mix: Mix,
    pub board: Analog,
}

/// Number 0, reason and value; or the number of a refusal.
#[repr(C)]
#[derive(Clone, Copy, Debug)]
pub struct Why {
    pub number: u32,
    pub reason: u32,
    pub value: f32,
}

extern "C" {
    fn rytm_fresh(seed: u32, ideal: bool) -> Analog;
    fn rytm_step(
        board: Analog,
        frame: *const u8,
        frame_len: usize,
        dac: *const i32,
        dac_len: usize,
        fx: *const u8,
        fx_len: usize,
        audio_l: f32,
        audio_r: f32,
        ext_l: f32,
        ext_r: f32,
    ) -> Answer;
    fn rytm_receive(
        board: Analog,
        frame: *const u8,
        frame_len: usize,
        dac: *const i32,
        dac_len: usize,
        fx: *const u8,
        fx_len: usize,
        audio_l: f32,
        audio_r: f32,
        ext_l: f32,
        ext_r: f32,
        slots: *const u8,
        slots_len: usize,
        dest: *mut i32,
        dest_len: usize,
    ) -> Received;
    /// The call itself: right true, or left.
    pub fn rytm_why(
        board: Analog,
        frame: *const u8,
        frame_len: usize,
        dac: *const i32,
        dac_len: usize,
        fx: *const u8,
        fx_len: usize,
        audio_l: f32,
        audio_r: f32,
        ext_l: f32,
        ext_r: f32,
        voice: u32,
        right: bool,
    ) -> Why;
}

/// A board's seed where none is given.
pub const DEFAULT_SEED: u32 = 0x2545_F491;

/// What one step gives besides the next board.
#[derive(Clone, Copy, Debug)]
pub struct Step {
    /// 0, or the number of the refusal.
    pub number: u32,
    /// Voices 0 to 7, audio in left and right, main left and right; 24 bits signed.
    pub rx: [i32; 12],
    pub mix: Mix,
}

/// What one step gives besides its copied words and the next board.
#[derive(Clone, Copy, Debug)]
pub struct ReceivedStep {
    /// 0, or the number of the refusal.
    pub number: u32,
    pub mix: Mix,
}

/// A side of the mix.
#[derive(Clone, Copy, Debug, PartialEq)]
pub enum Side {
    Left,
    Right,
}

/// Why a voice adds nothing to a side of the mix: the first of these that is true, or heard where none is.
#[derive(Clone, Copy, Debug, PartialEq)]
pub enum Reason {
    RoutedOff,
    /// The side's amp level, after its tick, is at or below 0: that level.
    AmpDown(f32),
    /// The side's VCA word is 0.
    VcaZero,
    /// The filtered sample is 0: the cutoff in Hz that the filter's tangent takes.
    FilteredZero(f32),
    /// What it adds is 0 all the same.
    LostToRounding,
    /// What it adds.
    Heard(f32),
}

/// In words: `amp level -128`, or with `{:.3}` so many places.
impl std::fmt::Display for Reason {
    fn fmt(&self, f: &mut std::fmt::Formatter) -> std::fmt::Result {
        let (words, value, unit) = match self {
            Reason::RoutedOff => return write!(f, "routed off"),
            Reason::AmpDown(level) => ("amp level ", level, ""),
            Reason::VcaZero => return write!(f, "VCA word 0"),
            Reason::FilteredZero(cutoff) => ("filtered sample zero, cutoff ", cutoff, " Hz"),
            Reason::LostToRounding => return write!(f, "lost to rounding"),
            Reason::Heard(added) => ("heard, ", added, ""),
        };
        f.write_str(words)?;
        std::fmt::Display::fmt(value, f)?;
        f.write_str(unit)
    }
}

/// A board that steps.
#[derive(Clone, Copy, Debug)]
pub struct Board {
    state: Analog,
}

impl Board {
    pub fn fresh(seed: u32, ideal: bool) -> Board {
        // The call takes plain numbers and answers all of them.
        Board { state: unsafe { rytm_fresh(seed, ideal) } }
    }

    /// The board with every number given.
    pub fn of(state: Analog) -> Board {
        Board { state }
    }

    /// Every number of the board.
    pub fn state(&self) -> &Analog {
        &self.state
    }

    /// One sample: the control frame, the DAC words, the FX parameters, audio and ext inputs (left, right). A refusal
    /// leaves the board as it was.
    pub fn step(&mut self, frame: &[u8], dac: &[i32], fx: &[u8], audio: [f32; 2], ext: [f32; 2]) -> Step {
        let (f, d, p) = (frame.as_ptr(), dac.as_ptr(), fx.as_ptr());
        // Each pointer goes with its slice's length; nothing lent is written or kept.
        let answer = unsafe { rytm_step(self.state, f, frame.len(), d, dac.len(), p, fx.len(), audio[0], audio[1], ext[0], ext[1]) };
        self.state = answer.board;
        Step { number: answer.number, rx: answer.rx, mix: answer.mix }
    }

    /// One sample whose words go to `dest` as the firmware's audio interrupt copies them, every one negated: main left and
    /// right, the voices that the eight slots name, audio in left and right. A refusal leaves board and `dest` as they were.
    #[allow(clippy::too_many_arguments)]
    pub fn receive(&mut self, frame: &[u8], dac: &[i32], fx: &[u8], audio: [f32; 2], ext: [f32; 2], slots: &[u8], dest: &mut [i32]) -> ReceivedStep {
        let (f, d, p, s, to) = (frame.as_ptr(), dac.as_ptr(), fx.as_ptr(), slots.as_ptr(), dest.as_mut_ptr());
        let (fl, dl, pl, sl, tl) = (frame.len(), dac.len(), fx.len(), slots.len(), dest.len());
        // Each pointer goes with its slice's length; what is written is `dest` alone, which nothing else lent overlaps.
        let answer = unsafe { rytm_receive(self.state, f, fl, d, dl, p, pl, audio[0], audio[1], ext[0], ext[1], s, sl, to, tl) };
        self.state = answer.board;
        ReceivedStep { number: answer.number, mix: answer.mix }
    }

    /// Why a voice, 0 to 7, adds nothing to a side of the mix in a step of these arguments, or the number of the refusal. No
    /// step is made.
    #[allow(clippy::too_many_arguments)]
    pub fn why(&self, frame: &[u8], dac: &[i32], fx: &[u8], audio: [f32; 2], ext: [f32; 2], voice: u32, side: Side) -> Result<Reason, u32> {
        let (f, d, p, right) = (frame.as_ptr(), dac.as_ptr(), fx.as_ptr(), side == Side::Right);
        let (fl, dl, pl) = (frame.len(), dac.len(), fx.len());
        // Each pointer goes with its slice's length; nothing lent is written or kept.
        let why = unsafe { rytm_why(self.state, f, fl, d, dl, p, pl, audio[0], audio[1], ext[0], ext[1], voice, right) };
        match why.reason {
            _ if why.number != 0 => Err(why.number),
            1 => Ok(Reason::RoutedOff),
            2 => Ok(Reason::AmpDown(why.value)),
            3 => Ok(Reason::VcaZero),
            4 => Ok(Reason::FilteredZero(why.value)),
            5 => Ok(Reason::LostToRounding),
            6 => Ok(Reason::Heard(why.value)),
            _ => unreachable!("the library gives no other reason"),
        }
    }
}
