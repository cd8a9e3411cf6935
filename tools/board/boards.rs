//! Random boards, reachable or not.

use crate::oracle::analog as rust;
use crate::rng::Rng;
use crate::rytm::{Analog, Chain, Coefs, Comp, Cym, DualOsc, Hat, Key, Sc, SegEnv, Tom};
use crate::state::{State, SOURCES};
use crate::states::{self, Wild};
use crate::strips::AMP_ENV_R;

/// A chain's envelope that follows this record: its level often a little off the target.
fn seg(x: &mut Wild, r: &[u8]) -> SegEnv {
    let record = rust::Record::parse(r);
    let mut key = Key { start: r[2], target: r[3], rate: u32::from_be_bytes([r[4], r[5], r[6], r[7]]) & 0xf_ffff };
    match x.rng.below(6) {
        0 => key.start ^= 1,
        1 => key.target = x.rng.word() as u8,
        2 => key.rate = x.rng.word(),
        _ => {}
    }
    let near = x.rng.pick(&[0.0, 0.0005, 0.00099, 0.001, f32::from_bits(0.001f32.to_bits() - 1), f32::from_bits(0.001f32.to_bits() + 1), 0.0011]);
    let level = if x.rng.one_in(4) { record.target + x.rng.pick(&[near, -near]) } else { x.level(r) };
    SegEnv { key, level, hold: x.rng.one_in(2), cmd: x.rng.one_in(2) }
}

/// With these coefficients in every chain.
pub fn random(rng: &mut Rng, f: &[u8], coefs: Coefs) -> Analog {
    let mut duals: [Option<DualOsc>; 3] = [None; 3];
    let mut toms: [Option<Tom>; 3] = [None; 3];
    let mut metal: (Option<Cym>, Option<Hat>) = (None, None);
    for (source, _) in SOURCES {
        match states::random(rng, source, f) {
            State::Dual(i, d) => duals[i] = Some(d),
            State::Tom(i, t) => toms[i] = Some(t),
            State::Cym(c) => metal.0 = Some(c),
            State::Hat(h) => metal.1 = Some(h),
        }
    }
    let of8 = rng.pick(&[0, 0, 1, 3, 8]);
    let mut x = Wild { rng, of8 };
    let chains = std::array::from_fn(|v| {
        let mut of = |records: usize| seg(&mut x, &f[records + 8 * v..]);
        let (amp, amp_r, flt) = (of(rust::AMP_ENV), of(AMP_ENV_R), of(rust::FLT_ENV));
        Chain { amp, flt, low: x.filter(), band: x.filter(), lp1: x.filter(), amp_r, coefs }
    });
    let usual = x.rng.unit();
    let env = x.float(usual, &[0.0, 1e-6, 9.999999e-7, 1e-5, 1.0, 10.0, -1.0, 1e30]);
    let comp = Comp { env, sc: Sc { lo: x.filter(), hi: x.filter() } };
    let (duals, toms) = (duals.map(|d| d.unwrap()), toms.map(|t| t.unwrap()));
    Analog { duals, hat: metal.1.unwrap(), toms, cym: metal.0.unwrap(), chains, comp, wobble: states::wobble(rng, true) }
}
