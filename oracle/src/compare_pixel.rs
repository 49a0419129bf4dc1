//! writeback.rs: `destination`, `color_known` and `blend`.

use crate::calls::{Blend, ColorKnown, Destination, Tally};
use crate::compare::{Outcome, Part};
use crate::compare_combiner::any_combiner;
use crate::inputs::{Inputs, Temper};
use crate::library::Mode;

/// The mode with these two flags, by their bits.
fn with_flags(mode: Mode, bits: u32) -> Mode {
    Mode { antialias: bits & 1 != 0, force_blend: bits & 2 != 0, ..mode }
}

/// Everything that it looks at, whole.
pub fn destination(part: &Part) -> Outcome {
    let mut tally = Tally::default();
    let mut inputs = part.inputs();
    for cvg_dst in part.share(256) {
        for bits in 0..4 {
            for mask in 0..=255 {
                let mode = Mode { cvg_dst: cvg_dst as u8, ..with_flags(inputs.mode(), bits) };
                for memory in 0..=255 {
                    tally.check(Destination { mode, mask, memory })?;
                }
            }
        }
    }
    Ok(tally.compared)
}

/// Alphas on both sides of 1.0, where a pixel is opaque.
const ALPHAS: [u32; 6] = [0x3f80_0000, 0x3f7f_ffff, 0x3f80_0001, 0x7fc0_0000, 0x7f80_0000, 0xbf80_0000];

/// Every mux, flag, number of ones and coverage, absent coverages too.
fn known_whole(part: &Part, tally: &mut Tally) -> Result<(), String> {
    let mut inputs = part.inputs();
    for mux in part.share(1 << 16) {
        for bits in 0..8 {
            let memory_rgb = bits & 4 != 0;
            let mode = Mode { blender_mux: mux as u16, ..with_flags(inputs.mode(), bits) };
            for alpha in ALPHAS.map(f32::from_bits) {
                for ones in 1..=8 {
                    let mask = inputs.mask_of(ones);
                    let absent = inputs.byte();
                    tally.check(ColorKnown { mode, alpha, mask, known: false, coverage: absent, memory_rgb })?;
                    for coverage in 0..8 {
                        tally.check(ColorKnown { mode, alpha, mask, known: true, coverage, memory_rgb })?;
                    }
                }
            }
        }
    }
    Ok(())
}

pub fn any_known(inputs: &mut Inputs) -> ColorKnown {
    let temper = inputs.temper();
    ColorKnown {
        mode: inputs.mode(),
        alpha: inputs.float(temper),
        mask: inputs.mask(),
        known: inputs.flag(),
        coverage: inputs.coverage(),
        memory_rgb: inputs.flag(),
    }
}

pub fn color_known(part: &Part) -> Outcome {
    let mut tally = Tally::default();
    let mut inputs = part.inputs();
    known_whole(part, &mut tally)?;
    for mask in 0..=255 {
        for coverage in 0..=255 {
            tally.check(ColorKnown { mask, coverage, ..any_known(&mut inputs) })?;
        }
    }
    for _ in part.tries(10_000_000) {
        tally.check(any_known(&mut inputs))?;
    }
    Ok(tally.compared)
}

/// A pixel whose blending divides more often than not.
pub fn any_blend(inputs: &mut Inputs, temper: Temper) -> Blend {
    let bits = inputs.pick(&[0, 1, 1, 1, 2, 3]);
    Blend {
        mode: with_flags(inputs.mode(), bits),
        combiner: any_combiner(inputs, temper),
        rgba: inputs.rgba(temper),
        memory: inputs.rgba(temper),
        shade_alpha: inputs.float(temper),
        mask: inputs.mask(),
        coverage: inputs.coverage(),
    }
}

/// Every mux and flag, every mask and coverage, and pixels at random.
pub fn blend(part: &Part) -> Outcome {
    let mut tally = Tally::default();
    let mut inputs = part.inputs();
    for mux in part.share(1 << 16) {
        for bits in 0..16 {
            let temper = inputs.temper();
            let mut call = any_blend(&mut inputs, temper);
            call.mode = Mode { blender_mux: mux as u16, ..with_flags(call.mode, bits) };
            tally.check(call)?;
        }
    }
    for mask in 0..=255 {
        for coverage in 0..=255 {
            let temper = inputs.temper();
            tally.check(Blend { mask, coverage, ..any_blend(&mut inputs, temper) })?;
        }
    }
    for _ in part.tries(16_000_000) {
        let temper = inputs.temper();
        tally.check(any_blend(&mut inputs, temper))?;
    }
    Ok(tally.compared)
}
