//! writeback.rs: `Combiner`'s `new`, `color` and `strict_color`.

use crate::calls::{CombinerColor, CombinerNew, StrictColor, Tally};
use crate::compare::{Outcome, Part};
use crate::inputs::{Inputs, Temper};
use crate::library::{Combiner, Mode, Uniform};
use crate::rust::decode_combine;

/// The selectors that have a colour, by number, and Zero among them.
const COLORS: [u8; 12] = [0, 2, 3, 4, 5, 6, 11, 14, 15, 16, 17, 18];
const ALPHAS: [u8; 8] = [0, 2, 3, 4, 5, 6, 8, 9];
const ZERO: u8 = 5;

pub fn with_color(inputs: &mut Inputs) -> [u8; 8] {
    std::array::from_fn(|slot| inputs.pick(if slot < 4 { &COLORS[..] } else { &ALPHAS[..] }))
}

/// A combiner with a colour, or with any selectors.
pub fn any_combiner(inputs: &mut Inputs, temper: Temper) -> Combiner {
    let selectors = match inputs.below(4) {
        0 => inputs.selectors(),
        _ => with_color(inputs),
    };
    inputs.combiner(selectors, temper)
}

/// Every pair of a slot and a selector, in both kinds of company, and combiners at random.
pub fn color(part: &Part) -> Outcome {
    let mut tally = Tally::default();
    let mut inputs = part.inputs();
    for selector in part.share(21) {
        for slot in (0..8).filter(|&slot| slot < 4 || selector < 10) {
            for _ in 0..1000 {
                let temper = inputs.temper();
                let mut selectors = with_color(&mut inputs);
                selectors[slot] = selector as u8;
                let combiner = inputs.combiner(selectors, temper);
                tally.check(CombinerColor { combiner, shade: inputs.rgba(temper) })?;
            }
        }
    }
    for _ in part.tries(16_000_000) {
        let temper = inputs.temper();
        let combiner = any_combiner(&mut inputs, temper);
        tally.check(CombinerColor { combiner, shade: inputs.rgba(temper) })?;
    }
    Ok(tally.compared)
}

/// The mode with none of the flags that `new` refuses.
pub fn passing(mode: Mode) -> Mode {
    Mode {
        cycle_type: 0,
        z_test: false,
        z_write: false,
        cvg_x_alpha: false,
        alpha_compare: 0,
        alpha_cvg_select: false,
        blend_class: if mode.blend_class == 1 { 0 } else { mode.blend_class },
        color_on_coverage: false,
        ..mode
    }
}

/// The five flags by their bits.
fn with_flags(mode: Mode, bits: u32) -> Mode {
    Mode {
        z_test: bits & 1 != 0,
        z_write: bits & 2 != 0,
        cvg_x_alpha: bits & 4 != 0,
        alpha_cvg_select: bits & 8 != 0,
        color_on_coverage: bits & 16 != 0,
        ..mode
    }
}

/// The uniform with words whose second cycle has a colour. One pair in nine has.
pub fn usable(inputs: &mut Inputs, uniform: Uniform) -> Uniform {
    loop {
        let (combine_l, combine_h) = (inputs.word(), inputs.word());
        let [ca, cb, cc, cd, alphas @ ..] = decode_combine(combine_l, combine_h).cyc1;
        let colors = [ca, cb, cc, cd];
        if colors.iter().all(|number| COLORS.contains(number)) && alphas.iter().all(|number| ALPHAS.contains(number)) {
            return Uniform { combine_l, combine_h, ..uniform };
        }
    }
}

/// Every choice of what `new` looks at in the mode and of tex_enable, with words that have a colour and any words.
fn new_flags(part: &Part, tally: &mut Tally) -> Result<(), String> {
    let mut inputs = part.inputs();
    for bits in part.share(32) {
        for choice in 0..4 * 3 * 4 * 3 {
            let mut mode = with_flags(inputs.mode(), bits);
            mode.cycle_type = [0, 1, 2, 1 << 31][choice % 4];
            mode.alpha_compare = (choice / 4 % 3) as u8;
            mode.blend_class = (choice / 12 % 4) as u8;
            let tex_enable = [0, 1, 1 << 31][choice / 48];
            for _ in 0..8 {
                let temper = inputs.temper();
                let uniform = Uniform { tex_enable, ..inputs.uniform(temper) };
                tally.check(CombinerNew { uniform, mode })?;
                tally.check(CombinerNew { uniform: usable(&mut inputs, uniform), mode })?;
            }
        }
    }
    Ok(())
}

/// A uniform and a mode that mostly pass; half of the words have a colour for sure.
pub fn draw(inputs: &mut Inputs) -> CombinerNew {
    let temper = inputs.temper();
    let mut uniform = inputs.uniform(temper);
    if inputs.flag() {
        uniform = usable(inputs, uniform);
    }
    uniform.tex_enable = if inputs.below(16) == 0 { inputs.word() } else { 0 };
    let mode = inputs.mode();
    let mode = if inputs.below(16) == 0 { mode } else { passing(mode) };
    CombinerNew { uniform, mode }
}

pub fn new(part: &Part) -> Outcome {
    let mut tally = Tally::default();
    let mut inputs = part.inputs();
    new_flags(part, &mut tally)?;
    for _ in part.tries(10_000_000) {
        tally.check(draw(&mut inputs))?;
    }
    Ok(tally.compared)
}

/// Constants that clamp to 0 or 1 exactly, and a few that do not.
pub fn strict_constant(inputs: &mut Inputs) -> f32 {
    let below_one = f32::from_bits(0x3f7f_ffff);
    let hostile = inputs.hostile();
    inputs.pick(&[0.0, 0.0, -0.0, 1.0, 1.0, 1.0, 7.0, -3.0, f32::INFINITY, f32::NAN, below_one, hostile])
}

pub fn strict_combiner(inputs: &mut Inputs, selectors: [u8; 8]) -> Combiner {
    let temper = inputs.temper();
    let mut combiner = inputs.combiner(selectors, temper);
    for color in [&mut combiner.prim, &mut combiner.env] {
        color.r = strict_constant(inputs);
        color.g = strict_constant(inputs);
        color.b = strict_constant(inputs);
        color.a = strict_constant(inputs);
    }
    combiner
}

/// Every d slot of colour and alpha, with the other slots zero or one of them anything.
pub fn strict_color(part: &Part) -> Outcome {
    let mut tally = Tally::default();
    let mut inputs = part.inputs();
    for pair in part.share(21 * 10) {
        let (cd, ad) = ((pair % 21) as u8, (pair / 21) as u8);
        let zeros = [ZERO, ZERO, ZERO, cd, ZERO, ZERO, ZERO, ad];
        for _ in part.tries(10_000) {
            let combiner = strict_combiner(&mut inputs, zeros);
            tally.check(StrictColor { combiner })?;
        }
        for slot in [0, 1, 2, 4, 5, 6] {
            for number in 0..if slot < 4 { 21 } else { 10 } {
                let mut selectors = zeros;
                selectors[slot] = number;
                for _ in part.tries(100) {
                    let combiner = strict_combiner(&mut inputs, selectors);
                    tally.check(StrictColor { combiner })?;
                }
            }
        }
    }
    Ok(tally.compared)
}
