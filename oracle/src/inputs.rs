//! Arguments for the calls: a small generator that repeats from its seed, with plain floats and hostile ones.

use crate::library::{Combiner, Mode, Rgba, Uniform};

/// The seed where none is named, and that of the recorded samples.
pub const SEED: u64 = 0x0064_0064;

/// Floats at which something changes: clamping, rounding, ranges, the blender's least divisor, what the interface cuts
/// off, what a float can hold.
const LIMITS: [f32; 37] = [
    0.0,
    0.5,
    1.0,
    2.0,
    255.0,
    256.0,
    1.0 / 255.0,
    1.0 / 255.0 - 1.0,
    1.0 / 255.0 - 0.125,
    1.0 / 255.0 - 0.25,
    1.0 / 255.0 - 0.375,
    1.0 / 255.0 - 0.5,
    1.0 / 255.0 - 0.625,
    1.0 / 255.0 - 0.75,
    1.0 / 255.0 - 0.875,
    0.125,
    0.25,
    1023.75,
    1024.0,
    2047.75,
    2048.0,
    16_384.0,
    65_536.0,
    131_072.0,
    262_144.0,
    1.0 / 262_144.0,
    8_388_608.0,
    16_777_216.0,
    // With an addend of -2^48 + 2^25 - 1 or so this product shows a fused multiply and add.
    16_777_215.0,
    281_474_943_156_224.0,
    1_073_741_824.0,
    4_294_967_296.0,
    9_223_372_036_854_775_808.0,
    18_446_744_073_709_551_616.0,
    f32::MIN_POSITIVE,
    f32::EPSILON,
    f32::MAX,
];

const NOT_FINITE: [u32; 8] =
    [0x7fc0_0000, 0xffc0_0000, 0x7f80_0001, 0xff80_0001, 0x7fff_ffff, 0xffff_ffff, 0x7f80_0000, 0xff80_0000];

/// The float that lies so many bit patterns further.
pub fn shifted(x: f32, by: i32) -> f32 {
    f32::from_bits(x.to_bits().wrapping_add_signed(by))
}

/// How many of eight floats are hostile.
#[derive(Clone, Copy)]
pub struct Temper(u64);

/// Splitmix64.
#[derive(Clone)]
pub struct Inputs {
    state: u64,
}

impl Inputs {
    pub fn new(seed: u64) -> Self {
        Inputs { state: seed }
    }

    /// Another stretch, which leaves this one where it is.
    pub fn aside(&self) -> Self {
        Inputs::new(!self.state)
    }

    pub fn bits(&mut self) -> u64 {
        self.state = self.state.wrapping_add(0x9e37_79b9_7f4a_7c15);
        let mut z = self.state;
        z = (z ^ (z >> 30)).wrapping_mul(0xbf58_476d_1ce4_e5b9);
        z = (z ^ (z >> 27)).wrapping_mul(0x94d0_49bb_1331_11eb);
        z ^ (z >> 31)
    }

    pub fn word(&mut self) -> u32 {
        (self.bits() >> 32) as u32
    }

    pub fn byte(&mut self) -> u8 {
        (self.bits() >> 56) as u8
    }

    pub fn flag(&mut self) -> bool {
        self.bits() >> 63 == 1
    }

    /// A number below the limit, which is small.
    pub fn below(&mut self, limit: u32) -> u32 {
        ((u64::from(self.word()) * u64::from(limit)) >> 32) as u32
    }

    pub fn pick<T: Copy>(&mut self, of: &[T]) -> T {
        of[self.below(of.len() as u32) as usize]
    }

    // Floats

    /// From 0.0 up to, not including, 1.0.
    pub fn unit(&mut self) -> f32 {
        self.below(1 << 24) as f32 / 16_777_216.0
    }

    /// A channel as the game sets it, or a shade between two of them.
    pub fn plain(&mut self) -> f32 {
        if self.flag() {
            f32::from(self.byte()) / 255.0
        } else {
            self.unit()
        }
    }

    pub fn limit(&mut self) -> f32 {
        let limit = self.pick(&LIMITS);
        if self.flag() {
            -limit
        } else {
            limit
        }
    }

    pub fn not_finite(&mut self) -> f32 {
        f32::from_bits(self.pick(&NOT_FINITE))
    }

    pub fn hostile(&mut self) -> f32 {
        let value = match self.below(8) {
            0 => return f32::from_bits(self.word()),
            1 => return self.not_finite(),
            2 => return self.unit() * 5.0 - 2.0,
            3 => f32::from(self.byte()) / 255.0,
            // Halves, where the byte's rounding turns.
            4 => (f32::from(self.byte()) + 0.5) / 255.0,
            // Halves of a quarter unit.
            5 => (self.below(40_001) as f32 - 20_000.0) / 8.0,
            // Any mantissa, not far from 1.
            6 => return f32::from_bits(self.word() & 0x87ff_ffff | 0x3800_0000),
            _ => self.limit(),
        };
        shifted(value, self.below(5) as i32 - 2)
    }

    /// Calls are tried with plain floats alone, with few hostile ones, with many and with nothing else: among many, most
    /// sums are NaN or clamped.
    pub fn temper(&mut self) -> Temper {
        Temper(self.pick(&[0, 1, 4, 8]))
    }

    pub fn float(&mut self, temper: Temper) -> f32 {
        if u64::from(self.below(8)) < temper.0 {
            self.hostile()
        } else {
            self.plain()
        }
    }

    pub fn floats(&mut self, temper: Temper) -> [f32; 4] {
        std::array::from_fn(|_| self.float(temper))
    }

    pub fn rgba(&mut self, temper: Temper) -> Rgba {
        let [r, g, b, a] = self.floats(temper);
        Rgba { r, g, b, a }
    }

    // Whole numbers near their limits

    /// A mask with so many ones, up to 8, at any places. A generator of its own puts them there: what is drawn next does not
    /// turn on how many they are.
    pub fn mask_of(&mut self, ones: u32) -> u8 {
        let mut places = Inputs::new(!self.state);
        let (mut mask, mut left) = (0, ones);
        for place in 0..8 {
            if places.below(8 - place) < left {
                mask |= 1 << place;
                left -= 1;
            }
        }
        mask
    }

    /// Mostly with 1 to 8 ones, each number as often.
    pub fn mask(&mut self) -> u8 {
        match self.below(32) {
            0 => self.byte(),
            1 | 2 => 0,
            _ => {
                let ones = 1 + self.below(8);
                self.mask_of(ones)
            }
        }
    }

    /// Mostly 0 to 7.
    pub fn coverage(&mut self) -> u8 {
        match self.below(32) {
            0 => self.byte(),
            1 => 8,
            _ => self.below(8) as u8,
        }
    }

    // Structs

    /// A mode with every field at random, so that fields that must not count show where they do.
    pub fn mode(&mut self) -> Mode {
        Mode {
            cycle_type: self.word(),
            blender_mux: self.word() as u16,
            rgb_dither: self.byte(),
            alpha_dither: self.byte(),
            cvg_dst: self.byte(),
            blend_class: self.below(4) as u8,
            fallback_class: self.below(4) as u8,
            z_mode: self.below(4) as u8,
            alpha_compare: self.below(3) as u8,
            key_enabled: self.flag(),
            image_read: self.flag(),
            antialias: self.flag(),
            alpha_cvg_select: self.flag(),
            color_on_coverage: self.flag(),
            force_blend: self.flag(),
            non_canonical_blend: self.flag(),
            z_source_prim: self.flag(),
            z_test: self.flag(),
            z_write: self.flag(),
            fog: self.flag(),
            cvg_x_alpha: self.flag(),
        }
    }

    pub fn uniform(&mut self, temper: Temper) -> Uniform {
        Uniform {
            combine_l: self.word(),
            combine_h: self.word(),
            cycle_type: self.word(),
            tex_enable: self.word(),
            blender_mux: self.word(),
            force_blend: self.word(),
            alpha_flags: self.word(),
            alpha_threshold: self.float(temper),
            prim: self.rgba(temper),
            env: self.rgba(temper),
            blend_color: self.rgba(temper),
            fog_color: self.rgba(temper),
            inv_tex_size: self.floats(temper),
            inv_tex1_size: self.floats(temper),
            lod_params: self.floats(temper),
            inv_detail_size: self.floats(temper),
            frame: std::array::from_fn(|_| self.word()),
            is_rect: self.word(),
            coverage_slot: self.word(),
            fill_word: self.word(),
            fill_siz: self.word(),
            primitive_depth: std::array::from_fn(|_| self.word()),
            native_scale: self.floats(temper),
            raster: std::array::from_fn(|_| self.word()),
        }
    }

    /// Selectors of any number that the enums have, in any slot.
    pub fn selectors(&mut self) -> [u8; 8] {
        std::array::from_fn(|slot| self.below(if slot < 4 { 21 } else { 10 }) as u8)
    }

    pub fn combiner(&mut self, selectors: [u8; 8], temper: Temper) -> Combiner {
        Combiner {
            selectors,
            prim: self.rgba(temper),
            env: self.rgba(temper),
            blend: self.rgba(temper),
            fog: self.rgba(temper),
            lod: self.float(temper),
        }
    }
}
