//! The combiner's inputs, and the two combine words that name them.

use crate::ffi;

/// What a colour slot of the combiner reads. What is marked number 6 needs more than is worked out here; a draw that reads it
/// is turned away.
#[derive(Clone, Copy, Debug, PartialEq, Eq, Hash)]
pub enum ColorIn {
    /// The first cycle's colour: 0.0 in one-cycle mode.
    Combined,
    /// The first texture's colour: number 6.
    Texel0,
    /// The primitive colour.
    Primitive,
    /// The colour between the vertices.
    Shade,
    /// The environment colour.
    Environment,
    /// 0.0.
    Zero,
    /// 1.0.
    One,
    /// The second texture's colour: number 6.
    Texel1,
    /// The chroma key's centre: number 6.
    KeyCenter,
    /// A constant of the colour conversion: number 6.
    K4,
    /// The chroma key's scale: number 6.
    KeyScale,
    /// The first cycle's alpha: 0.0 in one-cycle mode.
    CombinedAlpha,
    /// The first texture's alpha: number 6.
    Texel0Alpha,
    /// The second texture's alpha: number 6.
    Texel1Alpha,
    /// The primitive colour's alpha.
    PrimitiveAlpha,
    /// The alpha between the vertices.
    ShadeAlpha,
    /// The environment colour's alpha.
    EnvAlpha,
    /// The level of detail's fraction: 1.0 without textures.
    LodFraction,
    /// The primitive's level of detail, the third of the uniform's `lod_params`.
    PrimLodFrac,
    /// A constant of the colour conversion: number 6.
    K5,
    /// Noise: number 6.
    Noise,
}

/// What an alpha slot of the combiner reads. What is marked number 6 needs more than is worked out here; a draw that reads it
/// is turned away.
#[derive(Clone, Copy, Debug, PartialEq, Eq, Hash)]
pub enum AlphaIn {
    /// The first cycle's alpha: 0.0 in one-cycle mode.
    Combined,
    /// The first texture's alpha: number 6.
    Texel0,
    /// The primitive colour's alpha.
    Primitive,
    /// The alpha between the vertices, which must then have one alpha (number 7).
    Shade,
    /// The environment colour's alpha.
    Environment,
    /// 0.0.
    Zero,
    /// 1.0.
    One,
    /// The second texture's alpha: number 6.
    Texel1,
    /// The level of detail's fraction: 1.0 without textures.
    LodFraction,
    /// The primitive's level of detail, the third of the uniform's `lod_params`.
    PrimLodFrac,
}

impl ColorIn {
    /// Every case, in the order of their numbers in the C interface.
    pub const ALL: [ColorIn; 21] = [
        ColorIn::Combined,
        ColorIn::Texel0,
        ColorIn::Primitive,
        ColorIn::Shade,
        ColorIn::Environment,
        ColorIn::Zero,
        ColorIn::One,
        ColorIn::Texel1,
        ColorIn::KeyCenter,
        ColorIn::K4,
        ColorIn::KeyScale,
        ColorIn::CombinedAlpha,
        ColorIn::Texel0Alpha,
        ColorIn::Texel1Alpha,
        ColorIn::PrimitiveAlpha,
        ColorIn::ShadeAlpha,
        ColorIn::EnvAlpha,
        ColorIn::LodFraction,
        ColorIn::PrimLodFrac,
        ColorIn::K5,
        ColorIn::Noise,
    ];

    /// The number of an input that slots A, B, C and D have in common.
    fn common(self) -> Option<u32> {
        Some(match self {
            ColorIn::Combined => 0,
            ColorIn::Texel0 => 1,
            ColorIn::Texel1 => 2,
            ColorIn::Primitive => 3,
            ColorIn::Shade => 4,
            ColorIn::Environment => 5,
            _ => return None,
        })
    }

    fn in_a(self) -> Option<u32> {
        self.common().or(match self {
            ColorIn::One => Some(6),
            ColorIn::Noise => Some(7),
            ColorIn::Zero => Some(15),
            _ => None,
        })
    }

    fn in_b(self) -> Option<u32> {
        self.common().or(match self {
            ColorIn::KeyCenter => Some(6),
            ColorIn::K4 => Some(7),
            ColorIn::Zero => Some(15),
            _ => None,
        })
    }

    fn in_c(self) -> Option<u32> {
        self.common().or(match self {
            ColorIn::KeyScale => Some(6),
            ColorIn::CombinedAlpha => Some(7),
            ColorIn::Texel0Alpha => Some(8),
            ColorIn::Texel1Alpha => Some(9),
            ColorIn::PrimitiveAlpha => Some(10),
            ColorIn::ShadeAlpha => Some(11),
            ColorIn::EnvAlpha => Some(12),
            ColorIn::LodFraction => Some(13),
            ColorIn::PrimLodFrac => Some(14),
            ColorIn::K5 => Some(15),
            ColorIn::Zero => Some(31),
            _ => None,
        })
    }

    fn in_d(self) -> Option<u32> {
        self.common().or(match self {
            ColorIn::One => Some(6),
            ColorIn::Zero => Some(7),
            _ => None,
        })
    }
}

impl AlphaIn {
    /// Every case, in the order of their numbers in the C interface.
    pub const ALL: [AlphaIn; 10] = [
        AlphaIn::Combined,
        AlphaIn::Texel0,
        AlphaIn::Primitive,
        AlphaIn::Shade,
        AlphaIn::Environment,
        AlphaIn::Zero,
        AlphaIn::One,
        AlphaIn::Texel1,
        AlphaIn::LodFraction,
        AlphaIn::PrimLodFrac,
    ];

    /// The number of an input that all alpha slots have in common.
    fn common(self) -> Option<u32> {
        Some(match self {
            AlphaIn::Texel0 => 1,
            AlphaIn::Texel1 => 2,
            AlphaIn::Primitive => 3,
            AlphaIn::Shade => 4,
            AlphaIn::Environment => 5,
            AlphaIn::Zero => 7,
            _ => return None,
        })
    }

    fn in_abd(self) -> Option<u32> {
        self.common().or(match self {
            AlphaIn::Combined => Some(0),
            AlphaIn::One => Some(6),
            _ => None,
        })
    }

    fn in_c(self) -> Option<u32> {
        self.common().or(match self {
            AlphaIn::LodFraction => Some(0),
            AlphaIn::PrimLodFrac => Some(6),
            _ => None,
        })
    }
}

/// One cycle's inputs. A colour channel is (ca - cb) × cc + cd, the alpha (aa - ab) × ac + ad.
#[derive(Clone, Copy, Debug, PartialEq, Eq, Hash)]
pub struct CycleSel {
    /// Colour slot A.
    pub ca: ColorIn,
    /// Colour slot B.
    pub cb: ColorIn,
    /// Colour slot C.
    pub cc: ColorIn,
    /// Colour slot D.
    pub cd: ColorIn,
    /// Alpha slot A.
    pub aa: AlphaIn,
    /// Alpha slot B.
    pub ab: AlphaIn,
    /// Alpha slot C.
    pub ac: AlphaIn,
    /// Alpha slot D.
    pub ad: AlphaIn,
}

impl CycleSel {
    /// The inputs for one colour and one alpha: (0 - 0) × 0 + the input.
    pub fn only(color: ColorIn, alpha: AlphaIn) -> CycleSel {
        let (zero, none) = (ColorIn::Zero, AlphaIn::Zero);
        CycleSel { ca: zero, cb: zero, cc: zero, cd: color, aa: none, ab: none, ac: none, ad: alpha }
    }

    /// The words for `combine_l` and `combine_h` of a [`CombinerUniform`](crate::CombinerUniform) that name these inputs
    /// in both cycles, as games do for one-cycle mode. `None` where a slot cannot name its input, as slot D cannot name
    /// `Noise`.
    ///
    /// ```
    /// use writeback::{decode_combine, AlphaIn, ColorIn, CycleSel};
    ///
    /// let shade = CycleSel::only(ColorIn::Shade, AlphaIn::One);
    /// let (l, h) = shade.combine_words().unwrap();
    /// assert_eq!(decode_combine(l, h), [shade, shade]);
    /// assert_eq!(CycleSel::only(ColorIn::Noise, AlphaIn::One).combine_words(), None);
    /// ```
    pub fn combine_words(self) -> Option<(u32, u32)> {
        let [ca, cb] = [self.ca.in_a()?, self.cb.in_b()?];
        let [cc, cd] = [self.cc.in_c()?, self.cd.in_d()?];
        let [aa, ab] = [self.aa.in_abd()?, self.ab.in_abd()?];
        let [ac, ad] = [self.ac.in_c()?, self.ad.in_abd()?];
        let first = (ca << 20 | cc << 15 | aa << 12 | ac << 9, cb << 28 | cd << 15 | ab << 12 | ad << 9);
        let second = (ca << 5 | cc, cb << 24 | aa << 21 | ac << 18 | cd << 6 | ab << 3 | ad);
        Some((first.0 | second.0, first.1 | second.1))
    }
}

/// The inputs that the combine words name, of the first and the second cycle. One-cycle mode reads the second.
pub fn decode_combine(combine_l: u32, combine_h: u32) -> [CycleSel; 2] {
    ffi::decode_combine(combine_l, combine_h).map(|numbers| {
        let [ca, cb, cc, cd, aa, ab, ac, ad] = numbers.map(usize::from);
        let color = |number: usize| ColorIn::ALL[number.min(ColorIn::ALL.len() - 1)];
        let alpha = |number: usize| AlphaIn::ALL[number.min(AlphaIn::ALL.len() - 1)];
        CycleSel {
            ca: color(ca),
            cb: color(cb),
            cc: color(cc),
            cd: color(cd),
            aa: alpha(aa),
            ab: alpha(ab),
            ac: alpha(ac),
            ad: alpha(ad),
        }
    })
}

#[cfg(test)]
mod tests {
    use super::*;

    /// How many inputs each slot can name, and that the library reads back what was named.
    #[test]
    fn slots_name_their_inputs() {
        let zero = CycleSel::only(ColorIn::Zero, AlphaIn::Zero);
        let color = |with: fn(CycleSel, ColorIn) -> CycleSel| {
            ColorIn::ALL.into_iter().filter(|input| named(with(zero, *input))).count()
        };
        let alpha = |with: fn(CycleSel, AlphaIn) -> CycleSel| {
            AlphaIn::ALL.into_iter().filter(|input| named(with(zero, *input))).count()
        };
        assert_eq!(color(|cycle, ca| CycleSel { ca, ..cycle }), 9);
        assert_eq!(color(|cycle, cb| CycleSel { cb, ..cycle }), 9);
        assert_eq!(color(|cycle, cc| CycleSel { cc, ..cycle }), 17);
        assert_eq!(color(|cycle, cd| CycleSel { cd, ..cycle }), 8);
        assert_eq!(alpha(|cycle, aa| CycleSel { aa, ..cycle }), 8);
        assert_eq!(alpha(|cycle, ab| CycleSel { ab, ..cycle }), 8);
        assert_eq!(alpha(|cycle, ac| CycleSel { ac, ..cycle }), 8);
        assert_eq!(alpha(|cycle, ad| CycleSel { ad, ..cycle }), 8);
    }

    fn named(cycle: CycleSel) -> bool {
        let words = cycle.combine_words();
        if let Some((l, h)) = words {
            assert_eq!(decode_combine(l, h), [cycle, cycle]);
        }
        words.is_some()
    }
}
