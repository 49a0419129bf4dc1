//! Values as 32-bit words, to print and to record them, and when two of them count as the same answer.

/// Words in the making.
#[derive(Default)]
pub struct Sheet {
    words: Vec<u32>,
    /// Whether every NaN is written as 7fc00000: an answer may be any NaN.
    one_nan: bool,
}

pub trait Words {
    /// Appends the value's words: a struct's fields in their order, a small number or a bool as one word.
    fn words(&self, sheet: &mut Sheet);

    /// Whether the two count as the same: a NaN is equal to a NaN, and 0.0 to -0.0 (docs/RULES.md).
    fn alike(&self, other: &Self) -> bool;
}

macro_rules! whole_numbers {
    ($($kind:ty)*) => {$(
        impl Words for $kind {
            fn words(&self, sheet: &mut Sheet) {
                sheet.words.push(*self as u32);
            }

            fn alike(&self, other: &Self) -> bool {
                self == other
            }
        }
    )*};
}

// An i64 here is a quarter-unit position, which 32 bits hold.
whole_numbers! { bool u8 u16 u32 i64 }

/// The upper half first.
impl Words for u64 {
    fn words(&self, sheet: &mut Sheet) {
        sheet.words.extend([(*self >> 32) as u32, *self as u32]);
    }

    fn alike(&self, other: &Self) -> bool {
        self == other
    }
}

impl Words for f32 {
    fn words(&self, sheet: &mut Sheet) {
        let plain = sheet.one_nan && self.is_nan();
        sheet.words.push(if plain { 0x7fc0_0000 } else { self.to_bits() });
    }

    /// NaN is like NaN, and 0.0 like -0.0.
    fn alike(&self, other: &Self) -> bool {
        self == other || (self.is_nan() && other.is_nan())
    }
}

impl<T: Words, const N: usize> Words for [T; N] {
    fn words(&self, sheet: &mut Sheet) {
        self.iter().for_each(|value| value.words(sheet));
    }

    fn alike(&self, other: &Self) -> bool {
        self.iter().zip(other).all(|(a, b)| a.alike(b))
    }
}

/// The elements alone, without their number.
impl<T: Words> Words for Vec<T> {
    fn words(&self, sheet: &mut Sheet) {
        self.iter().for_each(|value| value.words(sheet));
    }

    fn alike(&self, other: &Self) -> bool {
        self.len() == other.len() && self.iter().zip(other).all(|(a, b)| a.alike(b))
    }
}

impl Sheet {
    /// The words in hexadecimal, eight digits each, with single spaces.
    fn hex(&self) -> String {
        let digits: Vec<String> = self.words.iter().map(|word| format!("{word:08x}")).collect();
        digits.join(" ")
    }
}

/// A value's words in hexadecimal, floats by their bits.
pub fn hex(value: &impl Words) -> String {
    let mut sheet = Sheet::default();
    value.words(&mut sheet);
    sheet.hex()
}

/// The same of an answer, in which one NaN is as good as another.
pub fn answer_hex(value: &impl Words) -> String {
    let mut sheet = Sheet { one_nan: true, ..Sheet::default() };
    value.words(&mut sheet);
    sheet.hex()
}
