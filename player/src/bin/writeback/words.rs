//! The words of a line, and the values that they stand for. What is wrong with one is told in plain words.

use std::ops::RangeInclusive;
use std::str::SplitAsciiWhitespace;

/// A word of the file for a message: its characters that are not printable escaped, and cut where it is long.
pub fn quoted(word: &str) -> String {
    const LONGEST: usize = 40;
    let shown: String = word.chars().take(LONGEST).flat_map(char::escape_debug).collect();
    let cut = if word.chars().nth(LONGEST).is_some() { ".." } else { "" };
    format!("\"{shown}{cut}\"")
}

/// Digits behind `0x`.
fn hexadecimal(word: &str) -> Option<&str> {
    let digits = word.strip_prefix("0x")?;
    (!digits.is_empty() && digits.bytes().all(|byte| byte.is_ascii_hexdigit())).then_some(digits)
}

fn is_digits(word: &str) -> bool {
    !word.is_empty() && word.bytes().all(|byte| byte.is_ascii_digit())
}

/// A whole number in decimal digits, or in hexadecimal ones behind `0x`, in its range.
pub fn whole(word: &str, range: RangeInclusive<u64>) -> Result<u64, String> {
    let number = match hexadecimal(word) {
        Some(digits) => u64::from_str_radix(digits, 16).ok(),
        None if is_digits(word) => word.parse().ok(),
        None => None,
    };
    let (least, most) = (range.start(), range.end());
    let wrong = || format!("{} is no whole number from {least} to {most}", quoted(word));
    number.filter(|number| range.contains(number)).ok_or_else(wrong)
}

/// Whether a word is a decimal number: a sign, digits with a point, a power of ten. `nan` and `inf`, which Rust reads too,
/// are none.
fn is_decimal(word: &str) -> bool {
    let unsigned = word.strip_prefix('-').unwrap_or(word);
    let (digits, power) = unsigned.split_once('e').map_or((unsigned, None), |(digits, power)| (digits, Some(power)));
    let (integer, fraction) = digits.split_once('.').unwrap_or((digits, "0"));
    let power = power.map(|power| power.strip_prefix(['-', '+']).unwrap_or(power));
    is_digits(integer) && is_digits(fraction) && power.is_none_or(is_digits)
}

/// A float in decimal, or its bits in hexadecimal digits behind `0x`.
pub fn float(word: &str) -> Result<f32, String> {
    if let Some(bits) = hexadecimal(word).and_then(|digits| u32::from_str_radix(digits, 16).ok()) {
        return Ok(f32::from_bits(bits));
    }
    if !is_decimal(word) {
        return Err(format!(
            "{} is neither a decimal number nor the bits of a float, 0x and up to eight digits",
            quoted(word)
        ));
    }
    let value: Option<f32> = word.parse().ok();
    value.filter(|value| value.is_finite()).ok_or_else(|| format!("{} is beyond a 32-bit float", quoted(word)))
}

/// The words of a line in turn. A message opens with what a word stands for.
pub struct Words<'a> {
    rest: SplitAsciiWhitespace<'a>,
}

impl<'a> Words<'a> {
    /// Without the comment.
    pub fn of(line: &'a str) -> Words<'a> {
        let text = line.split('#').next().unwrap_or_default();
        Words { rest: text.split_ascii_whitespace() }
    }

    pub fn next(&mut self) -> Option<&'a str> {
        self.rest.next()
    }

    pub fn needed(&mut self, what: &str) -> Result<&'a str, String> {
        self.next().ok_or_else(|| format!("{what} is missing"))
    }

    fn number(&mut self, what: &str) -> Result<&'a str, String> {
        self.next().ok_or_else(|| format!("{what}: a number is missing"))
    }

    pub fn whole(&mut self, what: &str, range: RangeInclusive<u64>) -> Result<u64, String> {
        whole(self.number(what)?, range).map_err(|wrong| format!("{what}: {wrong}"))
    }

    pub fn u32(&mut self, what: &str) -> Result<u32, String> {
        Ok(self.whole(what, 0..=u32::MAX.into())? as u32)
    }

    pub fn u16(&mut self, what: &str) -> Result<u16, String> {
        Ok(self.whole(what, 0..=u16::MAX.into())? as u16)
    }

    pub fn u8(&mut self, what: &str) -> Result<u8, String> {
        Ok(self.whole(what, 0..=u8::MAX.into())? as u8)
    }

    pub fn float(&mut self, what: &str) -> Result<f32, String> {
        float(self.number(what)?).map_err(|wrong| format!("{what}: {wrong}"))
    }

    pub fn floats<const N: usize>(&mut self, what: &str) -> Result<[f32; N], String> {
        let mut values = [0.0; N];
        for value in &mut values {
            *value = self.float(what)?;
        }
        Ok(values)
    }

    pub fn u32s<const N: usize>(&mut self, what: &str) -> Result<[u32; N], String> {
        let mut values = [0; N];
        for value in &mut values {
            *value = self.u32(what)?;
        }
        Ok(values)
    }

    pub fn u8s<const N: usize>(&mut self, what: &str) -> Result<[u8; N], String> {
        let mut values = [0; N];
        for value in &mut values {
            *value = self.u8(what)?;
        }
        Ok(values)
    }

    /// One of some names.
    pub fn one_of<T: Copy>(&mut self, what: &str, names: &[(&str, T)]) -> Result<T, String> {
        let all = || names.iter().map(|(name, _)| *name).collect::<Vec<_>>().join(", ");
        let word = self.next().ok_or_else(|| format!("{what}: one of {} is missing", all()))?;
        let found = names.iter().find(|(name, _)| *name == word);
        found.map(|(_, value)| *value).ok_or_else(|| format!("{what}: {} is none of {}", quoted(word), all()))
    }

    pub fn flag(&mut self, what: &str) -> Result<bool, String> {
        self.one_of(what, &[("off", false), ("on", true)])
    }

    /// All words that are left, each read by itself.
    pub fn all<T>(&mut self, what: &str, read: impl Fn(&str) -> Result<T, String>) -> Result<Vec<T>, String> {
        let values = self.rest.by_ref().map(|word| read(word).map_err(|wrong| format!("{what}: {wrong}")));
        values.collect()
    }

    pub fn end(&mut self) -> Result<(), String> {
        match self.next() {
            None => Ok(()),
            Some(word) => Err(format!("{} is one word too many", quoted(word))),
        }
    }
}

#[cfg(test)]
mod tests {
    use super::*;

    #[test]
    fn whole_numbers() {
        assert_eq!(whole("0", 0..=0), Ok(0));
        assert_eq!(whole("18446744073709551615", 0..=u64::MAX), Ok(u64::MAX));
        assert_eq!(whole("0xFf", 1..=255), Ok(255));
        assert!(whole("0", 1..=255).is_err());
        assert_eq!(whole("256", 1..=255), Err("\"256\" is no whole number from 1 to 255".into()));
        for word in ["-1", "+1", "1.0", "1_0", "1,0", "0x", "0x-1", "0xg", "x", "", "18446744073709551616", "٣"] {
            assert!(whole(word, 0..=u64::MAX).is_err(), "{word}");
        }
    }

    #[test]
    fn floats() {
        assert_eq!(float("-1.5e2"), Ok(-150.0));
        assert_eq!(float("7"), Ok(7.0));
        assert_eq!(float("0x3f800000"), Ok(1.0));
        assert_eq!(float("0x7fc12345").map(f32::to_bits), Ok(0x7fc1_2345));
        assert_eq!(float("-0").map(f32::to_bits), Ok(0x8000_0000));
        assert_eq!(float("1e-60"), Ok(0.0));
        assert_eq!(float("1e60"), Err("\"1e60\" is beyond a 32-bit float".into()));
        for word in ["nan", "inf", "-inf", "infinity", ".5", "5.", "1e", "e5", "--1", "+1", "0x123456789", "1.2.3", ""]
        {
            assert!(float(word).is_err(), "{word}");
        }
    }

    #[test]
    fn messages_show_no_control_characters() {
        assert_eq!(quoted("a\u{1b}[2J\0"), "\"a\\u{1b}[2J\\0\"");
        assert_eq!(quoted(&"x".repeat(100)), format!("\"{}..\"", "x".repeat(40)));
    }
}
