//! Why a call is turned away: the numbers of docs/RULES.md, and their reasons in plain words.

use std::error::Error;
use std::fmt;

/// Why a call was turned away; it changed nothing.
///
/// Its `Display` is the one line for a log:
///
/// ```
/// use writeback::Refusal;
///
/// let line = "turned away, number 3: a mark is above 3, or a coverage marked known is above 7";
/// assert_eq!(Refusal::MARKS.to_string(), line);
/// ```
#[derive(Clone, Copy, Debug, PartialEq, Eq, Hash)]
pub struct Refusal(u32);

/// Every number that a call of this crate answers, and its reason.
const REASONS: [(Refusal, &str); 13] = [
    (Refusal::SIZES, "width or height lies outside 1 to 1,024"),
    (Refusal::LENGTHS, "a frame slice has not exactly its length"),
    (Refusal::MARKS, "a mark is above 3, or a coverage marked known is above 7"),
    (Refusal::SCISSOR, "one of the scissor's four numbers is above 65,535"),
    (
        Refusal::LISTS,
        "more than 4,096 vertices, not six floats and one presence flag for each, a flag above 1, an index count not \
         divisible by 3, or more than 12,288 indices",
    ),
    (
        Refusal::COMBINER,
        "Combiner::new answers None: the mode or a combiner input needs a texture, depth or something else that is not \
         worked out here",
    ),
    (
        Refusal::GEOMETRY,
        "the geometry is nothing, or admitted answers false: a triangle has a vertex that is missing, out of range or \
         not finite, or alphas that differ",
    ),
    (Refusal::PIXEL, "the pixel is not below width times height"),
    (Refusal::WRITER, "fmt and siz are not a supported colour writer"),
    (Refusal::UNKNOWN, "the colour is unmarked, or the coverage is unmarked and siz is 2"),
    (
        Refusal::ARGUMENTS,
        "a single-pixel call has a mask of 0, a coverage above 7, a width outside 1 to 1,024, a siz above 3 or a pixel \
         above 1,048,575",
    ),
    (Refusal::WORDS, "the words have not two bytes for each number"),
    (Refusal::SLOTS, "the slices for pixels and masks have not the same length"),
];

impl Refusal {
    /// Number 1: width or height lies outside 1 to 1,024.
    pub const SIZES: Refusal = Refusal(1);
    /// Number 2: a frame slice has not exactly its length.
    pub const LENGTHS: Refusal = Refusal(2);
    /// Number 3: a mark is above 3, or a coverage marked known is above 7.
    pub const MARKS: Refusal = Refusal(3);
    /// Number 4: one of the scissor's four numbers is above 65,535.
    pub const SCISSOR: Refusal = Refusal(4);
    /// Number 5: the lists of vertices and indices are too long or do not fit together.
    pub const LISTS: Refusal = Refusal(5);
    /// Number 6: the mode or a combiner input needs what is not worked out here.
    pub const COMBINER: Refusal = Refusal(6);
    /// Number 7: the geometry is nothing, or a triangle is not admitted.
    pub const GEOMETRY: Refusal = Refusal(7);
    /// Number 8: the pixel is not below width times height.
    pub const PIXEL: Refusal = Refusal(8);
    /// Number 9: fmt and siz are not a supported colour writer.
    pub const WRITER: Refusal = Refusal(9);
    /// Number 10: the colour is unmarked, or the coverage is unmarked and siz is 2. What a draw makes known is said at
    /// [`Frame::read_word`](crate::Frame::read_word).
    pub const UNKNOWN: Refusal = Refusal(10);
    /// Number 11: an argument of a single-pixel call is out of its range.
    pub const ARGUMENTS: Refusal = Refusal(11);
    /// Number 19: the words have not two bytes for each number.
    pub const WORDS: Refusal = Refusal(19);
    /// Number 20: the slices for pixels and masks have not the same length.
    pub const SLOTS: Refusal = Refusal(20);

    /// The refusal of a number, as [`Frame::read_words`](crate::Frame::read_words) gives them; 0 is none.
    pub const fn from_number(number: u32) -> Option<Refusal> {
        match number {
            0 => None,
            number => Some(Refusal(number)),
        }
    }

    /// The number, never 0. docs/RULES.md of the repository has them all, and in which order a call checks them.
    pub const fn number(self) -> u32 {
        self.0
    }

    /// The reason in plain words.
    pub fn reason(self) -> &'static str {
        let reason = REASONS.iter().find(|(refusal, _)| *refusal == self);
        reason.map_or("the list of reasons lacks this number", |(_, reason)| reason)
    }
}

impl fmt::Display for Refusal {
    fn fmt(&self, f: &mut fmt::Formatter<'_>) -> fmt::Result {
        write!(f, "turned away, number {}: {}", self.number(), self.reason())
    }
}

impl Error for Refusal {}

#[cfg(test)]
mod tests {
    use super::*;

    /// The rows of the README's table: number and reason, without its code marks.
    fn rows() -> Vec<(u32, String)> {
        let readme = include_str!("../../README.md");
        let cells = |line: &str| line.split('|').map(|cell| cell.trim().replace('`', "")).collect::<Vec<_>>();
        let row = |line: &str| match &cells(line)[..] {
            [_, number, reason, _] => number.parse().ok().map(|number| (number, reason.clone())),
            _ => None,
        };
        readme.lines().filter_map(row).collect()
    }

    #[test]
    fn reasons_are_those_of_the_readme() {
        let rows = rows();
        assert_eq!(rows.len(), REASONS.len());
        for ((number, row), (refusal, reason)) in rows.iter().zip(REASONS) {
            assert_eq!(*number, refusal.number());
            assert_eq!(row, reason);
        }
    }

    #[test]
    fn zero_is_no_refusal() {
        assert_eq!(Refusal::from_number(0), None);
        assert_eq!(Refusal::from_number(19), Some(Refusal::WORDS));
        assert_eq!(Refusal::from_number(20), Some(Refusal::SLOTS));
    }

    #[test]
    fn every_number_has_one_line() {
        for number in (1..=21).chain([u32::MAX]) {
            let line = Refusal::from_number(number).unwrap().to_string();
            assert!(line.starts_with(&format!("turned away, number {number}: ")), "{line}");
            assert!(!line.contains('\n'), "{line}");
        }
    }
}
