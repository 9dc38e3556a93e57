//! Which paper, and which scale.

use super::look::Box;

/// A size of paper: the name, the short side and the long side in millimetres.
type Size = (&'static str, u64, u64);

pub const SIZES: [Size; 5] =
    [("A4", 210, 297), ("A3", 297, 420), ("A2", 420, 594), ("A1", 594, 841), ("A0", 841, 1189)];

/// The margin on each side, in millimetres, and what the title takes below the
/// drawing and height marks take left of it.
pub const MARGIN: u64 = 12;
pub const BLOCK: u64 = 26;
pub const HEIGHTS: u64 = 14;

/// The greatest number behind `1:` that may be asked for.
pub const DENOMINATOR_LIMIT: u64 = 1_000_000;

/// A paper that the drawing fits, and its scale.
#[derive(Clone, Copy, PartialEq, Eq, Debug)]
pub struct Paper {
    pub name: &'static str,
    /// Millimetres.
    pub width: u64,
    pub height: u64,
    /// 500 for 1:500.
    pub denominator: u64,
    /// What is kept free on the left.
    pub left: u64,
}

impl Paper {
    /// The smallest of these papers that the box fits at the scale; where not even the
    /// largest does, at the next greater denominator at which one does.
    pub fn pick(bounds: Box, denominator: u64, left: u64, sizes: &[Size]) -> Paper {
        let [least, most] = bounds;
        let [across, up] = [0, 1].map(|axis| most[axis].abs_diff(least[axis]));
        let scales =
            std::iter::once(denominator).chain(customary().filter(|&next| next > denominator));
        for denominator in scales {
            for &(name, short, long) in sizes {
                let mut ways = [(short, long), (long, short)];
                if across > up {
                    ways.reverse();
                }
                for (width, height) in ways {
                    let paper = Paper { name, width, height, denominator, left };
                    if paper.fits(across, up) {
                        return paper;
                    }
                }
            }
        }
        unreachable!("some scale is small enough")
    }

    /// The room of the drawing, in millimetres.
    pub fn room(&self) -> (u64, u64) {
        (self.width - self.left - MARGIN, self.height - 2 * MARGIN - BLOCK)
    }

    fn fits(&self, across: u64, up: u64) -> bool {
        let (width, height) = self.room();
        across * 10 <= width * self.denominator && up * 10 <= height * self.denominator
    }

    /// The millimetres of a centimetre of cave.
    pub fn factor(&self) -> f64 {
        10.0 / self.denominator as f64
    }

    /// `A1 portrait`.
    pub fn words(&self) -> String {
        let way = if self.width > self.height { "landscape" } else { "portrait" };
        format!("{} {way}", self.name)
    }
}

/// 10, 20, 25, 50, 100 and so on.
fn customary() -> impl Iterator<Item = u64> {
    (1..17).flat_map(|power| [10, 20, 25, 50].map(|number| number * 10_u64.pow(power) / 10))
}

/// The number behind `1:`.
pub fn denominator(word: &str) -> Option<u64> {
    let digits = word.strip_prefix("1:")?;
    let good = digits.bytes().all(|byte| byte.is_ascii_digit());
    let number = digits.parse().ok().filter(|_| good)?;
    (1..=DENOMINATOR_LIMIT).contains(&number).then_some(number)
}

/// The longest of 1, 2, 5, 10, 20, 50 and so on that is at most so long.
pub fn round_length(most: f64) -> u64 {
    let lengths = (0..18).flat_map(|power| [1, 2, 5].map(|number| number * 10_u64.pow(power)));
    lengths.take_while(|&length| length as f64 <= most).last().unwrap_or(1)
}

#[cfg(test)]
mod tests {
    use super::*;

    fn picked(across: i64, up: i64, denominator: u64) -> (String, u64) {
        let paper = Paper::pick([[-7, 5], [across - 7, up + 5]], denominator, MARGIN, &SIZES);
        (paper.words(), paper.denominator)
    }

    #[test]
    fn papers() {
        let cases = [
            (0, 0, "A4 portrait", 500),
            (9_300, 12_350, "A4 portrait", 500),
            (9_301, 12_350, "A3 portrait", 500),
            (13_650, 8_000, "A4 landscape", 500),
            (13_651, 8_000, "A3 landscape", 500),
            (40_850, 56_950, "A0 portrait", 500),
            (40_851, 56_950, "A1 portrait", 1000),
            (u32::MAX.into(), u32::MAX.into(), "A1 portrait", 100_000_000),
        ];
        for (across, up, words, denominator) in cases {
            assert_eq!(picked(across, up, 500), (words.into(), denominator), "{across} {up}");
        }
        assert_eq!(picked(40_851, 56_950, 507), ("A0 portrait".into(), 507));
    }

    #[test]
    fn scales() {
        assert_eq!(denominator("1:500"), Some(500));
        for word in ["500", "1:", "1:0", "1:+5", "1:-5", "1:1000001", "2:500", "1:5.5", ""] {
            assert_eq!(denominator(word), None, "{word}");
        }
        assert_eq!(customary().take(6).collect::<Vec<_>>(), [10, 20, 25, 50, 100, 200]);
        assert_eq!([0.5, 1.0, 4.9, 5.0, 1999.0].map(round_length), [1, 1, 2, 5, 1000]);
    }
}
