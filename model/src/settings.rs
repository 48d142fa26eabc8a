//! The six fractions of the tariff, which a `set` line gives for a season
//! (02, 3/14).

/// A numerator over a denominator.
#[derive(Clone, Copy, Debug, PartialEq, Eq)]
pub struct Fraction {
    pub numerator: u64,
    pub denominator: u64,
}

/// The six fractions, in the order of the `set` line.
#[derive(Clone, Copy, Debug, PartialEq, Eq)]
pub struct Settings {
    /// S of load A.
    pub seasonal: Fraction,
    /// P of S.
    pub priority: Fraction,
    /// Present hours that may lie above the metric.
    pub exceedance: Fraction,
    /// Hours of a load that may be missing.
    pub missing: Fraction,
    /// What the Long Term step gives of load A without ten-year evidence.
    pub without_evidence: Fraction,
    /// The most that the step gives of load A with such evidence, and the most
    /// of it that tier 1 gives.
    pub with_evidence: Fraction,
}

/// The largest numerator, and the largest denominator.
pub const MAX_PART: u64 = 1_000;

impl Fraction {
    pub const fn new(numerator: u64, denominator: u64) -> Fraction {
        Fraction {
            numerator,
            denominator,
        }
    }

    /// The fraction of a quantity, rounded down.
    ///
    /// A load is below 2^30 and a numerator at most 1,000, so the product fits.
    pub(crate) fn of(self, quantity: u64) -> u64 {
        self.numerator * quantity / self.denominator
    }

    /// Whether a part is more than the fraction of the whole, with no rounding.
    pub(crate) fn passed_by(self, part: u64, whole: u64) -> bool {
        part * self.denominator > whole * self.numerator
    }

    /// Numerator 0 to 1,000, denominator 1 to 1,000, the numerator not above it.
    fn is_legal(self) -> bool {
        (1..=MAX_PART).contains(&self.denominator) && self.numerator <= self.denominator
    }
}

impl Settings {
    /// The figures that hold without a `set` line.
    pub const PRESENT: Settings = Settings {
        seasonal: Fraction::new(3, 4),
        priority: Fraction::new(2, 3),
        exceedance: Fraction::new(1, 200),
        missing: Fraction::new(1, 50),
        without_evidence: Fraction::new(1, 5),
        with_evidence: Fraction::new(1, 2),
    };

    /// The fractions in their order.
    pub const fn in_order(&self) -> [Fraction; 6] {
        [
            self.seasonal,
            self.priority,
            self.exceedance,
            self.missing,
            self.without_evidence,
            self.with_evidence,
        ]
    }

    /// Fractions given in their order.
    pub const fn from_order(fractions: [Fraction; 6]) -> Settings {
        let [seasonal, priority, exceedance, missing, without_evidence, with_evidence] = fractions;
        Settings {
            seasonal,
            priority,
            exceedance,
            missing,
            without_evidence,
            with_evidence,
        }
    }

    /// The twelve numbers of a `set` line: each numerator with its denominator.
    pub fn numbers(&self) -> [u64; 12] {
        let fractions = self.in_order();
        std::array::from_fn(|place| match place % 2 {
            0 => fractions[place / 2].numerator,
            _ => fractions[place / 2].denominator,
        })
    }

    /// The settings that twelve numbers give.
    pub fn from_numbers(numbers: [u64; 12]) -> Settings {
        let fraction = |k: usize| Fraction::new(numbers[2 * k], numbers[2 * k + 1]);
        Settings::from_order(std::array::from_fn(fraction))
    }

    /// Whether no pair is bad.
    pub(crate) fn are_legal(&self) -> bool {
        self.in_order().into_iter().all(Fraction::is_legal)
    }
}

impl Default for Settings {
    fn default() -> Settings {
        Settings::PRESENT
    }
}

#[cfg(test)]
mod tests {
    use super::*;

    /// 02, 3/14: the bounds of a pair, on both sides of each.
    #[test]
    fn a_pair_is_legal_within_its_bounds() {
        for (numerator, denominator) in [(0, 1), (1, 1), (0, 1_000), (999, 1_000), (1_000, 1_000)] {
            assert!(Fraction::new(numerator, denominator).is_legal());
        }
        for (numerator, denominator) in [
            (0, 0),
            (1, 0),
            (2, 1),
            (1_000, 999),
            (0, 1_001),
            (1, 1_001),
            (1_001, 1_001),
            (1_001, 1_000),
            (u64::MAX, u64::MAX),
            (1, u64::MAX),
            (u64::MAX, 1),
        ] {
            assert!(!Fraction::new(numerator, denominator).is_legal());
        }
    }

    /// 02, 3/14: each pair by itself decides whether the settings are legal.
    #[test]
    fn one_bad_pair_of_six_is_enough() {
        assert!(Settings::PRESENT.are_legal());
        for place in 0..6 {
            let mut fractions = Settings::PRESENT.in_order();
            fractions[place] = Fraction::new(3, 2);
            assert!(!Settings::from_order(fractions).are_legal());
        }
    }

    /// 02, 3/14: the twelve numbers stand in the order of the paper.
    #[test]
    fn numbers_stand_in_order() {
        let present = [3, 4, 2, 3, 1, 200, 1, 50, 1, 5, 1, 2];
        assert_eq!(Settings::PRESENT.numbers(), present);
        let numbers = std::array::from_fn(|place| place as u64);
        let settings = Settings::from_numbers(numbers);
        assert_eq!(settings.numbers(), numbers);
        assert_eq!(settings.seasonal, Fraction::new(0, 1));
        assert_eq!(settings.priority, Fraction::new(2, 3));
        assert_eq!(settings.exceedance, Fraction::new(4, 5));
        assert_eq!(settings.missing, Fraction::new(6, 7));
        assert_eq!(settings.without_evidence, Fraction::new(8, 9));
        assert_eq!(settings.with_evidence, Fraction::new(10, 11));
    }

    /// 02, 3/14: a fraction of a quantity is rounded down; whether it is passed
    /// is asked of the numbers as they are.
    #[test]
    fn fractions_round_down_and_are_passed_without_rounding() {
        let fraction = Fraction::new(3, 7);
        assert_eq!(
            [6, 7, 8, 9, 10].map(|whole| fraction.of(whole)),
            [2, 3, 3, 3, 4]
        );
        assert!(!fraction.passed_by(3, 7) && fraction.passed_by(4, 7));
        // 3/7 of 8 is above 3, and 3/7 of 6 below 3.
        assert!(!fraction.passed_by(3, 8) && fraction.passed_by(3, 6));
        assert_eq!(Fraction::new(0, 7).of(1_000), 0);
        assert_eq!(Fraction::new(1_000, 1_000).of(1_000), 1_000);
    }
}
