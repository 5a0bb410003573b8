//! Exact values and the rounding rule.

/// An exact value; the denominator is above 0.
#[derive(Clone, Copy, Debug)]
pub struct Fraction {
    pub numerator: i128,
    pub denominator: i128,
}

impl Fraction {
    pub fn new(numerator: i128, denominator: i128) -> Fraction {
        assert!(denominator > 0);
        Fraction { numerator, denominator }
    }

    /// The value plus one half, rounded down.
    pub fn rounded(self) -> i64 {
        let floor = (2 * self.numerator + self.denominator).div_euclid(2 * self.denominator);
        i64::try_from(floor).expect("readings are small")
    }

    /// Whether the value lies midway between two whole numbers.
    pub fn is_tie(self) -> bool {
        (2 * self.numerator + self.denominator) % (2 * self.denominator) == 0
    }
}

impl PartialEq for Fraction {
    fn eq(&self, other: &Fraction) -> bool {
        self.numerator * other.denominator == other.numerator * self.denominator
    }
}
