//! Natural numbers of fixed size, for exact sums of products of doubles.

/// Limbs of 64 bits, lowest first. In units of 2^-2148 a product of two doubles is below 2^4196, a sum of 2^24 of them below
/// 2^4220, and 2^52 times that below 2^4272.
const LIMBS: usize = 67;

#[derive(Clone, PartialEq, Eq)]
pub struct Whole([u64; LIMBS]);

impl Whole {
    pub const ZERO: Whole = Whole([0; LIMBS]);

    /// Adds m * 2^shift, for an m below 2^128.
    pub fn add(&mut self, m: u128, shift: usize) {
        let (mut place, bits) = (shift / 64, shift % 64);
        let (low, high) = (m << bits, if bits == 0 { 0 } else { m >> (128 - bits) });
        let mut carry = false;
        for part in [low as u64, (low >> 64) as u64, high as u64] {
            (self.0[place], carry) = plus(self.0[place], part, carry);
            place += 1;
        }
        while carry {
            (self.0[place], carry) = plus(self.0[place], 0, carry);
            place += 1;
        }
    }

    /// The larger less the smaller.
    pub fn distance(&self, other: &Whole) -> Whole {
        let (more, less) = if self.at_most(other) { (other, self) } else { (self, other) };
        let mut rest = Whole::ZERO;
        let mut borrow = false;
        for i in 0..LIMBS {
            let (d, first) = more.0[i].overflowing_sub(less.0[i]);
            let (d, second) = d.overflowing_sub(borrow as u64);
            (rest.0[i], borrow) = (d, first || second);
        }
        assert!(!borrow);
        rest
    }

    pub fn times(&self, k: u64) -> Whole {
        let mut product = Whole::ZERO;
        let mut carry = 0;
        for i in 0..LIMBS {
            let limb = u128::from(self.0[i]) * u128::from(k) + carry;
            (product.0[i], carry) = (limb as u64, limb >> 64);
        }
        assert!(carry == 0);
        product
    }

    pub fn at_most(&self, other: &Whole) -> bool {
        self.0.iter().rev().le(other.0.iter().rev())
    }

    /// Rounded: a fraction of the two highest limbs, and the power of two that it is to be multiplied with.
    fn rounded(&self) -> (f64, i32) {
        let top = self.0.iter().rposition(|limb| *limb != 0).unwrap_or(0).max(1);
        let limbs = (u128::from(self.0[top]) << 64) | u128::from(self.0[top - 1]);
        (limbs as f64, 64 * (top as i32 - 1))
    }

    /// self / other, rounded; 0 where both are 0.
    pub fn part_of(&self, other: &Whole) -> f64 {
        if *self == Whole::ZERO {
            return 0.0;
        }
        let ((a, i), (b, j)) = (self.rounded(), other.rounded());
        a / b * 2_f64.powi(i - j)
    }
}

fn plus(a: u64, b: u64, carry: bool) -> (u64, bool) {
    let (sum, first) = a.overflowing_add(b);
    let (sum, second) = sum.overflowing_add(carry as u64);
    (sum, first || second)
}
