//! Scaled numbers, the form of weights and shares.

/// `m` × 2^`e`: `m` is from 2^31 to 2^32 - 1 and `e` from -16384 to 16383; or Zero, both 0. Weights and shares are Zero outside the
/// closed set and nowhere else. This pair is the result itself; the conversions below are a convenience, rounded, and no contract
/// speaks of them.
#[derive(Clone, Copy, Debug, PartialEq, Eq, Hash)]
pub struct Scaled {
    pub m: u32,
    pub e: i32,
}

impl Scaled {
    /// Whether this is Zero: of a weight or a share, whether its state is outside the closed set and left for good. A share too small
    /// for an `f64` is not.
    pub fn is_zero(self) -> bool {
        self.m == 0
    }

    /// Convenience: the value as an `f64`. It is exact in the range of normal `f64` numbers. Below about 1e-308 it loses digits
    /// and then is 0; above about 1.8e308 it is infinite. `log10` has neither limit.
    pub fn to_f64(self) -> f64 {
        // In two factors, so that neither leaves the range before the value does.
        let half = self.e / 2;
        f64::from(self.m) * 2f64.powi(half) * 2f64.powi(self.e - half)
    }

    /// Convenience: the decimal logarithm of the value, for values that an `f64` cannot hold. Of Zero it is negative
    /// infinity.
    pub fn log10(self) -> f64 {
        f64::from(self.m).log10() + f64::from(self.e) * std::f64::consts::LOG10_2
    }
}
