// Sums of f32 numbers without rounding.

/// A sum of numbers within ±2^40: those whose last place is 2^-60 or more in units of that, the others, whose 24 digits then end below 2^-37, in
/// units of 2^-149, the least place that there is. No number is above 2^112 such units, so 2^15 of them can be added.
#[derive(Clone, Copy, Default)]
pub struct Exact {
    high: i128,
    low: i128,
}

impl Exact {
    pub fn add(&mut self, x: f32) {
        assert!(x.abs() <= f32::powi(2.0, 40));
        let (bits, sign) = (x.to_bits(), if x.is_sign_negative() { -1 } else { 1 });
        // the number is digits * 2^(place - 149)
        let (exponent, fraction) = (bits >> 23 & 0xFF, (bits & 0x7F_FFFF) as i128);
        let (digits, place) = if exponent == 0 { (fraction, 0) } else { (fraction | 1 << 23, exponent - 1) };
        if place < 89 {
            self.low += sign * digits << place;
        } else {
            self.high += sign * digits << (place - 89);
        }
    }
    pub fn sub(&mut self, x: f32) {
        self.add(-x);
    }
    pub fn less(self, other: Exact) -> Exact {
        Exact { high: self.high - other.high, low: self.low - other.low }
    }
    pub fn is_above_zero(self) -> bool {
        // the low part's whole 2^-60s to the high one; what is left of it is from 0 up to one such
        let (high, left) = (self.high + (self.low >> 89), self.low & ((1 << 89) - 1));
        high > 0 || (high == 0 && left > 0)
    }
    /// About.
    pub fn near(self) -> f64 {
        self.high as f64 * f64::powi(2.0, -60) + self.low as f64 * f64::powi(2.0, -149)
    }
}

/// That the sums are exact where f32 and f64 are not: pairs (is above zero, must be).
pub fn tried() -> Vec<(bool, bool)> {
    let above = |list: &[f32]| {
        let mut sum = Exact::default();
        list.iter().for_each(|&x| sum.add(x));
        sum.is_above_zero()
    };
    let least = f32::from_bits(1);
    let apart = |list: &[f32], other: &[f32]| {
        let [mut a, mut b] = [Exact::default(); 2];
        list.iter().for_each(|&x| a.add(x));
        other.iter().for_each(|&x| b.add(x));
        a.less(b).is_above_zero()
    };
    vec![
        (apart(&[1e6, least], &[1e6]), true),
        (apart(&[1e6], &[least, 1e6]), false),
        (apart(&[1.0, 1e6], &[1e6, 1.0]), false),
        (above(&[]), false),
        (above(&[0.0, -0.0]), false),
        (above(&[least]), true),
        (above(&[-least]), false),
        (above(&[1e6, -1e6, least]), true),
        (above(&[1e6, -least, -1e6]), false),
        (above(&[1e6, -least, -1e6, least]), false),
        (above(&[1.0, -0.99999994, -f32::powi(2.0, -24)]), false),
        (above(&[1.0, -0.99999994, -f32::powi(2.0, -24), least]), true),
        (above(&[f32::powi(2.0, -60), -f32::powi(2.0, -61), -f32::powi(2.0, -61)]), false),
        (above(&[f32::powi(2.0, -60), -f32::powi(2.0, -61), -f32::powi(2.0, -61), -least]), false),
        (above(&[f32::powi(2.0, -60), -f32::powi(2.0, -61), f32::powi(2.0, -100), -f32::powi(2.0, -61)]), true),
        (above(&[f32::MIN_POSITIVE, -least, -(f32::MIN_POSITIVE - least)]), false),
        (above(&[-f32::powi(2.0, 29), f32::powi(2.0, 29), 1e-40, -1e-41]), true),
    ]
}
