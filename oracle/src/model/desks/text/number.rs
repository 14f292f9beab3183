//! Numbers as a journal has them: decimals of at most 18 digits, and the f32 that
//! is nearest to one, worked out in whole numbers.

/// At most so many digits, zeros in front not counted, and so many after the point.
pub const MOST: usize = 18;

#[derive(Debug, Clone, Copy, PartialEq, Eq)]
pub struct Decimal {
    minus: bool,
    /// All digits as one whole number.
    digits: u64,
    /// How many of them stand after the point.
    places: usize,
}

impl Decimal {
    /// A sign or none, and digits with a point among them or none.
    pub fn read(word: &[u8]) -> Option<Self> {
        let (minus, rest) = match word {
            [b'-', rest @ ..] => (true, rest),
            [b'+', rest @ ..] => (false, rest),
            _ => (false, word),
        };
        let (before, after) = match rest.iter().position(|byte| *byte == b'.') {
            Some(point) => (&rest[..point], &rest[point + 1..]),
            None => (rest, &[][..]),
        };
        let all = [before, after].concat();
        let counted = all.iter().skip_while(|byte| **byte == b'0').count();
        if all.is_empty() || counted > MOST || after.len() > MOST {
            return None;
        }
        if !all.iter().all(u8::is_ascii_digit) {
            return None;
        }
        let digits = all
            .iter()
            .fold(0, |n, byte| 10 * n + u64::from(byte - b'0'));
        Some(Self {
            minus,
            digits,
            places: after.len(),
        })
    }

    /// Without a minus sign, with no digit after a point, and below 2^32.
    pub fn whole(self) -> Option<u32> {
        if self.minus || self.places > 0 {
            return None;
        }
        u32::try_from(self.digits).ok()
    }

    /// The bits of the nearest f32, a tie to the even one. With at most 18 digits
    /// none is too large, and none but 0 too small to have 24 bits.
    pub fn bits(self) -> u32 {
        let sign = u32::from(self.minus) << 31;
        if self.digits == 0 {
            return sign;
        }
        let (over, under, exponent) = self.scaled();
        let nearest = half_even(over, under);
        // The highest of the 24 bits counts one exponent, and 2^24 one more.
        let exponent = u32::try_from(149 + exponent).expect("large enough");
        sign | ((exponent << 23) + nearest)
    }

    /// The size, which is not 0, as over / under times 2^exponent, with over / under
    /// brought to 24 bits before the point.
    fn scaled(self) -> (u128, u128, i32) {
        let mut over = u128::from(self.digits);
        let mut under = 10u128.pow(self.places as u32);
        let mut exponent = 0;
        while over < under << 23 {
            over <<= 1;
            exponent -= 1;
        }
        while over >= under << 24 {
            under <<= 1;
            exponent += 1;
        }
        (over, under, exponent)
    }

    /// Of a number in the middle of two f32 whether the even one is further from 0.
    pub fn is_tied_up(self) -> Option<bool> {
        if self.digits == 0 {
            return None;
        }
        let (over, under, _) = self.scaled();
        let is_tie = 2 * (over % under) == under;
        is_tie.then_some(over / under % 2 == 1)
    }

    /// The digits that were given, zeros in front left out, one before a point put
    /// in.
    pub fn text(self) -> String {
        let sign = if self.minus { "-" } else { "" };
        let digits = format!("{:0>1$}", self.digits, self.places + 1);
        let (before, after) = digits.split_at(digits.len() - self.places);
        let point = if after.is_empty() { "" } else { "." };
        format!("{sign}{before}{point}{after}")
    }
}

/// The whole number nearest to a fraction below 2^24, of two as near the even one.
fn half_even(over: u128, under: u128) -> u32 {
    let (whole, rest) = (over / under, over % under);
    let up = match (2 * rest).cmp(&under) {
        std::cmp::Ordering::Less => false,
        std::cmp::Ordering::Equal => whole % 2 == 1,
        std::cmp::Ordering::Greater => true,
    };
    whole as u32 + u32::from(up)
}

#[cfg(test)]
mod tests;
