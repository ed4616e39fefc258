//! Floating-point numbers of 80 bits, with which Redis on x86-64 adds numbers that may have a fraction. They are read,
//! added and written with the same rounding as by the processor and its C library.
use std::cmp::Ordering;

/// The most bytes of a number that is read, as in Redis.
const MAX_DIGITS: usize = 5 * 1024 - 1;
/// The most digits that are written behind the point.
const DECIMALS: u32 = 17;
/// The bits of a mantissa.
const BITS: u32 = 64;
/// The least and the greatest exponent of a mantissa that is an integer.
const LEAST_EXPONENT: i64 = -16_445;
const GREATEST_EXPONENT: i64 = 16_320;
/// If a number has a digit before the point, it is out of range beyond these powers of ten.
const MOST_TENS: i64 = 5_000;
/// How many decimal digits fit into one limb.
const LIMB_DIGITS: u32 = 19;
const LIMB: u64 = 10_u64.pow(LIMB_DIGITS);

/// A number of 80 bits.
#[derive(Clone, Copy, Debug, PartialEq, Eq)]
pub enum LongDouble {
    /// Whether it is negative, its mantissa, and the power of two by which the mantissa is multiplied. The first bit of
    /// the mantissa is 1, unless the exponent is the least one.
    Finite(bool, u64, i64),
    /// Infinity, and whether it is negative. It may be read, but is never a sum.
    Infinite(bool),
}

impl LongDouble {
    /// Parses a number, in decimal or hexadecimal. Returns nothing if the text isn't a number, or if the number is out
    /// of range.
    pub fn parse(text: &[u8]) -> Option<LongDouble> {
        if text.len() > MAX_DIGITS {
            return None;
        }
        let (is_negative, digits) = match text {
            [b'-', digits @ ..] => (true, digits),
            [b'+', digits @ ..] => (false, digits),
            digits => (false, digits),
        };
        match digits.to_ascii_lowercase().as_slice() {
            b"inf" | b"infinity" => Some(LongDouble::Infinite(is_negative)),
            [b'0', b'x', digits @ ..] => parse_in(Radix::Sixteen, digits, is_negative),
            digits => parse_in(Radix::Ten, digits, is_negative),
        }
    }

    /// Returns the sum, or nothing if it is infinite.
    pub fn plus(self, other: LongDouble) -> Option<LongDouble> {
        let (LongDouble::Finite(..), LongDouble::Finite(..)) = (self, other) else {
            return None;
        };
        let (high, low) = match self.exponent() >= other.exponent() {
            true => (self, other),
            false => (other, self),
        };
        // There is room for a carry, and for all bits by which the smaller number may still decide how the sum is
        // rounded.
        let room = i64::from(BITS - 2);
        let exponent = high.exponent() - room;
        let (first, second) = (high.shifted(exponent), low.shifted(exponent));
        let sum = first + second;
        rounded(sum < 0, sum.unsigned_abs(), exponent)
    }

    /// Returns its digits as Redis writes them, without zeros at the end of a fraction.
    pub fn digits(self) -> Vec<u8> {
        let LongDouble::Finite(is_negative, mantissa, exponent) = self else {
            return b"inf".to_vec();
        };
        let mut text = match exponent {
            0.. => Big::new(mantissa).shifted(exponent as usize).digits(),
            _ => with_fraction(mantissa, exponent.unsigned_abs()),
        };
        if is_negative && text != b"0" {
            text.insert(0, b'-');
        }
        text
    }

    fn zero(is_negative: bool) -> LongDouble {
        LongDouble::Finite(is_negative, 0, LEAST_EXPONENT)
    }

    fn exponent(self) -> i64 {
        match self {
            LongDouble::Finite(_, _, exponent) => exponent,
            LongDouble::Infinite(_) => GREATEST_EXPONENT,
        }
    }

    /// Returns the number in units of two to this exponent. If bits below that are lost, the last bit is set.
    fn shifted(self, exponent: i64) -> i128 {
        let LongDouble::Finite(is_negative, mantissa, own) = self else {
            return 0;
        };
        let mantissa = u128::from(mantissa);
        let shifted = match own - exponent {
            left @ 0.. => mantissa << left,
            right => {
                let right = right.unsigned_abs().min(127);
                let is_cut = mantissa & ((1 << right) - 1) != 0;
                mantissa >> right | u128::from(is_cut)
            }
        };
        // It has a bit less than an `i128`, so there is room for a sum.
        match is_negative {
            true => -(shifted as i128),
            false => shifted as i128,
        }
    }
}

impl From<i64> for LongDouble {
    fn from(number: i64) -> LongDouble {
        let number = rounded(number < 0, number.unsigned_abs().into(), 0);
        number.unwrap_or(LongDouble::zero(false))
    }
}

/// The base in which a number is written.
#[derive(Clone, Copy, PartialEq, Eq)]
enum Radix {
    Ten,
    Sixteen,
}

impl Radix {
    fn number(self) -> u32 {
        match self {
            Radix::Ten => 10,
            Radix::Sixteen => 16,
        }
    }

    /// Returns how many digits surely fit into a limb. The base to the power of so many fits, too.
    fn limb_digits(self) -> usize {
        match self {
            Radix::Ten => LIMB_DIGITS as usize,
            Radix::Sixteen => 15,
        }
    }

    /// Returns the small letter that precedes the exponent.
    fn mark(self) -> u8 {
        match self {
            Radix::Ten => b'e',
            Radix::Sixteen => b'p',
        }
    }
}

/// Returns the number with these digits, in small letters; or nothing if the text is malformed.
fn parse_in(base: Radix, text: &[u8], is_negative: bool) -> Option<LongDouble> {
    let end = text.iter().position(|it| *it == base.mark());
    let (written, exponent) = match end {
        Some(end) => (&text[..end], exponent_of(&text[end + 1..])?),
        None => (text, 0),
    };
    let (mut digits, mut behind, mut is_fraction) = (Vec::new(), 0, false);
    for letter in written {
        match (char::from(*letter).to_digit(base.number()), letter) {
            (Some(digit), _) => {
                digits.push(digit);
                behind += i64::from(is_fraction);
            }
            (None, b'.') if !is_fraction => is_fraction = true,
            (None, _) => return None,
        }
    }
    if digits.is_empty() {
        return None;
    }
    let zeros = digits.iter().take_while(|it| **it == 0).count();
    let digits = &digits[zeros..];
    if digits.is_empty() {
        return Some(LongDouble::zero(is_negative));
    }
    let number = Big::of(digits, base);
    let found = match base {
        Radix::Sixteen => number.over(Big::new(1), exponent.saturating_sub(4 * behind)),
        Radix::Ten => times_ten(number, digits.len(), exponent.saturating_sub(behind))?,
    };
    let (mantissa, exponent) = found;
    let number = rounded(is_negative, mantissa, exponent)?;
    // A number that is too small for any bit is out of range.
    (number != LongDouble::zero(is_negative)).then_some(number)
}

/// Returns the exponent behind the mark, or one that has the same effect.
fn exponent_of(text: &[u8]) -> Option<i64> {
    let (is_negative, digits) = match text {
        [b'-', digits @ ..] => (true, digits),
        [b'+', digits @ ..] => (false, digits),
        digits => (false, digits),
    };
    let are_digits = !digits.is_empty() && digits.iter().all(u8::is_ascii_digit);
    let add = |sum: i64, digit: &u8| (10 * sum + i64::from(digit - b'0')).min(1 << 40);
    let number = digits.iter().filter(|_| are_digits).fold(0, add);
    are_digits.then_some(if is_negative { -number } else { number })
}

/// Returns the number with so many digits, times this power of ten; or nothing if it is out of range.
fn times_ten(number: Big, digits: usize, tens: i64) -> Option<(u128, i64)> {
    let before_point = tens.saturating_add(digits as i64);
    if !(-MOST_TENS..MOST_TENS).contains(&before_point) {
        return None;
    }
    Some(match tens {
        0.. => number.times_ten(tens as u32).over(Big::new(1), 0),
        _ => number.over(Big::new(1).times_ten(tens.unsigned_abs() as u32), 0),
    })
}

/// Returns the number nearest to this one times two to the exponent. If two are equally near, it is the one whose last
/// bit is 0. Returns nothing if the number is infinite.
fn rounded(is_negative: bool, number: u128, exponent: i64) -> Option<LongDouble> {
    let bits = i64::from(u128::BITS - number.leading_zeros());
    let drop = (bits - i64::from(BITS))
        .max(LEAST_EXPONENT - exponent)
        .max(0);
    if drop > i64::from(u128::BITS - 1) {
        return Some(LongDouble::zero(is_negative));
    }
    let (mut mantissa, mut exponent) = (half_even(number, drop as u32), exponent + drop);
    if mantissa >> BITS != 0 {
        mantissa >>= 1;
        exponent += 1;
    }
    // A number with fewer bits than a mantissa may still be written with a lower exponent.
    let unused = i64::from((mantissa as u64).leading_zeros());
    match mantissa {
        0 => Some(LongDouble::zero(is_negative)),
        _ if exponent - unused > GREATEST_EXPONENT => None,
        _ => {
            let more = unused.min(exponent - LEAST_EXPONENT).max(0);
            let mantissa = (mantissa as u64) << more;
            Some(LongDouble::Finite(is_negative, mantissa, exponent - more))
        }
    }
}

/// Returns the number without so many last bits, rounded to the nearest. If two are equally near, it is the even one.
fn half_even(number: u128, drop: u32) -> u128 {
    if drop == 0 {
        return number;
    }
    let (kept, rest, half) = (number >> drop, number & ((1 << drop) - 1), 1 << (drop - 1));
    match rest.cmp(&half) {
        Ordering::Less => kept,
        Ordering::Greater => kept + 1,
        Ordering::Equal => kept + (kept & 1),
    }
}

/// Returns the digits of the mantissa divided by two to `below`, with those behind the point.
fn with_fraction(mantissa: u64, below: u64) -> Vec<u8> {
    let scale = 10_u128.pow(DECIMALS);
    let number = u128::from(mantissa) * scale;
    let number = match u32::try_from(below) {
        Ok(below) if below < u128::BITS => half_even(number, below),
        _ => 0,
    };
    let text = format!("{}.{:017}", number / scale, number % scale);
    let text = text.trim_end_matches('0').trim_end_matches('.');
    text.as_bytes().to_vec()
}

/// An integer of any size, as its limbs, the least significant first.
#[derive(Clone, Debug, PartialEq, Eq)]
struct Big(Vec<u64>);

impl Big {
    fn new(number: u64) -> Big {
        Big(vec![number])
    }

    /// Returns the number with these digits in this base.
    fn of(digits: &[u32], base: Radix) -> Big {
        let mut number = Big::new(0);
        let radix = u64::from(base.number());
        for part in digits.chunks(base.limb_digits()) {
            let (factor, more) = part.iter().fold((1, 0), |(factor, more), digit| {
                (factor * radix, more * radix + u64::from(*digit))
            });
            number.multiply_add(factor, more);
        }
        number
    }

    /// Multiplies the number by the factor, and adds to it.
    fn multiply_add(&mut self, factor: u64, more: u64) {
        let mut carry = u128::from(more);
        for limb in &mut self.0 {
            let product = u128::from(*limb) * u128::from(factor) + carry;
            *limb = product as u64;
            carry = product >> 64;
        }
        if carry > 0 {
            self.0.push(carry as u64);
        }
    }

    fn times_ten(mut self, mut tens: u32) -> Big {
        while tens > 0 {
            let at_once = tens.min(LIMB_DIGITS);
            self.multiply_add(10_u64.pow(at_once), 0);
            tens -= at_once;
        }
        self
    }

    fn bits(&self) -> usize {
        let top = self.0.iter().rposition(|it| *it != 0);
        top.map_or(0, |it| 64 * (it + 1) - self.0[it].leading_zeros() as usize)
    }

    /// Returns the number times two to the power of `left`.
    fn shifted(&self, left: usize) -> Big {
        let mut limbs = vec![0; left / 64];
        let (bits, mut carry) = (left % 64, 0);
        for limb in &self.0 {
            let wide = u128::from(*limb) << bits;
            limbs.push(wide as u64 | carry);
            carry = (wide >> 64) as u64;
        }
        limbs.push(carry);
        Big(limbs)
    }

    fn halve(&mut self) {
        let mut carry = 0;
        for limb in self.0.iter_mut().rev() {
            let low = *limb & 1;
            *limb = *limb >> 1 | carry << 63;
            carry = low;
        }
    }

    fn compare(&self, other: &Big) -> Ordering {
        let limb = |of: &Big, at: usize| of.0.get(at).copied().unwrap_or(0);
        let places = (0..self.0.len().max(other.0.len())).rev();
        let differ = places.map(|it| limb(self, it).cmp(&limb(other, it)));
        differ
            .into_iter()
            .find(|it| it.is_ne())
            .unwrap_or(Ordering::Equal)
    }

    /// Subtracts a number that isn't greater.
    fn subtract(&mut self, other: &Big) {
        let mut borrow = 0;
        for (at, limb) in self.0.iter_mut().enumerate() {
            let low = other.0.get(at).copied().unwrap_or(0);
            let (first, is_below) = limb.overflowing_sub(low);
            let (second, is_below_by_one) = first.overflowing_sub(borrow);
            *limb = second;
            borrow = u64::from(is_below | is_below_by_one);
        }
    }

    /// Returns the quotient times two to the exponent, with more bits than a mantissa, and its own exponent. If there
    /// is a remainder, the last bit is 1.
    fn over(self, divisor: Big, exponent: i64) -> (u128, i64) {
        let wanted = BITS as usize + 2;
        let (bits, below) = (self.bits(), divisor.bits());
        let left = (wanted + below).saturating_sub(bits);
        let right = bits.saturating_sub(wanted + below);
        let (mut rest, mut divisor) = (self.shifted(left), divisor.shifted(right + wanted + 1));
        let mut quotient = 0;
        for _ in 0..=wanted + 1 {
            quotient <<= 1;
            if rest.compare(&divisor).is_ge() {
                rest.subtract(&divisor);
                quotient |= 1;
            }
            divisor.halve();
        }
        let has_rest = rest.bits() > 0;
        let exponent = exponent.saturating_add(right as i64 - left as i64);
        (quotient | u128::from(has_rest), exponent)
    }

    fn digits(mut self) -> Vec<u8> {
        let mut parts = Vec::new();
        while self.bits() > 0 {
            let mut rest = 0;
            for limb in self.0.iter_mut().rev() {
                let whole = rest << 64 | u128::from(*limb);
                *limb = (whole / u128::from(LIMB)) as u64;
                rest = whole % u128::from(LIMB);
            }
            parts.push(rest);
            while self.0.last() == Some(&0) {
                self.0.pop();
            }
        }
        let first = parts.pop().unwrap_or(0).to_string();
        let rest = parts.iter().rev().map(|it| format!("{it:019}"));
        rest.fold(first, |all, it| all + &it).into_bytes()
    }
}

#[cfg(test)]
mod tests {
    use super::*;

    fn sum(one: &str, other: &str) -> String {
        let parsed = [one, other].map(|it| LongDouble::parse(it.as_bytes()).unwrap());
        let sum = parsed[0].plus(parsed[1]);
        sum.map_or("infinite".into(), |it| {
            String::from_utf8(it.digits()).unwrap()
        })
    }

    #[test]
    fn sums_are_those_of_redis() {
        for (one, other, told) in [
            ("10.50", "0.1", "10.6"),
            ("5.0e3", "2.0e2", "5200"),
            ("0.1", "0.2", "0.3"),
            ("3", "-5", "-2"),
            ("0", "-1e-30", "0"),
            ("-0", "-0", "0"),
            ("1", "1e-17", "1.00000000000000001"),
            ("9223372036854775807", "1", "9223372036854775808"),
            ("18446744073709551615", "1", "18446744073709551616"),
            ("0x1.8p3", ".5", "12.5"),
            ("1e4932", "1e4932", "infinite"),
            ("inf", "1", "infinite"),
        ] {
            assert_eq!(sum(one, other), told, "{one} + {other}");
        }
        assert_eq!(sum("1e20", "1"), "100000000000000000000");
        assert_eq!(sum("1e4000", "0").len(), 4_000);
    }

    #[test]
    fn many_digits_at_once_are_the_same_number() {
        for base in [Radix::Ten, Radix::Sixteen] {
            let radix = base.number();
            for length in 0..100 {
                let digits = (0..length).map(|it| (7 * it + 9) % radix);
                let (greatest, digits) = (vec![radix - 1; length as usize], digits.collect());
                for digits in [greatest, digits] {
                    let mut number = Big::new(0);
                    for digit in &digits {
                        number.multiply_add(radix.into(), (*digit).into());
                    }
                    assert_eq!(Big::of(&digits, base), number, "{digits:?}");
                }
            }
        }
    }

    #[test]
    fn what_is_no_number_is_refused() {
        for text in [
            "",
            " 1",
            "1 ",
            "+",
            "-",
            ".",
            "1e",
            "1e+",
            "e1",
            "0x",
            "0x.p1",
            "0x1p",
            "nan",
            "1_0",
            "1..2",
            "infx",
            "1e4933",
            "1e-4952",
            "1e99999999999999999999",
            "--1",
            "1\0",
        ] {
            assert_eq!(LongDouble::parse(text.as_bytes()), None, "{text}");
        }
        let long = |count: usize| LongDouble::parse(&vec![b'0'; count]).is_some();
        assert!(long(MAX_DIGITS) && !long(MAX_DIGITS + 1));
        for text in [
            "1e-4950", "1e4932", "5.", ".5", "+1", "-0e99999", "0X1P-3", "1E5",
        ] {
            assert!(LongDouble::parse(text.as_bytes()).is_some(), "{text}");
        }
    }
}
