//! Amounts, which are printed where they are asked for and nowhere else.
use core::error::Error;
use core::fmt::{self, Write};
use core::str::FromStr;

/// A Qty, in thousandths: megawatts in a Beschaffungsanforderung, euros by the series' MeasurementUnit in a Kostenblatt, megawatts or a share by
/// it in a NetworkConstraintDocument.
///
/// [`Display`](fmt::Display) writes the exact decimal number, with as few decimals as it needs. A precision asks for at least so many, up to three;
/// none is dropped and nothing is rounded. [`Debug`](fmt::Debug) writes no digit, so that no amount gets into a log by mistake. [`FromStr`] reads such a
/// number back exactly: perhaps a minus, digits, and perhaps a point with one to three digits.
///
/// ```
/// use lumintayag::Amount;
///
/// let price = Amount::from_thousandths(-3_750);
/// assert_eq!(price.to_string(), "-3.75");
/// assert_eq!(format!("{price:.3}"), "-3.750");
/// assert_eq!(format!("{price:>8.1}"), "   -3.75");
/// assert_eq!(format!("{price:?}"), "Amount(..)");
/// assert!(price < Amount::from_thousandths(0));
/// assert_eq!("-3.75".parse(), Ok(price));
/// ```
#[derive(Clone, Copy, Default, PartialEq, Eq, PartialOrd, Ord, Hash)]
pub struct Amount(i64);

impl Amount {
    /// The amount of so many thousandths: 12500 is 12.5.
    pub const fn from_thousandths(thousandths: i64) -> Self {
        Amount(thousandths)
    }

    /// How many thousandths it has: 12.5 has 12500. In a document they are below 10^15 in size.
    pub const fn thousandths(self) -> i64 {
        self.0
    }
}

impl fmt::Debug for Amount {
    fn fmt(&self, f: &mut fmt::Formatter<'_>) -> fmt::Result {
        f.write_str("Amount(..)")
    }
}

impl fmt::Display for Amount {
    fn fmt(&self, f: &mut fmt::Formatter<'_>) -> fmt::Result {
        let size = self.0.unsigned_abs();
        decimal(f, self.0 < 0, size / 1000, size % 1000)
    }
}

/// A text that is no [`Amount`]. It holds nothing of the text.
#[derive(Clone, Copy, Debug, PartialEq, Eq, Hash)]
pub struct NotAnAmount;

impl fmt::Display for NotAnAmount {
    fn fmt(&self, f: &mut fmt::Formatter<'_>) -> fmt::Result {
        f.pad("not an amount with at most three decimals")
    }
}

impl Error for NotAnAmount {}

impl FromStr for Amount {
    type Err = NotAnAmount;

    fn from_str(text: &str) -> Result<Self, NotAnAmount> {
        thousandths_of(text.as_bytes()).map(Amount).ok_or(NotAnAmount)
    }
}

fn thousandths_of(text: &[u8]) -> Option<i64> {
    let (sign, size) = text.strip_prefix(b"-").map_or((1, text), |size| (-1, size));
    let (whole, fraction) = match size.iter().position(|&b| b == b'.') {
        Some(point) => (size.get(..point)?, size.get(point + 1..)?),
        None => (size, &b"0"[..]),
    };
    if whole.is_empty() || fraction.is_empty() || fraction.len() > 3 {
        return None;
    }
    let thousandths = fraction.iter().chain(b"000").take(3);
    whole.iter().chain(thousandths).try_fold(0_i64, |sum, &digit| {
        let digit = char::from(digit).to_digit(10)?;
        sum.checked_mul(10)?.checked_add(sign * i64::from(digit))
    })
}

/// A number as the type's own page says it: a sign, the whole part of its size, and thousandths from 0 to 999.
pub(crate) fn decimal(f: &mut fmt::Formatter<'_>, negative: bool, whole: u64, rest: u64) -> fmt::Result {
    let needed = match rest {
        0 => 0,
        _ if rest % 100 == 0 => 1,
        _ if rest % 10 == 0 => 2,
        _ => 3,
    };
    let mut text = Text { bytes: [0; 24], len: 0 };
    match f.precision().unwrap_or(0).max(needed) {
        0 => write!(text, "{whole}"),
        1 => write!(text, "{whole}.{}", rest / 100),
        2 => write!(text, "{whole}.{:02}", rest / 10),
        _ => write!(text, "{whole}.{rest:03}"),
    }?;
    f.pad_integral(!negative, "", text.as_str())
}

/// A line that is short enough for every u64, a point and three digits.
struct Text {
    bytes: [u8; 24],
    len: usize,
}

impl Text {
    fn as_str(&self) -> &str {
        self.bytes.get(..self.len).and_then(|bytes| core::str::from_utf8(bytes).ok()).unwrap_or_default()
    }
}

impl Write for Text {
    fn write_str(&mut self, s: &str) -> fmt::Result {
        for byte in s.bytes() {
            *self.bytes.get_mut(self.len).ok_or(fmt::Error)? = byte;
            self.len += 1;
        }
        Ok(())
    }
}
