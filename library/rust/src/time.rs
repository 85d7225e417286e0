//! When a sheet's period begins and ends, by the minute and in UTC. No time library is needed for that.
use core::fmt;

const DAY: u32 = 24 * 60;
const QUARTER: u32 = 15;
/// Seconds from 1970-01-01T00:00Z to 2000-01-01T00:00Z.
const UNIX: i64 = 946_684_800;
/// Days from a leap year up to the next one. From 2000 to 2099 every fourth year is one.
const FOUR_YEARS: u32 = 366 + 3 * 365;
/// Minutes of the years 2000 to 2099.
const CENTURY: u32 = 25 * FOUR_YEARS * DAY;
const TEXT: usize = 17;

/// A minute of the years 2000 to 2099, in UTC.
///
/// [`Display`](fmt::Display) writes it as documents do, `2031-02-02T23:00Z`. [`Debug`](fmt::Debug) writes nothing of it.
///
/// ```
/// use lumintayag::Utc;
///
/// let time = Utc::from_minutes(16_349_700).expect("a minute of this century");
/// assert_eq!(time.to_string(), "2031-01-31T23:00Z");
/// assert_eq!((time.year(), time.month(), time.day(), time.hour(), time.minute()), (2031, 1, 31, 23, 0));
/// assert_eq!((time.minutes(), format!("{time:?}")), (16_349_700, "Utc(..)".into()));
/// assert_eq!(time.unix_seconds(), 1_927_666_800);
/// ```
#[derive(Clone, Copy, PartialEq, Eq, PartialOrd, Ord, Hash)]
pub struct Utc {
    minutes: u32,
}

impl Utc {
    /// So many minutes after 2000-01-01T00:00Z; `None` from 2100 on.
    pub const fn from_minutes(minutes: u32) -> Option<Self> {
        if minutes < CENTURY {
            Some(Utc { minutes })
        } else {
            None
        }
    }

    /// Minutes since 2000-01-01T00:00Z.
    pub const fn minutes(self) -> u32 {
        self.minutes
    }

    /// Seconds since 1970-01-01T00:00Z, leap seconds not counted, as time libraries take them.
    pub const fn unix_seconds(self) -> i64 {
        UNIX + self.minutes as i64 * 60
    }

    /// Years since the last leap year, and days since the year began.
    const fn in_four_years(self) -> (u32, u32) {
        let day = self.minutes / DAY % FOUR_YEARS;
        if day < 366 {
            return (0, day);
        }
        (1 + (day - 366) / 365, (day - 366) % 365)
    }

    /// Month and day, both counted from 1.
    const fn date(self) -> (u32, u32) {
        let (year, mut day) = self.in_four_years();
        let february = if year == 0 { 29 } else { 28 };
        let mut month = 1;
        loop {
            let days = match month {
                2 => february,
                4 | 6 | 9 | 11 => 30,
                _ => 31,
            };
            if day < days {
                return (month, day + 1);
            }
            day -= days;
            month += 1;
        }
    }

    /// 2000 to 2099.
    pub const fn year(self) -> u32 {
        2000 + self.minutes / DAY / FOUR_YEARS * 4 + self.in_four_years().0
    }

    /// 1 to 12.
    pub const fn month(self) -> u32 {
        self.date().0
    }

    /// The day of the month, from 1 on.
    pub const fn day(self) -> u32 {
        self.date().1
    }

    /// 0 to 23.
    pub const fn hour(self) -> u32 {
        self.minutes % DAY / 60
    }

    /// 0 to 59.
    pub const fn minute(self) -> u32 {
        self.minutes % 60
    }

    /// `2031-02-02T23:00Z`.
    fn text(self) -> [u8; TEXT] {
        let (month, day) = self.date();
        let (hour, minute) = (self.hour(), self.minute());
        let mut text = *b"2000-00-00T00:00Z";
        let [_, _, y1, y0, _, m1, m0, _, d1, d0, _, h1, h0, _, i1, i0, _] = &mut text;
        for (tens, ones, number) in [(y1, y0, self.year() % 100), (m1, m0, month), (d1, d0, day), (h1, h0, hour), (i1, i0, minute)] {
            (*tens, *ones) = (digit(number / 10), digit(number));
        }
        text
    }
}

/// The last digit of a number.
fn digit(number: u32) -> u8 {
    b'0' + (number % 10) as u8
}

impl fmt::Display for Utc {
    fn fmt(&self, f: &mut fmt::Formatter<'_>) -> fmt::Result {
        f.pad(core::str::from_utf8(&self.text()).unwrap_or_default())
    }
}

/// With the feature `std`.
#[cfg(feature = "std")]
impl From<Utc> for std::time::SystemTime {
    fn from(time: Utc) -> Self {
        Self::UNIX_EPOCH + core::time::Duration::from_secs(time.unix_seconds().unsigned_abs())
    }
}

/// When a sheet begins is said by the document, so that it is not told.
impl fmt::Debug for Utc {
    fn fmt(&self, f: &mut fmt::Formatter<'_>) -> fmt::Result {
        f.write_str("Utc(..)")
    }
}

/// The two ends of TimePeriodCovered. `Debug` tells how many quarter hours are between them, and not when they are.
///
/// ```
/// # #[cfg(feature = "alloc")] {
/// # let document = include_bytes!(concat!(env!("CARGO_MANIFEST_DIR"), "/../../crates/samples_run/data/two-plain.xml")).to_vec();
/// # let kept = lumintayag::OwnedSheet::read(document)?;
/// let period = kept.views()?.period();
/// assert_eq!((period.from().to_string(), period.quarters()), ("2024-05-06T22:00Z".into(), 96));
/// assert_eq!(period.quarter(2).map(|time| time.to_string()), Some("2024-05-06T22:15Z".into()));
/// assert_eq!((period.quarter(0), period.quarter(97)), (None, None));
/// # }
/// # Ok::<(), Box<dyn std::error::Error>>(())
/// ```
#[derive(Clone, Copy, PartialEq, Eq, Hash)]
pub struct Period {
    from: Utc,
    to: Utc,
}

impl Period {
    /// The ends that the archive tells of an accepted document are minutes of this century, and the second one is the later.
    pub(crate) const fn told(from: u32, to: u32) -> Self {
        Period { from: Utc { minutes: from }, to: Utc { minutes: to } }
    }

    /// When it begins.
    pub const fn from(self) -> Utc {
        self.from
    }

    /// When it ends: the minute after its last one.
    pub const fn to(self) -> Utc {
        self.to
    }

    /// N: its quarter hours.
    pub const fn quarters(self) -> u32 {
        self.to.minutes.saturating_sub(self.from.minutes) / QUARTER
    }

    /// When quarter hour `quarter` begins, counted from 1; `None` for 0 and past the last one.
    pub const fn quarter(self, quarter: u32) -> Option<Utc> {
        if quarter == 0 || quarter > self.quarters() {
            return None;
        }
        Some(Utc { minutes: self.from.minutes + QUARTER * (quarter - 1) })
    }
}

impl fmt::Debug for Period {
    fn fmt(&self, f: &mut fmt::Formatter<'_>) -> fmt::Result {
        f.debug_struct("Period").field("quarters", &self.quarters()).finish_non_exhaustive()
    }
}

#[cfg(test)]
mod tests {
    extern crate std;
    use super::*;
    use std::string::ToString;

    fn is_leap(year: u32) -> bool {
        year % 4 == 0 && (year % 100 != 0 || year % 400 == 0)
    }

    /// Every day of the century, one by one.
    #[test]
    fn dates() {
        let (mut year, mut month, mut day) = (2000, 1, 1);
        for number in 0..36_525 {
            let time = Utc::from_minutes(number * DAY + 22 * 60 + 45).expect("a minute");
            assert_eq!((time.year(), time.month(), time.day(), time.hour(), time.minute()), (year, month, day, 22, 45));
            let days = [31, if is_leap(year) { 29 } else { 28 }, 31, 30, 31, 30, 31, 31, 30, 31, 30, 31];
            day += 1;
            if day > days[month as usize - 1] {
                (day, month) = (1, month + 1);
            }
            if month > 12 {
                (month, year) = (1, year + 1);
            }
        }
        assert_eq!((year, month, day), (2100, 1, 1));
        assert_eq!((Utc::from_minutes(CENTURY), Utc::from_minutes(u32::MAX)), (None, None));
        let last = Utc::from_minutes(CENTURY - 1).expect("a minute");
        assert_eq!(
            (last.to_string().as_str(), std::format!("{last:>19}|{last:.10}").as_str()),
            ("2099-12-31T23:59Z", "  2099-12-31T23:59Z|2099-12-31")
        );
    }

    const UNIX_TIMES: [(u32, i64); 3] = [(0, 946_684_800), (16_349_700, 1_927_666_800), (CENTURY - 1, 4_102_444_740)];

    #[test]
    fn unix_times() {
        for (minutes, seconds) in UNIX_TIMES {
            assert_eq!(Utc::from_minutes(minutes).map(Utc::unix_seconds), Some(seconds));
        }
    }

    #[cfg(feature = "std")]
    #[test]
    fn system_times() {
        use std::time::SystemTime;
        for (minutes, seconds) in UNIX_TIMES {
            let time = SystemTime::from(Utc::from_minutes(minutes).expect("a minute"));
            assert_eq!(time.duration_since(SystemTime::UNIX_EPOCH).map(|since| since.as_nanos()).ok(), Some(seconds as u128 * 1_000_000_000));
        }
    }

    #[test]
    fn periods() {
        let period = Period::told(CENTURY - 30, CENTURY - 1);
        assert_eq!((period.quarters(), period.quarter(1), period.quarter(2)), (1, Some(period.from()), None));
        let all = Period::told(0, u32::MAX);
        assert_eq!(all.quarter(all.quarters()).map(Utc::minutes), Some(u32::MAX - 15));
        assert_eq!((all.quarter(0), all.quarter(u32::MAX), Period::told(1, 0).quarter(1)), (None, None, None));
        assert_eq!(std::format!("{period:?}"), "Period { quarters: 1, .. }");
    }
}
