//! Values of each form: right ones, with the ends of their ranges, and wrong ones close to them.

use crate::model::{last_sunday, midnight};
use crate::random::Random;
use crate::respelling::{misspelled, NEEDED};
use crate::rows::{Form, AREAS};

/// What the values of one document have in common.
pub struct Plan {
    pub kind: usize,
    pub covered: Vec<u8>,
    pub n: usize,
    pub identifications: Vec<Vec<u8>>,
}

const WIDE: &[&str] = &[
    "ä", "ß", "€", "\u{7F}", "\u{80}", "\u{9F}", "\u{7FF}", "\u{800}", "\u{D7FF}", "\u{E000}", "\u{FEFF}", "\u{FFFD}", "\u{10000}", "\u{1FFFE}",
    "\u{10FFFF}", "𝄞", "٣",
];
const NARROW: &[u8] = b"abcXYZ0189-_.:/=>]? !#()";

/// All codes and some that no list has.
const CODES: &[&str] = &[
    "A00", "A01", "A02", "A03", "A04", "A05", "A10", "A13", "A14", "A18", "A27", "A39", "A77", "B15", "B59", "C62", "NDE", "MAW", "Z00", "Z01",
    "Z02", "Z03", "Z04", "Z05", "Z06", "Z07", "Z08", "Z1", "Z011", "a01", "z01", "nde", "maw", "MWH", "KWT", "PT15M", "A 01", "", " ", "1.0",
    "8716867000016", "8716867000023", "871686700001", "87168670000166", "A78", "B58", "b59", "C63", "c62",
];

const NEAR_AREAS: &[&str] = &[
    "10YDE-ENBW----N", "10YDE-EON-----1", "10YDE-RWENET--I", "10YDE-VE-----2", "10YFLENSBURG--3", "10YDE-ENBW-----M", "10YDE-VE-------1",
    "10YDE-ENBW------N", "10YAT-APG------L", "10YDE-EON------I", "10YDE-RWENET---1", " 10YDE-ENBW-----N", "10YDE-ENBW-----N ", "",
];

const WRONG_NUMBERS: &[&str] = &[
    "0", "00", "01", "001", "000", "1000", "9999", "99999", "100000", "999999", "010", "+1", "-1", "1.0", "1 1", "1a", "", " ", "٣", "0x1", "101",
    "100", "35136", "35137", "65536", "65537", "4294967297",
];

const WRONG_AMOUNTS: &[&str] = &[
    "5.", ".5", "+5", "1.0000", "1234567890123", "0000000000001", "-", "-.", ".", "", " ", "1,5", "1.5.5", "--1", "1-", "-+1", "1e3", "- 1", "1 .5",
    "1. 5", "9999999999999.999", "-1234567890123", "-.5", "-5.", "٣", "0x10", "1.٣", "NaN", "1.2a", "a", "999999999999.9999",
];

const WRONG_TIMES: &[&str] = &[
    "2023-02-29", "2100-01-01", "1999-12-31", "2024-13-01", "2024-00-10", "2024-04-31", "2024-06-31", "2024-09-31", "2024-11-31", "2024-01-32",
    "2024-01-00", "2024-02-30", "2001-02-29", "2000-02-30", "2024-1-01", "24-01-01", "2024/01/01", "2024-01-1", "+024-01-01", "20240101",
];

const WRONG_CLOCKS: &[&str] = &["24:00", "23:60", "2:00", "22.00", "22:0", "-1:00", "29:59", "99:99", "22:00:00", "22", "22:00+01:00", "2200"];

pub fn minutes_of(year: i64, month: i64, day: i64) -> i64 {
    // Days from 1970-01-01 by the rule of the shifted year that begins in March.
    let y = if month <= 2 { year - 1 } else { year };
    let (era, of_era) = (y / 400, y % 400);
    let of_year = (153 * ((month + 9) % 12) + 2) / 5 + day - 1;
    (era * 146_097 + of_era * 365 + of_era / 4 - of_era / 100 + of_year - 719_468) * 1440
}

/// A date and a minute as text, from minutes since 1970.
pub fn time_text(minutes: i64) -> String {
    let z = minutes.div_euclid(1440) + 719_468;
    let (era, of_era) = (z / 146_097, z % 146_097);
    let year_of_era = (of_era - of_era / 1460 + of_era / 36_524 - of_era / 146_096) / 365;
    let of_year = of_era - (365 * year_of_era + year_of_era / 4 - year_of_era / 100);
    let m = (5 * of_year + 2) / 153;
    let day = of_year - (153 * m + 2) / 5 + 1;
    let month = if m < 10 { m + 3 } else { m - 9 };
    let year = year_of_era + era * 400 + i64::from(month <= 2);
    let of_day = minutes.rem_euclid(1440);
    format!("{year:04}-{month:02}-{day:02}T{:02}:{:02}", of_day / 60, of_day % 60)
}

fn a_day(random: &mut Random) -> i64 {
    const DAYS: &[(i64, i64)] = &[(1, 1), (1, 31), (2, 27), (2, 28), (3, 1), (3, 30), (4, 30), (6, 30), (10, 26), (12, 30), (12, 31)];
    let year = 2000 + random.below(100) as i64;
    if random.one_in(2) {
        let (month, day) = *random.pick(DAYS);
        minutes_of(year, month, day)
    } else {
        minutes_of(year, 1, 1) + random.below(365) as i64 * 1440
    }
}

/// A number from 1 to one of some ends.
fn upto(random: &mut Random, ends: &[usize]) -> usize {
    let end = random.one_of(ends);
    random.within(1, end)
}

/// 2000-01-01 in minutes since 1970: days of delivery and local midnights are counted from there.
fn from_2000() -> i64 {
    minutes_of(2000, 1, 1)
}

fn period_text(start: i64, end: i64) -> Vec<u8> {
    format!("{}Z/{}Z", time_text(start), time_text(end)).into_bytes()
}

/// A delivery day, in days from 2000: often one on which the clocks change, most often the shorter one, for short documents.
fn a_delivery_day(random: &mut Random) -> i64 {
    let year = 2000 + random.below(100) as i64;
    match random.below(8) {
        0..=3 => last_sunday(year, 3),
        4 => last_sunday(year, 10),
        5 => last_sunday(year, *random.pick(&[3, 10])) + *random.pick(&[-7, -1, 1, 7]),
        _ => (a_day(random) - from_2000()) / 1440 + 1,
    }
}

/// A period of the kind and how many quarter hours it has. In the last days of 2099 it may end too late.
pub fn period(random: &mut Random, kind: usize) -> (Vec<u8>, usize) {
    if kind == 1 {
        let day = a_delivery_day(random);
        let (start, end) = (from_2000() + midnight(day), from_2000() + midnight(day + 1));
        return (period_text(start, end), (end - start) as usize / 15);
    }
    let day = a_day(random);
    let start = day + random.below(1440) as i64;
    let n = if kind == 3 && random.one_in(4) {
        random.within(95, 105)
    } else if random.one_in(20) {
        random.one_of(&[35_135, 35_136])
    } else {
        upto(random, &[3, 12, 100, 20_000])
    };
    (period_text(start, start + n as i64 * 15), n)
}

/// A period of good form that the kind doesn't take, or only just takes.
pub fn odd_period(random: &mut Random) -> Vec<u8> {
    let day = if random.one_in(2) { a_day(random) } else { from_2000() + (a_delivery_day(random) - 1) * 1440 };
    let start = day + *random.pick(&[0, 7, 1319, 1320, 1321, 1335, 1380, 1381, 1260]);
    let spans = &[
        0, 1, 14, 15, 16, 30, -15, -1440, 60, 1260, 1320, 1380, 1425, 1440, 1455, 1500, 2820, 2880, 2940, 527_025, 527_040, 527_041, 527_055,
        525_600, 1_054_080,
    ];
    period_text(start, start + *random.pick(spans))
}

fn identification(random: &mut Random) -> Vec<u8> {
    let length = if random.one_in(4) { random.within(33, 35) } else { random.within(0, 12) };
    text(random, length)
}

/// Often what kind 2 would take; else any characters.
fn grid_element(random: &mut Random) -> Vec<u8> {
    let length = if random.one_in(4) { random.within(34, 36) } else { random.within(0, 12) };
    if random.one_in(4) {
        object(random)
    } else {
        text(random, length)
    }
}

fn text(random: &mut Random, length: usize) -> Vec<u8> {
    let (wide, referring) = (random.one_in(3), random.one_in(6));
    let mut value = Vec::new();
    for _ in 0..length {
        if referring && random.one_in(3) {
            value.extend_from_slice(random.pick(NEEDED).as_bytes());
        } else if wide && random.one_in(2) {
            value.extend_from_slice(random.pick(WIDE).as_bytes());
        } else {
            value.push(*random.pick(NARROW));
        }
    }
    if random.one_in(8) && value.first().is_some_and(|b| *b < 128 && *b != b'&') {
        value[0] = *random.pick(b"\"' ");
    }
    value
}

fn of_bytes(random: &mut Random, bytes: &[u8], length: usize) -> Vec<u8> {
    (0..length).map(|_| *random.pick(bytes)).collect()
}

fn digits(random: &mut Random, length: usize) -> Vec<u8> {
    of_bytes(random, b"0123456789", length)
}

const CAPITALS: &[u8] = b"ABCDEFGHIJKLMNOPQRSTUVWXYZ0123456789";
const PARTY: &[u8] = b"ABCDEFGHIJKLMNOPQRSTUVWXYZ0123456789-----";

fn object(random: &mut Random) -> Vec<u8> {
    let mut value = of_bytes(random, b"ABC", 1);
    value.extend(of_bytes(random, CAPITALS, 9));
    value.extend(digits(random, 1));
    value
}

fn amount(random: &mut Random) -> Vec<u8> {
    let mut value = Vec::new();
    if random.one_in(3) {
        value.push(b'-');
    }
    let whole = if random.one_in(6) { random.within(10, 12) } else { random.within(1, 4) };
    let nines = random.one_in(12);
    value.extend(if nines { vec![b'9'; whole] } else { digits(random, whole) });
    if random.one_in(2) {
        value.push(b'.');
        let length = random.within(1, 3);
        value.extend(if nines { vec![b'9'; length] } else { digits(random, length) });
    }
    value
}

fn date_time(random: &mut Random) -> Vec<u8> {
    let minutes = a_day(random) + random.below(1440) as i64;
    format!("{}:{:02}Z", time_text(minutes), random.below(60)).into_bytes()
}

/// A value of the form. Pos is the plan's business, so any number stands for it here.
pub fn right(random: &mut Random, form: Form, plan: &Plan) -> Vec<u8> {
    match form {
        Form::Fixed(fixed) => fixed.as_bytes().to_vec(),
        Form::Identification | Form::SeriesIdentification => identification(random),
        Form::Partner => digits(random, 13),
        Form::Party => of_bytes(random, PARTY, 16),
        Form::Object => object(random),
        Form::GridElement => grid_element(random),
        Form::Version => upto(random, &[9, 99, 999]).to_string().into_bytes(),
        Form::DateTime => date_time(random),
        Form::Covered | Form::TimeInterval => plan.covered.clone(),
        Form::Resolution => b"PT15M".to_vec(),
        Form::Pos => random.within(1, plan.n.max(1)).to_string().into_bytes(),
        Form::Amount => amount(random),
        Form::List(codes) => random.pick(codes).as_bytes().to_vec(),
    }
}

/// A right value changed in one place.
pub fn changed(random: &mut Random, value: &[u8]) -> Vec<u8> {
    let mut value = value.to_vec();
    let at = random.below(value.len() + 1);
    let other = *random.pick(b"0123456789ABCZaz-+. :/T!~");
    match random.below(4) {
        0 => value.insert(at, other),
        1 if at < value.len() => drop(value.remove(at)),
        2 if at < value.len() => value[at] = other,
        _ if at < value.len() && value[at] < 128 => drop(value.splice(at..at + 1, random.pick(WIDE).bytes())),
        _ => value.push(other),
    }
    value
}

/// A value that most often is not of the form.
pub fn wrong(random: &mut Random, form: Form, plan: &Plan) -> Vec<u8> {
    match random.below(10) {
        0..=3 => known_wrong(random, form, plan),
        4..=5 => {
            let value = right(random, form, plan);
            changed(random, &value)
        }
        6 => {
            let value = right(random, form, plan);
            spaced(random, &value)
        }
        7 | 8 => {
            let value = right(random, form, plan);
            misspelled(random, &value)
        }
        _ => {
            let forms =
                [Form::Fixed("1.0"), Form::Partner, Form::Party, Form::Object, Form::Version, Form::DateTime, Form::TimeInterval, Form::Amount];
            let other = *random.pick(&forms);
            right(random, other, plan)
        }
    }
}

fn known_wrong(random: &mut Random, form: Form, plan: &Plan) -> Vec<u8> {
    let from = |random: &mut Random, list: &[&str]| random.pick(list).as_bytes().to_vec();
    match form {
        Form::Fixed(_) => {
            from(random, &["1.1", "1", "1.0 ", " 1.0", "", "01.0", "1.00", "2.0", "1,0", "4", "5", " 4", "1 ", "1.1a", "1.1a ", "1.1A", "1.0"])
        }
        Form::Identification | Form::SeriesIdentification => {
            let length = random.within(34, 38);
            text(random, length)
        }
        Form::Partner => {
            let length = *random.pick(&[0, 12, 14, 16]);
            digits(random, length)
        }
        Form::Party => {
            let length = *random.pick(&[0, 15, 17]);
            of_bytes(random, PARTY, length)
        }
        Form::Object => from(random, &["D1234567890", "A123456789", "A12345678901", "a1234567890", "A12345678a0", "A123456789A", "", "A12345-7890"]),
        Form::GridElement => {
            let length = random.within(35, 39);
            text(random, length)
        }
        Form::Version | Form::Pos => from(random, WRONG_NUMBERS),
        Form::DateTime => wrong_date_time(random),
        Form::Covered | Form::TimeInterval => wrong_period(random, plan),
        Form::Resolution => from(random, &["PT15", "PT900S", "PT1H", "P1D", "", " ", "pt15m", "PT15M1", "PT 15M", "PT30M", "PT015M"]),
        Form::Amount => from(random, WRONG_AMOUNTS),
        Form::List(_) if random.one_in(3) => from(random, NEAR_AREAS),
        Form::List(_) if random.one_in(4) => from(random, AREAS),
        Form::List(_) => from(random, CODES),
    }
}

fn wrong_date_time(random: &mut Random) -> Vec<u8> {
    let mut value = date_time(random);
    match random.below(5) {
        0 => drop(value.splice(0..10, random.pick(WRONG_TIMES).bytes())),
        1 => drop(value.splice(11..16, random.pick(WRONG_CLOCKS).bytes())),
        2 => drop(value.splice(16..19, random.pick(&["", ":60", ":0", ":59.5", ".30", ":-1", ":99"]).bytes())),
        3 => drop(value.splice(19..20, random.pick(&["", "z", "+00:00", "ZZ", "Z "]).bytes())),
        _ => value[10] = *random.pick(b"t -Z"),
    }
    value
}

fn wrong_period(random: &mut Random, plan: &Plan) -> Vec<u8> {
    let mut value = plan.covered.clone();
    if value.len() != 35 {
        return value;
    }
    let second = 18 * random.below(2);
    match random.below(7) {
        0 => drop(value.splice(second..second + 10, random.pick(WRONG_TIMES).bytes())),
        1 => drop(value.splice(second + 11..second + 16, random.pick(WRONG_CLOCKS).bytes())),
        2 => drop(value.splice(17..18, random.pick(&["", " / ", "//", "-", "\\", "/ "]).bytes())),
        3 => value.truncate(17),
        4 => drop(value.splice(second + 16..second + 17, random.pick(&["", "z", ":00Z", "ZZ"]).bytes())),
        _ => value = odd_period(random),
    }
    value
}

/// The value with spaces at one end or both.
pub fn spaced(random: &mut Random, value: &[u8]) -> Vec<u8> {
    let mut spaced = vec![b' '; random.below(3)];
    spaced.extend_from_slice(value);
    spaced.resize(spaced.len() + random.below(3), b' ');
    spaced
}
