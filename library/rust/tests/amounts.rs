//! Amounts as decimal numbers.
mod common;

use common::amount;
use lumintayag::{Amount, NotAnAmount};

#[test]
fn decimals() {
    let cases = [
        (0, "0"),
        (1, "0.001"),
        (-1, "-0.001"),
        (10, "0.01"),
        (100, "0.1"),
        (-120, "-0.12"),
        (1_000, "1"),
        (12_500, "12.5"),
        (-61_250, "-61.25"),
        (120_001, "120.001"),
        (10_000_000, "10000"),
        (999_999_999_999_999, "999999999999.999"),
        (-999_999_999_999_999, "-999999999999.999"),
        (i64::MAX, "9223372036854775.807"),
        (i64::MIN, "-9223372036854775.808"),
    ];
    for (thousandths, text) in cases {
        assert_eq!(amount(thousandths).to_string(), text);
        assert_eq!(amount(thousandths).thousandths(), thousandths);
        assert_eq!(text.parse(), Ok(amount(thousandths)));
    }
}

/// Exact, or none.
#[test]
fn read_back() {
    for (text, thousandths) in [("-0", 0), ("-0.000", 0), ("007", 7_000), ("1.5", 1_500), ("1.50", 1_500), ("1.500", 1_500), ("0.1", 100)] {
        assert_eq!(text.parse(), Ok(amount(thousandths)), "{text}");
    }
    for other in [
        "", "-", ".", "+5", ".5", "5.", "-.5", "--5", "1.0005", "1.5000", "1,5", "1e3", " 5", "5 ", "1 000", "0x5", "٥", "1.2.3",
        "9223372036854775.808", "-9223372036854775.809", "99999999999999999999999",
    ] {
        assert_eq!(other.parse::<Amount>(), Err(NotAnAmount), "{other}");
    }
}

#[test]
fn width_sign_and_precision() {
    let price = amount(-3_750);
    assert_eq!(format!("{price:.0}|{price:.1}|{price:.2}|{price:.3}|{price:.99}"), "-3.75|-3.75|-3.75|-3.750|-3.750");
    assert_eq!(format!("{price:8}|{price:<8}|{price:^8.3}|{price:08}|{price:1}"), "   -3.75|-3.75   | -3.750 |-0003.75|-3.75");
    assert_eq!(format!("{:+}|{:+.3}|{:5}|{:.2}", amount(5_000), amount(0), amount(7_000), amount(7_000)), "+5|+0.000|    7|7.00");
}

#[test]
fn order() {
    assert!(amount(-1) < amount(0) && amount(0) < amount(1) && amount(999) < amount(1_000));
}
