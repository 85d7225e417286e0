//! The plants of a sheet by price, cheapest first and like with like, with the UTC time at which each quarter hour begins. The sheet is invented.
//! usage: plants [QUARTER]     the quarter hour, of which 1 is the first of TimePeriodCovered; else each one in which a price changes
//!
//! A price is ranked beside those of the same BusinessType, Direction, MeasurementUnit and area of a Kostenblatt alone; `-` stands for a Direction or an
//! area that a series does not have. The unit (euros per piece, per megawatt hour or per hour) and the times are shown by `Views`. A value may hold
//! references, so that it is compared and printed by what it says.
use lumintayag::{unescaped, Kind, OwnedSheet, SeriesViews, Sheet, Views};
use std::error::Error;
use std::process::ExitCode;

const DAY: &str = "2031-02-02T23:00Z/2031-02-03T23:00Z";

const UP: &str = "<Direction v=\"A01\"/>";
const DOWN: &str = "<Direction v=\"A02\"/>";
const NORTH: &str = "<ConnectingArea v=\"10YFLENSBURG---3\" codingScheme=\"A01\"/>";
const SOUTH: &str = "<ConnectingArea v=\"10YDE-ENBW-----N\" codingScheme=\"A01\"/>";

fn plant(id: &str, business_type: &str, direction: &str, area: &str, object: &str, unit: &str, prices: &[(u32, &str)]) -> String {
    let prices: String = prices.iter().map(|(pos, price)| format!("<Interval><Pos v=\"{pos}\"/><Qty v=\"{price}\"/></Interval>")).collect();
    format!(
        "<CostTimeSeries><TimeSeriesIdentification v=\"{id}\"/><BusinessType v=\"{business_type}\"/>{direction}\
        <Product v=\"8716867000016\"/>{area}<ResourceObject v=\"{object}\" codingScheme=\"NDE\"/>\
        <ResourceProvider v=\"9900000000017\" codingScheme=\"NDE\"/><CurveType v=\"A03\"/>\
        <MeasurementUnit v=\"{unit}\"/><Period><TimeInterval v=\"{DAY}\"/><Resolution v=\"PT15M\"/>{prices}</Period></CostTimeSeries>"
    )
}

/// Energy of three plants, up and down, in euros per megawatt hour; what a start costs, in euros per piece and of one plant in euros per hour, which may not
/// be ranked beside the others; and an hour more, in euros, which has no Direction.
fn document() -> String {
    let plants = plant("Neckar, up", "A01", UP, SOUTH, "C0000000017", "Z02", &[(1, "84.5"), (29, "61.25"), (81, "97")])
        + &plant("Neckar, down", "A01", DOWN, SOUTH, "C0000000017", "Z02", &[(1, "-40"), (41, "12.5")])
        + &plant("Neckar, start", "Z01", UP, SOUTH, "C0000000017", "Z01", &[(1, "1250")])
        + &plant("Neckar, hour", "Z02", "", SOUTH, "C0000000017", "Z03", &[(1, "310")])
        + &plant("Isar &amp; Amper, up", "A0&#49;", UP, SOUTH, "C0000000025", "Z02", &[(1, "72")])
        + &plant("Isar, down", "A01", DOWN, SOUTH, "C0000000025", "Z02", &[(1, "3.25")])
        + &plant("Isar, start", "Z01", UP, SOUTH, "C0000000025", "Z01", &[(1, "980"), (41, "1400.5")])
        + &plant("Oste, up", "A01", UP, NORTH, "C0000000033", "Z02", &[(1, "55.125"), (41, "-3.75"), (57, "120.001")])
        + &plant("Oste, start", "Z01", UP, SOUTH, "C0000000033", "Z03", &[(1, "40.5")])
        + &plant("Oste, hour", "Z02", "", "", "C0000000033", "Z03", &[(1, "275.5")]);
    format!(
        "<Kostenblatt DtdBDEWNachrichtenVersion=\"1.0\"><DocumentIdentification v=\"KB-7\"/><DocumentVersion v=\"1\"/><DocumentType v=\"Z05\"/>\
        <ProcessType v=\"A14\"/><SenderIdentification v=\"9900000000017\" codingScheme=\"NDE\"/><SenderRole v=\"A27\"/>\
        <ReceiverIdentification v=\"9900000000024\" codingScheme=\"NDE\"/><ReceiverRole v=\"A18\"/><DocumentDateTime v=\"2031-02-02T10:15:00Z\"/>\
        <TimePeriodCovered v=\"{DAY}\"/>{plants}</Kostenblatt>"
    )
}

fn said(value: &str) -> String {
    unescaped(value).collect()
}

/// What two series have in common whose prices are ranked beside each other.
fn like(values: &SeriesViews<'_>) -> [Option<String>; 4] {
    [values.business_type(), values.direction(), values.unit(), values.area()].map(|value| value.map(said))
}

/// A line for each series, from the time at which the quarter hour begins on.
fn print_quarter(sheet: Sheet<'_>, views: Views<'_>, quarter: u32) {
    let Some(time) = views.period().quarter(quarter) else { return };
    let priced = sheet.iter().zip(views.iter()).filter_map(|(series, values)| Some((like(&values), series.amount_at(quarter)?, series)));
    let mut offers: Vec<_> = priced.collect();
    offers.sort_by_key(|(like, price, series)| (like.clone(), *price, said(series.object())));
    for (like, price, series) in offers {
        let like = like.map(|value| value.unwrap_or("-".into())).join(" ");
        println!("{time} {like} {} {price:.3} ({})", said(series.object()), said(series.identification()));
    }
}

fn changes_at(sheet: Sheet<'_>, quarter: u32) -> bool {
    sheet.iter().any(|series| series.intervals().any(|(position, _)| position == quarter))
}

fn run() -> Result<(), Box<dyn Error>> {
    let kept = OwnedSheet::read(document().into_bytes())?;
    let (sheet, shown) = (kept.sheet(), kept.views()?);
    if sheet.kind() != Kind::Kostenblatt {
        return Err(format!("a {} has no prices", sheet.kind()).into());
    }
    let asked = std::env::args().nth(1).map(|word| word.parse()).transpose()?;
    let quarters: Vec<u32> = match asked {
        Some(quarter) => vec![quarter],
        None => (1..=sheet.quarters()).filter(|&quarter| changes_at(sheet, quarter)).collect(),
    };
    if quarters.iter().any(|&quarter| shown.period().quarter(quarter).is_none()) {
        return Err(format!("usage: plants [QUARTER], from 1 to {}", sheet.quarters()).into());
    }
    for quarter in quarters {
        print_quarter(sheet, shown, quarter);
    }
    Ok(())
}

fn main() -> ExitCode {
    match run() {
        Ok(()) => ExitCode::SUCCESS,
        Err(why) => {
            eprintln!("{why}");
            ExitCode::FAILURE
        }
    }
}
