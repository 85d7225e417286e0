//! A month of sheets added up in memory: what each plant comes to, and what all of them do. The sheets are invented, one for each day of March 2031.
//! usage: month
//!
//! Every series here has euros per hour (MeasurementUnit Z03), so that they may be added up: a total is euros per hour times quarter hours, and a quarter
//! of it is euros. The 30th has 92 quarter hours, since the clock goes forward. What is kept of a sheet, and its totals, are wiped before the next one is
//! read.
use lumintayag::{OwnedSheet, Total};
use std::collections::BTreeMap;
use std::error::Error;

const DAYS: u32 = 31;

/// The local midnight at which a day of March begins.
fn midnight(day: u32) -> String {
    match day {
        1 => "2031-02-28T23:00Z".into(),
        2..=30 => format!("2031-03-{:02}T23:00Z", day - 1),
        _ => format!("2031-03-{:02}T22:00Z", day - 1),
    }
}

fn from(pos: u32, price: &str) -> String {
    format!("<Interval><Pos v=\"{pos}\"/><Qty v=\"{price}\"/></Interval>")
}

fn plant(covered: &str, id: &str, object: &str, prices: &str) -> String {
    format!(
        "<CostTimeSeries><TimeSeriesIdentification v=\"{id}\"/><BusinessType v=\"Z02\"/><Product v=\"8716867000016\"/>\
        <ResourceObject v=\"{object}\" codingScheme=\"NDE\"/><ResourceProvider v=\"9900000000017\" codingScheme=\"NDE\"/><CurveType v=\"A03\"/>\
        <MeasurementUnit v=\"Z03\"/><Period><TimeInterval v=\"{covered}\"/><Resolution v=\"PT15M\"/>{prices}</Period></CostTimeSeries>"
    )
}

fn document(day: u32) -> String {
    let covered = format!("{}/{}", midnight(day), midnight(day + 1));
    let plants = plant(&covered, "Neckar", "C0000000017", &(from(1, &format!("{}", 300 + day)) + &from(29, "275.25")))
        + &plant(&covered, "Isar", "C0000000025", &from(1, "-12.125"))
        + &plant(&covered, "Oste", "C0000000033", &(from(1, "0.001") + &from(41, &format!("-{day}.5"))));
    format!(
        "<Kostenblatt DtdBDEWNachrichtenVersion=\"1.0\"><DocumentIdentification v=\"KB-{day}\"/><DocumentVersion v=\"1\"/><DocumentType v=\"Z05\"/>\
        <ProcessType v=\"A14\"/><SenderIdentification v=\"9900000000017\" codingScheme=\"NDE\"/><SenderRole v=\"A27\"/>\
        <ReceiverIdentification v=\"9900000000024\" codingScheme=\"NDE\"/><ReceiverRole v=\"A18\"/><DocumentDateTime v=\"2031-02-28T10:15:00Z\"/>\
        <TimePeriodCovered v=\"{covered}\"/>{plants}</Kostenblatt>"
    )
}

fn main() -> Result<(), Box<dyn Error>> {
    const TOO_LARGE: &str = "a sum is too large";
    let (mut plants, mut all) = (BTreeMap::new(), Total::ZERO);
    for day in 1..=DAYS {
        let kept = OwnedSheet::read(document(day).into_bytes())?;
        let sheet = kept.sheet();
        let totals = sheet.totals()?;
        for (series, total) in sheet.iter().zip(totals.iter()) {
            let sum = plants.entry(series.identification().to_string()).or_insert(Total::ZERO);
            *sum = sum.checked_add(total).ok_or(TOO_LARGE)?;
        }
        all = all.checked_add(totals.sum()).ok_or(TOO_LARGE)?;
    }
    for (plant, total) in plants {
        println!("{plant}: {total:.3}");
    }
    println!("all: {all:.3}");
    Ok(())
}
