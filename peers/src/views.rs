//! What views show of an accepted document, held against the attribute values that expat tells of it.

use crate::{expat, library};
use differential::references::meaning;
use differential::views::cell_of;

pub const SERIES: [&str; 3] = ["ScheduleTimeSeries", "CostTimeSeries", "NetworkConstraintTimeSeries"];

/// Elements whose `v` keeps its spaces: those whose row says preserve or says nothing.
const KEPT: &[&str] = &[
    "DocumentIdentification", "SenderIdentification", "ReceiverIdentification", "TimePeriodCovered", "TimeSeriesIdentification", "InArea", "OutArea",
    "InParty", "OutParty", "ConnectingArea", "ResourceObject", "ResourceProvider", "RequestingGridOperator", "GridElement",
    "OriginalSenderIdentification", "OriginalDocumentIdentification", "OriginalDocumentVersion", "OriginalTimeSeriesIdentification", "TimeInterval",
];

/// A value without the spaces that are dropped at its ends.
fn said<'v>(element: &str, attribute: &str, value: &'v str) -> &'v str {
    if attribute == "codingScheme" || (attribute == "v" && !KEPT.contains(&element)) {
        value.trim_matches(' ')
    } else {
        value
    }
}

/// How many values the views of an accepted document show, each of them in what it says as expat tells it; nothing where one differs, or where one more is shown.
pub fn agreed(doc: &[u8]) -> Option<u64> {
    let (kind, mut table) = library::views(doc)?;
    let (mut series, mut shown) = (0, 0);
    for element in expat::elements(doc) {
        series += usize::from(SERIES.contains(&element.name.as_str()));
        for (attribute, value) in &element.attributes {
            let Some(cell) = cell_of(kind, series, &element.name, attribute) else { continue };
            let (start, length) = (table[cell] as usize, table[cell + 1] as usize);
            if meaning(doc, start..start + length) != said(&element.name, attribute, value).as_bytes() || start == 0 {
                return None;
            }
            (table[cell], table[cell + 1]) = (0, 0);
            shown += 1;
        }
    }
    table.iter().all(|cell| *cell == 0).then_some(shown)
}
