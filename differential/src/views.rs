//! Every attribute value of a document and where it stands, in a lent table of pairs. Where each pair is, is written down here name by name.

use crate::model::{judge, Judged, LONGEST};
use crate::random::Random;

/// What is answered, and what is left in all that was lent.
#[derive(Clone, PartialEq, Eq, Debug)]
pub struct Viewed {
    pub refusal: u32,
    pub table: Vec<u32>,
    pub answer: Vec<u32>,
}

/// "a header always takes 16 pairs (32 cells), a series always 22 pairs (44 cells), in every kind"
pub const HEADER_CELLS: usize = 32;
pub const SERIES_CELLS: usize = 44;

const V: &str = "v";
const SCHEME: &str = "codingScheme";

type Pair = (&'static str, &'static str);

/// The pairs of the header from 0 on, element and attribute of each. The first three are attributes of the root, whatever its name.
const HEADER: [Pair; 16] = [
    ("", "DtdVersion"),
    ("", "DtdRelease"),
    ("", "DtdBDEWNachrichtenVersion"),
    ("DocumentIdentification", V),
    ("DocumentVersion", V),
    ("DocumentType", V),
    ("ProcessType", V),
    ("SenderIdentification", V),
    ("SenderIdentification", SCHEME),
    ("SenderRole", V),
    ("ReceiverIdentification", V),
    ("ReceiverIdentification", SCHEME),
    ("ReceiverRole", V),
    ("DocumentDateTime", V),
    ("TimePeriodCovered", V),
    ("DocStatus", V),
];

/// The pairs of a series of each kind, from 16 on.
const SERIES: [&[Pair]; 3] = [
    &[
        ("TimeSeriesIdentification", V),
        ("BusinessType", V),
        ("Product", V),
        ("InArea", V),
        ("InArea", SCHEME),
        ("OutArea", V),
        ("OutArea", SCHEME),
        ("InParty", V),
        ("InParty", SCHEME),
        ("OutParty", V),
        ("OutParty", SCHEME),
        ("MeasurementUnit", V),
        ("OriginalSenderIdentification", V),
        ("OriginalSenderIdentification", SCHEME),
        ("OriginalDocumentIdentification", V),
        ("OriginalDocumentVersion", V),
        ("OriginalDocumentDateTime", V),
        ("OriginalTimeSeriesIdentification", V),
        ("TimeInterval", V),
        ("Resolution", V),
    ],
    &[
        ("TimeSeriesIdentification", V),
        ("BusinessType", V),
        ("Direction", V),
        ("Product", V),
        ("ConnectingArea", V),
        ("ConnectingArea", SCHEME),
        ("ResourceObject", V),
        ("ResourceObject", SCHEME),
        ("ResourceProvider", V),
        ("ResourceProvider", SCHEME),
        ("CurveType", V),
        ("MeasurementUnit", V),
        ("Status", V),
        ("OriginalSenderIdentification", V),
        ("OriginalSenderIdentification", SCHEME),
        ("OriginalDocumentIdentification", V),
        ("OriginalDocumentVersion", V),
        ("OriginalDocumentDateTime", V),
        ("OriginalTimeSeriesIdentification", V),
        ("TimeInterval", V),
        ("Resolution", V),
    ],
    &[
        ("TimeSeriesIdentification", V),
        ("BusinessType", V),
        ("Direction", V),
        ("ConnectingArea", V),
        ("ConnectingArea", SCHEME),
        ("ResourceObject", V),
        ("ResourceObject", SCHEME),
        ("ResourceProvider", V),
        ("ResourceProvider", SCHEME),
        ("RequestingGridOperator", V),
        ("RequestingGridOperator", SCHEME),
        ("GridElement", V),
        ("GridElement", SCHEME),
        ("MeasurementUnit", V),
        ("OriginalSenderIdentification", V),
        ("OriginalSenderIdentification", SCHEME),
        ("OriginalDocumentIdentification", V),
        ("OriginalDocumentVersion", V),
        ("OriginalDocumentDateTime", V),
        ("OriginalTimeSeriesIdentification", V),
        ("TimeInterval", V),
        ("Resolution", V),
    ],
];

fn place_in(pairs: &[Pair], element: &str, attribute: &str) -> Option<usize> {
    let element = if attribute.starts_with("Dtd") { "" } else { element };
    pairs.iter().position(|pair| *pair == (element, attribute))
}

/// The cell of a value's start, in series 1 and so on, or in the header with 0; nothing for Pos and Qty, which "are not among them".
pub fn cell_of(kind: u32, series: usize, element: &str, attribute: &str) -> Option<usize> {
    match series.checked_sub(1) {
        None => Some(2 * place_in(&HEADER, element, attribute)?),
        Some(before) => Some(HEADER_CELLS + SERIES_CELLS * before + 2 * place_in(SERIES[kind as usize - 1], element, attribute)?),
    }
}

/// The table of an accepted document: "0 and 0 where absent".
fn table_of(judged: &Judged, cells: usize) -> Vec<u32> {
    let mut table = vec![0; cells];
    for value in &judged.values {
        if let Some(cell) = cell_of(judged.kind, value.series, value.element, value.attribute) {
            table[cell] = value.place.start as u32;
            table[cell + 1] = value.place.len() as u32;
        }
    }
    table
}

/// "six numbers .. as far as it has cells (0 in those after)"
fn six_in(six: [u32; 6], cells: usize) -> Vec<u32> {
    (0..cells).map(|at| six.get(at).copied().unwrap_or(0)).collect()
}

fn refused(refusal: u32, place: usize, kind: u32, series: usize, table: usize, answer: usize) -> Viewed {
    Viewed { refusal, table: vec![0; table], answer: six_in([refusal, place as u32, kind, series as u32, 0, 0], answer) }
}

/// Views a document in a table and an answer of so many cells. A table with no room for the header "is refused with 4 at place 0 .. before the document is
/// looked at (before 1 as well)".
pub fn view(doc: &[u8], table: usize, answer: usize) -> Viewed {
    if table < HEADER_CELLS {
        return refused(4, 0, 0, 0, table, answer);
    }
    if doc.len() > LONGEST {
        return refused(1, 0, 0, 0, table, answer);
    }
    let judged = judge(doc, (table - HEADER_CELLS) / SERIES_CELLS);
    let Judged { refusal, place, kind, series, period: (from, to), .. } = judged;
    if refusal != 0 {
        return refused(refusal, place, kind, series, table, answer);
    }
    let six = [0, place as u32, kind, series as u32, from as u32, to as u32];
    Viewed { refusal, table: table_of(&judged, table), answer: six_in(six, answer) }
}

/// Series that a document may have: no more than it has identifications, and one that is cut off.
fn series_in(doc: &[u8]) -> usize {
    const NAME: &[u8] = b"<TimeSeriesIdentification";
    doc.windows(NAME.len()).filter(|part| *part == NAME).count()
}

/// How many cells are lent for the table and for the answer: once more than the document needs, and once about that, about a header, or any number.
pub fn lent(seed: u64, number: u64, doc: &[u8]) -> [(usize, usize); 2] {
    let random = &mut Random::new(seed ^ 0x7669_6577, number);
    let need = HEADER_CELLS + SERIES_CELLS * series_in(doc);
    let other = match random.below(10) {
        // A document that is too long is rare, and its 1 has to come after the 4 of such a table.
        _ if doc.len() > LONGEST => random.below(HEADER_CELLS),
        0 => need - 1,
        1 => need,
        2 => need.saturating_sub(SERIES_CELLS),
        3 | 4 => need + random.below(SERIES_CELLS),
        5 => HEADER_CELLS + random.below(SERIES_CELLS + 1),
        6 => HEADER_CELLS - 1 + random.below(3),
        7 => random.below(HEADER_CELLS),
        _ => random.within(HEADER_CELLS, need + SERIES_CELLS),
    };
    [(need + SERIES_CELLS + random.below(50), random.within(5, 8)), (other, random.below(10))]
}
