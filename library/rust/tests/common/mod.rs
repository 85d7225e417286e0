//! Invented sheets, and tables that are lent with old numbers in them. No test prints a document or an amount where it fails.
#![allow(dead_code)]
use lumintayag::{read, read_with_shape, Accepted, Amount, Lent, Note, Refused, Room, Shape};

pub const DAY: &str = "2031-02-02T23:00Z/2031-02-03T23:00Z";

pub fn head(document_type: &str, sender_role: &str, period: &str) -> String {
    format!(
        "<DocumentIdentification v=\"D-1\"/><DocumentVersion v=\" 1 \"/><DocumentType v=\"{document_type}\"/><ProcessType v=\"A14\"/>\
        <SenderIdentification v=\"9900000000017\" codingScheme=\"NDE\"/><SenderRole v=\"{sender_role}\"/>\
        <ReceiverIdentification codingScheme='A10' v='9900000000024'/><ReceiverRole v=\"A18\"/>\
        <DocumentDateTime v=\"2031-02-02T10:15:00Z\"/><TimePeriodCovered v=\"{period}\"/>"
    )
}

pub fn intervals(rows: &[(u32, &str)]) -> String {
    rows.iter().map(|(pos, qty)| format!("<Interval><Pos v=\"{pos}\"/><Qty v=\"{qty}\"/></Interval>")).collect()
}

fn period(period: &str, rows: &str) -> String {
    format!("<Period><TimeInterval v=\"{period}\"/><Resolution v=\"PT15M\"/>{rows}</Period>")
}

pub const AREA: &str = "10YDE-EON------1";

/// A series of kind 2 in a document that covers `covered`, with no Direction and no ConnectingArea.
pub fn plant_in(covered: &str, id: &str, object: &str, rows: &[(u32, &str)]) -> String {
    let rows = period(covered, &intervals(rows));
    format!(
        "<CostTimeSeries><TimeSeriesIdentification v=\"{id}\"/><BusinessType v=\"  A01 \"/><Product v=\"8716867000016\"/>\
        <ResourceObject v=\"{object}\" codingScheme=\"NDE\"/><ResourceProvider v=\"9900000000017\" codingScheme=\"NDE\"/><CurveType v=\"A03\"/>\
        <MeasurementUnit v=\"Z02\"/>{rows}</CostTimeSeries>"
    )
}

pub fn plant(id: &str, object: &str, rows: &[(u32, &str)]) -> String {
    plant_in(DAY, id, object, rows)
}

/// A series of kind 2 with a Direction, as it stands between the quotes, and a ConnectingArea.
pub fn placed(plant: &str, direction: &str, area: &str) -> String {
    let product = "<Product v=\"8716867000016\"/>";
    let more = format!("<Direction v=\"{direction}\"/>{product}<ConnectingArea v=\"{area}\" codingScheme=\"A01\"/>");
    plant.replace(product, &more)
}

pub fn kostenblatt_in(covered: &str, series: &str) -> String {
    format!("<Kostenblatt DtdBDEWNachrichtenVersion=\"1.0\">{}{series}</Kostenblatt>", head("Z05", "A27", covered))
}

pub fn kostenblatt(series: &str) -> String {
    kostenblatt_in(DAY, series)
}

/// A series of kind 1, with n intervals.
pub fn request(id: &str, covered: &str, n: u32) -> String {
    let all: Vec<(u32, &str)> = (1..=n).map(|pos| (pos, "-1.25")).collect();
    let rows = period(covered, &intervals(&all));
    format!(
        "<ScheduleTimeSeries><TimeSeriesIdentification v=\"{id}\"/><BusinessType v=\"A02\"/><Product v=\"8716867000016\"/>\
        <InArea v=\"10YDE-VE-------2\" codingScheme=\"A01\"/><OutArea v=\"10YDE-EON------1\" codingScheme=\"A01\"/>\
        <InParty v=\"11XINVENTED----1\" codingScheme=\"A01\"/><OutParty v=\"11XINVENTED----2\" codingScheme=\"A01\"/>\
        <MeasurementUnit v=\"MAW\"/>{rows}</ScheduleTimeSeries>"
    )
}

pub fn beschaffungsanforderung(covered: &str, series: &str) -> String {
    let head = head("Z07", "A18", covered);
    format!("<Beschaffungsanforderung DtdBDEWNachrichtenVersion=\"1.0\">{head}{series}</Beschaffungsanforderung>")
}

/// A series of kind 3 in a document that covers `covered`; its object is empty.
pub fn constraint_in(covered: &str, id: &str, business: &str, direction: &str, rows: &[(u32, &str)]) -> String {
    let rows = period(covered, &intervals(rows));
    format!(
        "<NetworkConstraintTimeSeries><TimeSeriesIdentification v=\"{id}\"/><BusinessType v=\"{business}\"/><Direction v=\"{direction}\"/>\
        <ConnectingArea v=\"{AREA}\" codingScheme=\"A01\"/><ResourceObject v=\"\" codingScheme=\"Z01\"/><MeasurementUnit v=\"C62\"/>\
        {rows}</NetworkConstraintTimeSeries>"
    )
}

pub fn constraint(id: &str, business: &str, direction: &str, rows: &[(u32, &str)]) -> String {
    constraint_in(DAY, id, business, direction, rows)
}

/// What comes after TimePeriodCovered: perhaps a DocStatus, and the series.
pub fn network_constraint_document(rest: &str) -> String {
    let head = head("B15", "A18", DAY);
    format!("<NetworkConstraintDocument DtdVersion=\"4\" DtdRelease='1'>{head}{rest}</NetworkConstraintDocument>")
}

/// Two plants, of three and two intervals; the first one alone has a Direction and an area.
pub fn two_plants() -> String {
    let first = plant("Straße ä", "C0000000017", &[(1, "84.5"), (29, "-61.25"), (96, "999999999999.999")]);
    kostenblatt(&(placed(&first, " A02  ", AREA) + &plant("", "A00000000Z5", &[(1, "0"), (2, "-0.001")])))
}

pub fn amount(thousandths: i64) -> Amount {
    Amount::from_thousandths(thousandths)
}

/// What is lent. Every cell holds an old number at first.
pub struct Desk {
    pub series: Vec<u32>,
    pub positions: Vec<u32>,
    pub amounts: Vec<i64>,
}

impl Desk {
    pub fn new(series: usize, positions: usize, amounts: usize) -> Self {
        Desk { series: vec![77; series], positions: vec![77; positions], amounts: vec![-77; amounts] }
    }
    pub fn large() -> Self {
        Desk::of(Room { series: 64, intervals: 2048 })
    }
    pub fn of(room: Room) -> Self {
        Desk::new(room.series_numbers(), room.intervals, room.intervals)
    }
    pub fn lent(&mut self) -> Lent<'_> {
        Lent { series: &mut self.series, positions: &mut self.positions, amounts: &mut self.amounts }
    }
    pub fn read<'a>(&'a mut self, doc: &'a [u8]) -> Result<Accepted<'a>, Refused> {
        read(doc, self.lent())
    }
    pub fn read_in<'a>(&'a mut self, shape: Shape, doc: &'a [u8]) -> Result<Accepted<'a>, Refused> {
        read_with_shape(doc, self.lent(), shape)
    }
    /// The note in the new shape. It says what the one in the old shape says, and the depth; and the tables are the same.
    pub fn new_note(&mut self, doc: &[u8]) -> Note {
        let old = note_of(self.read(doc));
        let cells = (self.series.clone(), self.positions.clone(), self.amounts.clone());
        let new = note_of(self.read_in(Shape::New, doc));
        assert!(cells == (self.series.clone(), self.positions.clone(), self.amounts.clone()), "other tables");
        assert_eq!((old.shape(), new.shape(), old.depth()), (Shape::Old, Shape::New, 0));
        assert_eq!((new.in_shape(Shape::Old), new.in_shape(Shape::New)), (old, new));
        assert_eq!(old.in_shape(Shape::New) == new, new.depth() == 0);
        new
    }
    /// All cells of the tables are 0.
    pub fn is_blank(&self) -> bool {
        self.series.iter().chain(&self.positions).all(|&n| n == 0) && self.amounts.iter().all(|&a| a == 0)
    }
}

fn note_of(answer: Result<Accepted<'_>, Refused>) -> Note {
    answer.map_or_else(|refused| refused.note(), |accepted| accepted.note)
}

/// Number and place of a refusal, and (0, length) for acceptance. Tables are blank on a refusal, and the note says the same as the answer, in both shapes.
pub fn verdict(doc: &[u8], desk: &mut Desk) -> (u32, usize) {
    let deep = desk.new_note(doc);
    assert_eq!(lumintayag::read_note(deep.as_bytes()), Ok(deep));
    assert!(deep.refusal().is_some() || deep.depth() == 0);
    let (said, note) = match desk.read(doc) {
        Ok(Accepted { sheet, note, .. }) => {
            let intervals = sheet.iter().map(|series| series.intervals().len()).sum();
            ((None, doc.len(), Some(sheet.kind()), sheet.len(), intervals), note)
        }
        Err(refused) => ((Some(refused.refusal()), refused.place(), refused.kind(), refused.series(), refused.intervals()), refused.note()),
    };
    assert!(said.0.is_none() || desk.is_blank(), "rows left behind");
    let back = lumintayag::read_note(note.as_bytes()).expect("a note");
    assert_eq!(back, note);
    assert_eq!((back.refusal(), back.place(), back.kind(), back.series(), back.intervals()), said);
    (said.0.map_or(0, |refusal| refusal.number()), said.1)
}
