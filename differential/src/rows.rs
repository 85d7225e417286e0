//! The structure tables and guideline rows of the three kinds, as docs/GUIDELINE.md has them.

/// What a value has to look like.
#[derive(Clone, Copy, PartialEq, Eq, Debug)]
pub enum Form {
    Fixed(&'static str),
    Identification,
    SeriesIdentification,
    Partner,
    Party,
    Object,
    GridElement,
    Version,
    DateTime,
    Covered,
    TimeInterval,
    Resolution,
    Pos,
    Amount,
    List(&'static [&'static str]),
}

pub struct Attribute {
    pub name: &'static str,
    /// "Where the guideline says collapse, leading and trailing spaces are dropped".
    pub collapse: bool,
    pub form: Form,
    pub required: bool,
}

/// What an element does besides being there.
#[derive(Clone, Copy, PartialEq, Eq, Debug)]
pub enum Task {
    Nothing,
    Root,
    Covered,
    DocStatus,
    Series,
    SeriesIdentification,
    Object,
    BusinessType,
    Direction,
    Area,
    Original,
    Period,
    Interval,
    Pos,
    Qty,
}

/// An element: how often it may come in its parent, its attributes and its children in order.
pub struct Row {
    pub name: &'static str,
    pub least: usize,
    pub most: usize,
    pub attributes: &'static [Attribute],
    pub children: &'static [Row],
    pub task: Task,
}

const fn attribute(name: &'static str, collapse: bool, form: Form) -> Attribute {
    Attribute { name, collapse, form, required: true }
}

const fn optional(name: &'static str, collapse: bool, form: Form) -> Attribute {
    Attribute { name, collapse, form, required: false }
}

const fn once(name: &'static str, attributes: &'static [Attribute]) -> Row {
    leaf(name, 1, attributes, Task::Nothing)
}

const fn maybe(name: &'static str, attributes: &'static [Attribute]) -> Row {
    leaf(name, 0, attributes, Task::Nothing)
}

const fn leaf(name: &'static str, least: usize, attributes: &'static [Attribute], task: Task) -> Row {
    Row { name, least, most: 1, attributes, children: &[], task }
}

const fn group(name: &'static str, least: usize, most: usize, children: &'static [Row], task: Task) -> Row {
    Row { name, least, most, attributes: &[], children, task }
}

const UNBOUNDED: usize = usize::MAX;

pub const AREAS: &[&str] = &["10YDE-ENBW-----N", "10YDE-EON------1", "10YDE-RWENET---I", "10YDE-VE-------2", "10YFLENSBURG---3"];

const PARTY_SCHEME: Form = Form::List(&["A10", "NDE"]);
const EIC_SCHEME: Form = Form::List(&["A01"]);
const ROLES: Form = Form::List(&["A18", "A39"]);

const FIXED: &[Attribute] = &[attribute("DtdBDEWNachrichtenVersion", false, Form::Fixed("1.0"))];
const FIXED_3: &[Attribute] = &[
    attribute("DtdVersion", false, Form::Fixed("4")),
    attribute("DtdRelease", false, Form::Fixed("1")),
    optional("DtdBDEWNachrichtenVersion", false, Form::Fixed("1.1a")),
];
const IDENTIFICATION: &[Attribute] = &[attribute("v", false, Form::Identification)];
const SERIES_IDENTIFICATION: &[Attribute] = &[attribute("v", false, Form::SeriesIdentification)];
const VERSION: &[Attribute] = &[attribute("v", true, Form::Version)];
const ORIGINAL_VERSION: &[Attribute] = &[attribute("v", false, Form::Version)];
const DATE_TIME: &[Attribute] = &[attribute("v", true, Form::DateTime)];
const COVERED: &[Attribute] = &[attribute("v", false, Form::Covered)];
const TIME_INTERVAL: &[Attribute] = &[attribute("v", false, Form::TimeInterval)];
const RESOLUTION: &[Attribute] = &[attribute("v", true, Form::Resolution)];
const POS: &[Attribute] = &[attribute("v", true, Form::Pos)];
const QTY: &[Attribute] = &[attribute("v", true, Form::Amount)];
const PARTNER: &[Attribute] = &[attribute("v", false, Form::Partner), attribute("codingScheme", true, PARTY_SCHEME)];
const PARTY: &[Attribute] = &[attribute("v", false, Form::Party), attribute("codingScheme", true, EIC_SCHEME)];
const AREA: &[Attribute] = &[attribute("v", false, Form::List(AREAS)), attribute("codingScheme", true, EIC_SCHEME)];
const OBJECT: &[Attribute] = &[attribute("v", false, Form::Object), attribute("codingScheme", true, Form::List(&["NDE"]))];
const OBJECT_3: &[Attribute] =
    &[attribute("v", false, Form::GridElement), attribute("codingScheme", true, Form::List(&["A01", "A02", "NDE", "Z01"]))];
const GRID_ELEMENT: &[Attribute] = &[attribute("v", false, Form::GridElement), attribute("codingScheme", true, Form::List(&["A01", "A02", "Z01"]))];

const DOCUMENT_TYPE_1: &[Attribute] = &[attribute("v", true, Form::List(&["Z07"]))];
const DOCUMENT_TYPE_2: &[Attribute] = &[attribute("v", true, Form::List(&["Z05"]))];
const DOCUMENT_TYPE_3: &[Attribute] = &[attribute("v", true, Form::List(&["B15"]))];
const PROCESS_TYPE: &[Attribute] = &[attribute("v", true, Form::List(&["A14"]))];
const ROLE: &[Attribute] = &[attribute("v", true, ROLES)];
const SENDER_ROLE_2: &[Attribute] = &[attribute("v", true, Form::List(&["A18", "A27", "A39"]))];
const BUSINESS_TYPE_1: &[Attribute] = &[attribute("v", true, Form::List(&["A02"]))];
const BUSINESS_TYPE_2: &[Attribute] = &[attribute("v", true, Form::List(&["A01", "A04", "Z01", "Z02", "Z03"]))];
const BUSINESS_TYPE_3: &[Attribute] = &[attribute("v", true, Form::List(&["A77", "B59"]))];
const DOC_STATUS: &[Attribute] = &[attribute("v", true, Form::List(&["A13"]))];
const DIRECTION: &[Attribute] = &[attribute("v", true, Form::List(&["A01", "A02"]))];
const PRODUCT: &[Attribute] = &[attribute("v", true, Form::List(&["8716867000016"]))];
const CURVE_TYPE: &[Attribute] = &[attribute("v", true, Form::List(&["A03"]))];
const UNIT_1: &[Attribute] = &[attribute("v", true, Form::List(&["MAW"]))];
const UNIT_2: &[Attribute] = &[attribute("v", true, Form::List(&["Z01", "Z02", "Z03"]))];
const UNIT_3: &[Attribute] = &[attribute("v", true, Form::List(&["C62", "MAW"]))];
const STATUS: &[Attribute] = &[attribute("v", true, Form::List(&["Z01", "Z02", "Z03", "Z04", "Z05"]))];

const INTERVAL: &[Row] = &[leaf("Pos", 1, POS, Task::Pos), leaf("Qty", 1, QTY, Task::Qty)];
const PERIOD_1: &[Row] = &[once("TimeInterval", TIME_INTERVAL), once("Resolution", RESOLUTION), group("Interval", 92, 100, INTERVAL, Task::Interval)];
const PERIOD_2: &[Row] =
    &[once("TimeInterval", TIME_INTERVAL), once("Resolution", RESOLUTION), group("Interval", 1, UNBOUNDED, INTERVAL, Task::Interval)];

const PERIOD_3: &[Row] = &[once("TimeInterval", TIME_INTERVAL), once("Resolution", RESOLUTION), group("Interval", 1, 100, INTERVAL, Task::Interval)];

const SERIES_1: &[Row] = &[
    leaf("TimeSeriesIdentification", 1, SERIES_IDENTIFICATION, Task::SeriesIdentification),
    leaf("BusinessType", 1, BUSINESS_TYPE_1, Task::BusinessType),
    once("Product", PRODUCT),
    leaf("InArea", 1, AREA, Task::Area),
    once("OutArea", AREA),
    leaf("InParty", 1, PARTY, Task::Object),
    once("OutParty", PARTY),
    once("MeasurementUnit", UNIT_1),
    leaf("OriginalSenderIdentification", 0, PARTNER, Task::Original),
    leaf("OriginalDocumentIdentification", 0, IDENTIFICATION, Task::Original),
    leaf("OriginalDocumentVersion", 0, ORIGINAL_VERSION, Task::Original),
    leaf("OriginalDocumentDateTime", 0, DATE_TIME, Task::Original),
    leaf("OriginalTimeSeriesIdentification", 0, IDENTIFICATION, Task::Original),
    group("Period", 1, 1, PERIOD_1, Task::Period),
];

const SERIES_2: &[Row] = &[
    leaf("TimeSeriesIdentification", 1, SERIES_IDENTIFICATION, Task::SeriesIdentification),
    leaf("BusinessType", 1, BUSINESS_TYPE_2, Task::BusinessType),
    leaf("Direction", 0, DIRECTION, Task::Direction),
    once("Product", PRODUCT),
    leaf("ConnectingArea", 0, AREA, Task::Area),
    leaf("ResourceObject", 1, OBJECT, Task::Object),
    once("ResourceProvider", PARTNER),
    once("CurveType", CURVE_TYPE),
    once("MeasurementUnit", UNIT_2),
    maybe("Status", STATUS),
    leaf("OriginalSenderIdentification", 0, PARTNER, Task::Original),
    leaf("OriginalDocumentIdentification", 0, IDENTIFICATION, Task::Original),
    leaf("OriginalDocumentVersion", 0, ORIGINAL_VERSION, Task::Original),
    leaf("OriginalDocumentDateTime", 0, DATE_TIME, Task::Original),
    leaf("OriginalTimeSeriesIdentification", 0, IDENTIFICATION, Task::Original),
    group("Period", 1, 1, PERIOD_2, Task::Period),
];

const SERIES_3: &[Row] = &[
    leaf("TimeSeriesIdentification", 1, SERIES_IDENTIFICATION, Task::SeriesIdentification),
    leaf("BusinessType", 1, BUSINESS_TYPE_3, Task::BusinessType),
    leaf("Direction", 1, DIRECTION, Task::Direction),
    leaf("ConnectingArea", 1, AREA, Task::Area),
    leaf("ResourceObject", 1, OBJECT_3, Task::Object),
    maybe("ResourceProvider", PARTNER),
    maybe("RequestingGridOperator", PARTNER),
    maybe("GridElement", GRID_ELEMENT),
    once("MeasurementUnit", UNIT_3),
    leaf("OriginalSenderIdentification", 0, PARTNER, Task::Original),
    leaf("OriginalDocumentIdentification", 0, IDENTIFICATION, Task::Original),
    leaf("OriginalDocumentVersion", 0, ORIGINAL_VERSION, Task::Original),
    leaf("OriginalDocumentDateTime", 0, DATE_TIME, Task::Original),
    leaf("OriginalTimeSeriesIdentification", 0, IDENTIFICATION, Task::Original),
    group("Period", 1, 1, PERIOD_3, Task::Period),
];

const DOCUMENT_1: &[Row] = &[
    once("DocumentIdentification", IDENTIFICATION),
    once("DocumentVersion", VERSION),
    once("DocumentType", DOCUMENT_TYPE_1),
    once("ProcessType", PROCESS_TYPE),
    once("SenderIdentification", PARTNER),
    once("SenderRole", ROLE),
    once("ReceiverIdentification", PARTNER),
    once("ReceiverRole", ROLE),
    once("DocumentDateTime", DATE_TIME),
    leaf("TimePeriodCovered", 1, COVERED, Task::Covered),
    group("ScheduleTimeSeries", 1, UNBOUNDED, SERIES_1, Task::Series),
];

const DOCUMENT_2: &[Row] = &[
    once("DocumentIdentification", IDENTIFICATION),
    once("DocumentVersion", VERSION),
    once("DocumentType", DOCUMENT_TYPE_2),
    once("ProcessType", PROCESS_TYPE),
    once("SenderIdentification", PARTNER),
    once("SenderRole", SENDER_ROLE_2),
    once("ReceiverIdentification", PARTNER),
    once("ReceiverRole", ROLE),
    once("DocumentDateTime", DATE_TIME),
    leaf("TimePeriodCovered", 1, COVERED, Task::Covered),
    group("CostTimeSeries", 1, UNBOUNDED, SERIES_2, Task::Series),
];

const DOCUMENT_3: &[Row] = &[
    once("DocumentIdentification", IDENTIFICATION),
    once("DocumentVersion", VERSION),
    once("DocumentType", DOCUMENT_TYPE_3),
    once("ProcessType", PROCESS_TYPE),
    once("SenderIdentification", PARTNER),
    once("SenderRole", ROLE),
    once("ReceiverIdentification", PARTNER),
    once("ReceiverRole", ROLE),
    once("DocumentDateTime", DATE_TIME),
    leaf("TimePeriodCovered", 1, COVERED, Task::Covered),
    leaf("DocStatus", 0, DOC_STATUS, Task::DocStatus),
    group("NetworkConstraintTimeSeries", 0, UNBOUNDED, SERIES_3, Task::Series),
];

/// The root of each kind; kind 1 comes first.
pub static ROOTS: [Row; 3] = [
    Row { name: "Beschaffungsanforderung", least: 1, most: 1, attributes: FIXED, children: DOCUMENT_1, task: Task::Root },
    Row { name: "Kostenblatt", least: 1, most: 1, attributes: FIXED, children: DOCUMENT_2, task: Task::Root },
    Row { name: "NetworkConstraintDocument", least: 1, most: 1, attributes: FIXED_3, children: DOCUMENT_3, task: Task::Root },
];
