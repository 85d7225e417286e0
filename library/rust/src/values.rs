//! The names of all that a table of views shows, and the pair of each.
use crate::foreign::HEADER_PAIRS;
use crate::Kind;

/// An attribute value of a document's header: the root's three attributes, and `v` and codingScheme of the elements before the series.
#[derive(Clone, Copy, Debug, PartialEq, Eq, Hash)]
#[non_exhaustive]
pub enum HeaderValue {
    /// DtdVersion of the root, in a NetworkConstraintDocument alone.
    DtdVersion,
    /// DtdRelease of the root, in a NetworkConstraintDocument alone.
    DtdRelease,
    /// DtdBDEWNachrichtenVersion of the root, which a NetworkConstraintDocument may lack.
    DtdBdewNachrichtenVersion,
    /// DocumentIdentification.
    DocumentIdentification,
    /// DocumentVersion.
    DocumentVersion,
    /// DocumentType.
    DocumentType,
    /// ProcessType.
    ProcessType,
    /// SenderIdentification.
    SenderIdentification,
    /// codingScheme of SenderIdentification.
    SenderScheme,
    /// SenderRole.
    SenderRole,
    /// ReceiverIdentification.
    ReceiverIdentification,
    /// codingScheme of ReceiverIdentification.
    ReceiverScheme,
    /// ReceiverRole.
    ReceiverRole,
    /// DocumentDateTime.
    DocumentDateTime,
    /// TimePeriodCovered.
    TimePeriodCovered,
    /// DocStatus, in a NetworkConstraintDocument alone, which may lack it.
    DocStatus,
}

impl HeaderValue {
    /// All of them, by their pairs.
    pub const ALL: [HeaderValue; HEADER_PAIRS] = {
        use HeaderValue::*;
        [
            DtdVersion, DtdRelease, DtdBdewNachrichtenVersion, DocumentIdentification, DocumentVersion, DocumentType, ProcessType,
            SenderIdentification, SenderScheme, SenderRole, ReceiverIdentification, ReceiverScheme, ReceiverRole, DocumentDateTime,
            TimePeriodCovered, DocStatus,
        ]
    };

    /// Its pair, which is the same in every kind.
    pub const fn pair(self) -> usize {
        self as usize
    }
}

/// An attribute value of a series: `v` and codingScheme of its elements, but for Pos and Qty. No kind knows all of them.
#[derive(Clone, Copy, Debug, PartialEq, Eq, Hash)]
#[non_exhaustive]
pub enum SeriesValue {
    /// TimeSeriesIdentification.
    TimeSeriesIdentification,
    /// BusinessType.
    BusinessType,
    /// Direction: `A01` is up, `A02` is down.
    Direction,
    /// Product.
    Product,
    /// InArea.
    InArea,
    /// codingScheme of InArea.
    InAreaScheme,
    /// OutArea.
    OutArea,
    /// codingScheme of OutArea.
    OutAreaScheme,
    /// InParty.
    InParty,
    /// codingScheme of InParty.
    InPartyScheme,
    /// OutParty.
    OutParty,
    /// codingScheme of OutParty.
    OutPartyScheme,
    /// ConnectingArea.
    ConnectingArea,
    /// codingScheme of ConnectingArea.
    ConnectingAreaScheme,
    /// ResourceObject.
    ResourceObject,
    /// codingScheme of ResourceObject.
    ResourceObjectScheme,
    /// ResourceProvider.
    ResourceProvider,
    /// codingScheme of ResourceProvider.
    ResourceProviderScheme,
    /// RequestingGridOperator.
    RequestingGridOperator,
    /// codingScheme of RequestingGridOperator.
    RequestingGridOperatorScheme,
    /// GridElement.
    GridElement,
    /// codingScheme of GridElement.
    GridElementScheme,
    /// CurveType.
    CurveType,
    /// MeasurementUnit.
    MeasurementUnit,
    /// Status.
    Status,
    /// OriginalSenderIdentification.
    OriginalSenderIdentification,
    /// codingScheme of OriginalSenderIdentification.
    OriginalSenderScheme,
    /// OriginalDocumentIdentification.
    OriginalDocumentIdentification,
    /// OriginalDocumentVersion.
    OriginalDocumentVersion,
    /// OriginalDocumentDateTime.
    OriginalDocumentDateTime,
    /// OriginalTimeSeriesIdentification.
    OriginalTimeSeriesIdentification,
    /// TimeInterval.
    TimeInterval,
    /// Resolution.
    Resolution,
}

use SeriesValue::*;

const OF_BESCHAFFUNGSANFORDERUNG: [SeriesValue; 20] = [
    TimeSeriesIdentification, BusinessType, Product, InArea, InAreaScheme, OutArea, OutAreaScheme, InParty, InPartyScheme, OutParty, OutPartyScheme,
    MeasurementUnit, OriginalSenderIdentification, OriginalSenderScheme, OriginalDocumentIdentification, OriginalDocumentVersion,
    OriginalDocumentDateTime, OriginalTimeSeriesIdentification, TimeInterval, Resolution,
];

const OF_KOSTENBLATT: [SeriesValue; 21] = [
    TimeSeriesIdentification, BusinessType, Direction, Product, ConnectingArea, ConnectingAreaScheme, ResourceObject, ResourceObjectScheme,
    ResourceProvider, ResourceProviderScheme, CurveType, MeasurementUnit, Status, OriginalSenderIdentification, OriginalSenderScheme,
    OriginalDocumentIdentification, OriginalDocumentVersion, OriginalDocumentDateTime, OriginalTimeSeriesIdentification, TimeInterval, Resolution,
];

const OF_NETWORK_CONSTRAINT_DOCUMENT: [SeriesValue; 22] = [
    TimeSeriesIdentification, BusinessType, Direction, ConnectingArea, ConnectingAreaScheme, ResourceObject, ResourceObjectScheme, ResourceProvider,
    ResourceProviderScheme, RequestingGridOperator, RequestingGridOperatorScheme, GridElement, GridElementScheme, MeasurementUnit,
    OriginalSenderIdentification, OriginalSenderScheme, OriginalDocumentIdentification, OriginalDocumentVersion, OriginalDocumentDateTime,
    OriginalTimeSeriesIdentification, TimeInterval, Resolution,
];

impl SeriesValue {
    /// Those that a kind knows, by their pairs; none of a kind that has no name here.
    pub const fn all(kind: Kind) -> &'static [SeriesValue] {
        match kind {
            Kind::Beschaffungsanforderung => &OF_BESCHAFFUNGSANFORDERUNG,
            Kind::Kostenblatt => &OF_KOSTENBLATT,
            Kind::NetworkConstraintDocument => &OF_NETWORK_CONSTRAINT_DOCUMENT,
            Kind::Other(_) => &[],
        }
    }

    /// Its pair in the first series of a document of this kind, which stands after those of the header; `None` where the kind does not know it.
    pub fn pair(self, kind: Kind) -> Option<usize> {
        let at = SeriesValue::all(kind).iter().position(|&value| value == self)?;
        Some(HEADER_PAIRS + at)
    }
}
