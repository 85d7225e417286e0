/* What each pair of views shows, kind by kind: the writer is lent the same. */

/* A pair: the element and its attribute, whether spaces at the ends are dropped, and whether it may be absent. */
struct pair {
    const char *element, *attribute;
    int drops, optional;
};

#define V(name, drops) {name, "v", drops, 0}
#define MAY(name, drops) {name, "v", drops, 1}
#define BOTH(name) {name, "v", 0, 0}, {name, "codingScheme", 1, 0}
#define MAY_BOTH(name) {name, "v", 0, 1}, {name, "codingScheme", 1, 1}
#define LAST \
    MAY_BOTH("OriginalSenderIdentification"), MAY("OriginalDocumentIdentification", 0), MAY("OriginalDocumentVersion", 0), \
        MAY("OriginalDocumentDateTime", 1), MAY("OriginalTimeSeriesIdentification", 0), V("TimeInterval", 0), V("Resolution", 1)

/* The element of the root is any of three, and NULL here. What a kind does not know has no attribute. */
static const struct pair HEADER_1[LUMINTAYAG_HEADER_PAIRS] = {
    {NULL, NULL, 0, 0}, {NULL, NULL, 0, 0}, {NULL, "DtdBDEWNachrichtenVersion", 0, 0}, V("DocumentIdentification", 0), V("DocumentVersion", 1),
    V("DocumentType", 1), V("ProcessType", 1), BOTH("SenderIdentification"), V("SenderRole", 1), BOTH("ReceiverIdentification"), V("ReceiverRole", 1),
    V("DocumentDateTime", 1), V("TimePeriodCovered", 0),
};
static const struct pair HEADER_3[LUMINTAYAG_HEADER_PAIRS] = {
    {NULL, "DtdVersion", 0, 0}, {NULL, "DtdRelease", 0, 0}, {NULL, "DtdBDEWNachrichtenVersion", 0, 1}, V("DocumentIdentification", 0),
    V("DocumentVersion", 1), V("DocumentType", 1), V("ProcessType", 1), BOTH("SenderIdentification"), V("SenderRole", 1), BOTH("ReceiverIdentification"),
    V("ReceiverRole", 1), V("DocumentDateTime", 1), V("TimePeriodCovered", 0), MAY("DocStatus", 1),
};
static const struct pair SERIES_1[LUMINTAYAG_SERIES_PAIRS] = {
    V("TimeSeriesIdentification", 0), V("BusinessType", 1), V("Product", 1), BOTH("InArea"), BOTH("OutArea"), BOTH("InParty"), BOTH("OutParty"),
    V("MeasurementUnit", 1), LAST,
};
static const struct pair SERIES_2[LUMINTAYAG_SERIES_PAIRS] = {
    V("TimeSeriesIdentification", 0), V("BusinessType", 1), MAY("Direction", 1), V("Product", 1), MAY_BOTH("ConnectingArea"), BOTH("ResourceObject"),
    BOTH("ResourceProvider"), V("CurveType", 1), V("MeasurementUnit", 1), MAY("Status", 1), LAST,
};
static const struct pair SERIES_3[LUMINTAYAG_SERIES_PAIRS] = {
    V("TimeSeriesIdentification", 0), V("BusinessType", 1), V("Direction", 1), BOTH("ConnectingArea"), BOTH("ResourceObject"), MAY_BOTH("ResourceProvider"),
    MAY_BOTH("RequestingGridOperator"), MAY_BOTH("GridElement"), V("MeasurementUnit", 1), LAST,
};
