/*
 * Writes a Kostenblatt to standard output, in either of two ways. The sheets are invented.
 * usage: write read     a sheet that is read, and written as its next version with every price 1.5 higher
 *        write new      a sheet of two plants, from tables
 *
 * Both ways need the same: a text of values with no references, a pair (start and length in the text) for each value as lumintayag_views lays them, and
 * the three tables as lumintayag_read_v3 leaves them.
 */
#include <inttypes.h>
#include <stdio.h>
#include <string.h>
#include "../lumintayag.h"

#define DAY "2031-02-02T23:00Z/2031-02-03T23:00Z"

enum { SERIES = 64, INTERVALS = 2048, PAIRS = 2 * (LUMINTAYAG_HEADER_PAIRS + SERIES * LUMINTAYAG_SERIES_PAIRS) };

static uint8_t text[8192], out[LUMINTAYAG_DOCUMENT_MOST], note[LUMINTAYAG_NOTE_ROOM];
static size_t end = 1; /* of the text; no value starts at 0, since 0 and 0 is a value that is absent */
static uint32_t pairs[PAIRS], series[SERIES * LUMINTAYAG_SERIES_ROW], positions[INTERVALS], answer[LUMINTAYAG_ANSWER_NUMBERS];
static uint32_t told[LUMINTAYAG_VIEWS_NUMBERS], written[LUMINTAYAG_WRITE_NUMBERS];
static int64_t amounts[INTERVALS];

/* Pair k of series i, and of the header with i of 0, shows this value. One that finds no room in the text is a pair past it, and refused with 12. */
static void put(int k, uint32_t i, const char *value) {
    uint32_t *pair = pairs + LUMINTAYAG_PAIR(k, i);
    size_t length = strlen(value), room = sizeof text - end;
    memcpy(text + end, value, length < room ? length : room);
    pair[0] = (uint32_t)end, pair[1] = (uint32_t)length;
    end += length < room ? length : room;
}

static int write_sheet(uint32_t kind, uint32_t count) {
    uint32_t refusal = lumintayag_write(kind, text, end, pairs, PAIRS, count, series, SERIES * LUMINTAYAG_SERIES_ROW, positions, INTERVALS, amounts, INTERVALS,
                                        out, sizeof out, written, LUMINTAYAG_WRITE_NUMBERS);
    if (refusal) return fprintf(stderr, "refusal %" PRIu32 "\n", refusal), 1;
    return fwrite(out, 1, written[LUMINTAYAG_WRITE_LEN], stdout) != written[LUMINTAYAG_WRITE_LEN];
}

/* ---- A sheet that is read. */

static const char sheet[] =
    "<?xml version='1.0'?>\n<Kostenblatt DtdBDEWNachrichtenVersion='1.0'><DocumentIdentification v='KB-7'/><DocumentVersion v='1'/>\n"
    "<DocumentType v='Z05'/><ProcessType v=' A14 '/><SenderIdentification codingScheme='NDE' v='9900000000017'/><SenderRole v='A27'/>\n"
    "<ReceiverIdentification v='9900000000024' codingScheme='NDE'/><ReceiverRole v='A18'/><DocumentDateTime v='2031-02-02T10:15:00Z'/>\n"
    "<TimePeriodCovered v='" DAY "'/>\n<CostTimeSeries><TimeSeriesIdentification v='Neckar &amp; &#x45;nz'/><BusinessType v='A0&#49;'/>\n"
    "<Product v='8716867000016'/><ResourceObject v='C0000000017' codingScheme='NDE'/><ResourceProvider v='9900000000017' codingScheme='NDE'/>\n"
    "<CurveType v='A03'/><MeasurementUnit v='Z02'/><Period><TimeInterval v='" DAY "'/><Resolution v='PT15M'/>\n"
    "<Interval><Pos v='1'/><Qty v='084.50'/></Interval><Interval><Pos v='29'/><Qty v='-1.5'/></Interval></Period></CostTimeSeries></Kostenblatt>\n";

/* The pairs that show the sheet, turned into pairs of the text: what each value says. That is no longer than the value, so that a text as long as the sheet has room. */
static void put_said(size_t cells) {
    for (uint32_t *pair = pairs; pair < pairs + cells; pair += 2) {
        if (pair[0] == 0) continue;
        size_t length = lumintayag_unescape((const uint8_t *)sheet + pair[0], pair[1], text + end, sizeof text - end);
        pair[0] = (uint32_t)end, pair[1] = (uint32_t)length;
        end += length;
    }
}

static int write_read(void) {
    const uint8_t *doc = (const uint8_t *)sheet;
    if (lumintayag_read_v3(doc, sizeof sheet - 1, series, SERIES * LUMINTAYAG_SERIES_ROW, positions, INTERVALS, amounts, INTERVALS, LUMINTAYAG_NOTE_OLD, note,
                           sizeof note, answer, LUMINTAYAG_ANSWER_NUMBERS))
        return fprintf(stderr, "refusal %" PRIu32 " at %" PRIu32 "\n", answer[LUMINTAYAG_REFUSAL], answer[LUMINTAYAG_PLACE]), 1;
    if (lumintayag_views(doc, sizeof sheet - 1, pairs, PAIRS, told, LUMINTAYAG_VIEWS_NUMBERS))
        return fprintf(stderr, "refusal %" PRIu32 " at %" PRIu32 "\n", told[LUMINTAYAG_REFUSAL], told[LUMINTAYAG_PLACE]), 1;
    put_said(LUMINTAYAG_PAIR(LUMINTAYAG_HEADER_PAIRS, answer[LUMINTAYAG_SERIES]));
    put(LUMINTAYAG_VIEW_DOCUMENT_VERSION, 0, "2");
    for (uint32_t k = 0; k < answer[LUMINTAYAG_INTERVALS]; k++) amounts[k] += 1500;
    return write_sheet(answer[LUMINTAYAG_KIND], answer[LUMINTAYAG_SERIES]);
}

/* ---- A sheet from tables. */

struct value { int k; const char *value; };

static const struct value header[] = {
    {LUMINTAYAG_VIEW_DTD_BDEW_NACHRICHTEN_VERSION, "1.0"}, {LUMINTAYAG_VIEW_DOCUMENT_IDENTIFICATION, "KB-8"},
    {LUMINTAYAG_VIEW_DOCUMENT_VERSION, "1"}, {LUMINTAYAG_VIEW_DOCUMENT_TYPE, "Z05"}, {LUMINTAYAG_VIEW_PROCESS_TYPE, "A14"},
    {LUMINTAYAG_VIEW_SENDER_IDENTIFICATION, "9900000000017"}, {LUMINTAYAG_VIEW_SENDER_SCHEME, "NDE"}, {LUMINTAYAG_VIEW_SENDER_ROLE, "A27"},
    {LUMINTAYAG_VIEW_RECEIVER_IDENTIFICATION, "9900000000024"}, {LUMINTAYAG_VIEW_RECEIVER_SCHEME, "NDE"}, {LUMINTAYAG_VIEW_RECEIVER_ROLE, "A18"},
    {LUMINTAYAG_VIEW_DOCUMENT_DATE_TIME, "2031-02-02T10:15:00Z"}, {LUMINTAYAG_VIEW_TIME_PERIOD_COVERED, DAY},
};

/* What the series have in common. A Direction, a ConnectingArea, a Status or Originals that are not put are absent. */
static const struct value common[] = {
    {LUMINTAYAG_VIEW_2_BUSINESS_TYPE, "A01"}, {LUMINTAYAG_VIEW_2_PRODUCT, "8716867000016"}, {LUMINTAYAG_VIEW_2_RESOURCE_OBJECT_SCHEME, "NDE"},
    {LUMINTAYAG_VIEW_2_RESOURCE_PROVIDER, "9900000000017"}, {LUMINTAYAG_VIEW_2_RESOURCE_PROVIDER_SCHEME, "NDE"}, {LUMINTAYAG_VIEW_2_CURVE_TYPE, "A03"},
    {LUMINTAYAG_VIEW_2_MEASUREMENT_UNIT, "Z02"}, {LUMINTAYAG_VIEW_2_TIME_INTERVAL, DAY}, {LUMINTAYAG_VIEW_2_RESOLUTION, "PT15M"},
};

static const struct { const char *identification, *direction, *object; uint32_t intervals; } plants[] = {
    {"Neckar & Enz", "A01", "C0000000017", 3},
    {"Oste", NULL, "C0000000033", 1},
};

/* The intervals of both, one after the other: 84.5 from quarter hour 1 on, -61.25 from 29 on, and so on. */
static const struct { uint32_t position; int64_t amount; } intervals[] = {{1, 84500}, {29, -61250}, {81, 97000}, {1, 275125}};

static int write_new(void) {
    enum { HEADER = sizeof header / sizeof *header, COMMON = sizeof common / sizeof *common, PLANTS = sizeof plants / sizeof *plants };
    uint32_t row = 0;
    for (int l = 0; l < HEADER; l++) put(header[l].k, 0, header[l].value);
    for (uint32_t i = 0; i < PLANTS; i++) {
        for (int l = 0; l < COMMON; l++) put(common[l].k, i, common[l].value);
        put(LUMINTAYAG_VIEW_2_TIME_SERIES_IDENTIFICATION, i, plants[i].identification);
        put(LUMINTAYAG_VIEW_2_RESOURCE_OBJECT, i, plants[i].object);
        if (plants[i].direction) put(LUMINTAYAG_VIEW_2_DIRECTION, i, plants[i].direction);
        series[i * LUMINTAYAG_SERIES_ROW + LUMINTAYAG_FIRST_INTERVAL] = row;
        series[i * LUMINTAYAG_SERIES_ROW + LUMINTAYAG_INTERVAL_COUNT] = plants[i].intervals;
        row += plants[i].intervals;
    }
    for (uint32_t k = 0; k < row; k++) positions[k] = intervals[k].position, amounts[k] = intervals[k].amount;
    return write_sheet(LUMINTAYAG_KOSTENBLATT, PLANTS);
}

int main(int argc, char **argv) {
    if (argc == 2 && strcmp(argv[1], "read") == 0) return write_read();
    if (argc == 2 && strcmp(argv[1], "new") == 0) return write_new();
    return fprintf(stderr, "usage: write read|new\n"), 2;
}
