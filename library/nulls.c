/* Hands over NULL with length 0, as an empty std::vector does, for every slice of every function; the answers are those for an empty slice. */
#include <stdio.h>
#include <string.h>
#include "lumintayag.h"

enum { ROW = LUMINTAYAG_SERIES_ROW };

static int wrong(int is, const char *what) {
    if (is) fprintf(stderr, "wrong: %s\n", what);
    return is;
}

#define DAY "2031-02-02T23:00Z/2031-02-03T23:00Z"

/* It has no reference, so that it serves as the text of what it shows. */
static const uint8_t sheet[] =
    "<Kostenblatt DtdBDEWNachrichtenVersion=\"1.0\"><DocumentIdentification v=\"D\"/><DocumentVersion v=\"1\"/><DocumentType v=\"Z05\"/><ProcessType v=\"A14\"/>"
    "<SenderIdentification v=\"9900000000017\" codingScheme=\"NDE\"/><SenderRole v=\"A27\"/><ReceiverIdentification v=\"9900000000024\" codingScheme=\"NDE\"/>"
    "<ReceiverRole v=\"A18\"/><DocumentDateTime v=\"2031-02-02T10:15:00Z\"/><TimePeriodCovered v=\"" DAY "\"/><CostTimeSeries>"
    "<TimeSeriesIdentification v=\"\"/><BusinessType v=\"A01\"/><Product v=\"8716867000016\"/><ResourceObject v=\"C0000000017\" codingScheme=\"NDE\"/>"
    "<ResourceProvider v=\"9900000000017\" codingScheme=\"NDE\"/><CurveType v=\"A03\"/><MeasurementUnit v=\"Z02\"/><Period><TimeInterval v=\"" DAY "\"/>"
    "<Resolution v=\"PT15M\"/><Interval><Pos v=\"1\"/><Qty v=\"-0.001\"/></Interval></Period></CostTimeSeries></Kostenblatt>";

/* What is written of the sheet is the sheet, and each slice is missing once. */
static int writes(const uint32_t *row, const uint32_t *position, const int64_t *amount) {
    enum { LEN = sizeof sheet - 1, PAIRS = 2 * (LUMINTAYAG_HEADER_PAIRS + LUMINTAYAG_SERIES_PAIRS) };
    static uint8_t out[LEN];
    uint32_t v[PAIRS], two[LUMINTAYAG_WRITE_NUMBERS];
    int bad = wrong(lumintayag_views(sheet, LEN, v, PAIRS, NULL, 0) != 0, "a sheet to write");
    bad |= wrong(lumintayag_write(2, sheet, LEN, v, PAIRS, 1, row, ROW, position, 1, amount, 1, out, LEN, two, 2) != 0 || two[LUMINTAYAG_WRITE_LEN] != LEN, "a sheet, written");
    bad |= wrong(memcmp(out, sheet, LEN) != 0, "what is written");
    bad |= wrong(lumintayag_write(2, NULL, 0, v, PAIRS, 1, row, ROW, position, 1, amount, 1, out, LEN, two, 2) != 12 || out[0] != 0, "no text");
    bad |= wrong(lumintayag_write(2, sheet, LEN, NULL, 0, 1, row, ROW, position, 1, amount, 1, out, LEN, two, 2) != 12, "no pairs");
    bad |= wrong(lumintayag_write(2, sheet, LEN, v, PAIRS, 1, NULL, 0, position, 1, amount, 1, out, LEN, two, 2) != 12, "no rows of series");
    bad |= wrong(lumintayag_write(2, sheet, LEN, v, PAIRS, 1, row, ROW, NULL, 0, amount, 1, out, LEN, two, 2) != 12, "no positions");
    bad |= wrong(lumintayag_write(2, sheet, LEN, v, PAIRS, 1, row, ROW, position, 1, NULL, 0, out, LEN, two, 2) != 12 || two[LUMINTAYAG_WRITE_REFUSAL] != 12, "no amounts");
    bad |= wrong(lumintayag_write(2, sheet, LEN, v, PAIRS, 1, row, ROW, position, 1, amount, 1, NULL, 0, two, 2) != 13 || two[LUMINTAYAG_WRITE_REFUSAL] != 13, "nothing to write to");
    bad |= wrong(lumintayag_write(2, sheet, LEN, v, PAIRS, 1, row, ROW, position, 1, amount, 1, out, LEN, NULL, 0) != 0 || out[0] != '<', "written, no answer");
    bad |= wrong(lumintayag_write(2, NULL, 0, NULL, 0, 0, NULL, 0, NULL, 0, NULL, 0, NULL, 0, NULL, 0) != 12, "nothing to write");
    bad |= wrong(lumintayag_unescape(NULL, 0, out, LEN) != 0 || out[0] != '<', "no value");
    bad |= wrong(lumintayag_unescape((const uint8_t *)"&#x41;01", 8, NULL, 0) != 3, "a value with nothing to put it to");
    return bad | wrong(lumintayag_unescape(NULL, 0, NULL, 0) != 0, "neither value nor room");
}

int main(void) {
    static const uint8_t root[] = "<Kostenblatt DtdBDEWNachrichtenVersion=\"1.0\">", told[] = {3, 45, 2, 0, 0};
    enum { OLD = LUMINTAYAG_NOTE_OLD, NEW = LUMINTAYAG_NOTE_NEW };
    uint8_t note[LUMINTAYAG_NOTE_ROOM], out[LUMINTAYAG_CONVERTED_ROOM];
    uint32_t answer[LUMINTAYAG_ANSWER_NUMBERS], six[LUMINTAYAG_NOTE_NUMBERS], two[LUMINTAYAG_CONVERTED_NUMBERS], numbers[ROW];
    static const uint32_t row[ROW] = {[LUMINTAYAG_INTERVAL_COUNT] = 1}, position[] = {1};
    static const int64_t amount[] = {-1};
    uint32_t table[2 * LUMINTAYAG_HEADER_PAIRS], told_of[LUMINTAYAG_VIEWS_NUMBERS];
    int64_t amounts[1], total[LUMINTAYAG_TOTAL_NUMBERS], sum[LUMINTAYAG_TOTAL_NUMBERS];
    int bad = wrong(lumintayag_version() != LUMINTAYAG_VERSION, "the version");
    bad |= wrong(lumintayag_read_v3(NULL, 0, numbers, ROW, numbers + ROW, 0, amounts, 1, OLD, note, sizeof note, answer, 7) != 3 || answer[LUMINTAYAG_PLACE] != 0, "no document");
    bad |= wrong(lumintayag_read_v3(root, 45, NULL, 0, NULL, 0, NULL, 0, OLD, note, sizeof note, answer, 7) != 3 || answer[LUMINTAYAG_PLACE] != 45, "no tables");
    bad |= wrong(lumintayag_read_v3(root, 45, NULL, 0, NULL, 0, NULL, 0, OLD, note, sizeof note, NULL, 0) != 3 || note[1] != 45, "no answer");
    bad |= wrong(lumintayag_read_v3(root, 45, NULL, 0, NULL, 0, NULL, 0, NEW, note, sizeof note, NULL, 0) != 3 || note[0] != 100 || note[6] != 1, "no answer, a new note");
    bad |= wrong(lumintayag_read_v3(NULL, 0, NULL, 0, NULL, 0, NULL, 0, OLD, NULL, 0, NULL, 0) != 10, "nothing");
    bad |= wrong(lumintayag_read_v3(NULL, 0, NULL, 0, NULL, 0, NULL, 0, NEW, NULL, 0, NULL, 0) != 10, "nothing, in the new shape");
    bad |= wrong(lumintayag_read_note_v2(NULL, 0, six, 6) != 11 || six[0] != 0, "no note");
    bad |= wrong(lumintayag_read_note_v2(told, sizeof told, NULL, 0) != 0, "no six numbers");
    bad |= wrong(lumintayag_read_note_v2(NULL, 0, NULL, 0) != 11, "neither");
    bad |= wrong(lumintayag_convert_note(NULL, 0, NEW, out, sizeof out, two, 2) != 11 || two[0] != 11 || two[1] != 0 || out[0] != 0, "no note to convert");
    bad |= wrong(lumintayag_convert_note(told, sizeof told, NEW, NULL, 0, two, 2) != 10 || two[0] != 10 || two[1] != 0, "nothing to convert into");
    bad |= wrong(lumintayag_convert_note(told, sizeof told, NEW, out, sizeof out, NULL, 0) != 0 || out[0] != 100, "a note converted, no answer");
    bad |= wrong(lumintayag_convert_note(NULL, 0, OLD, NULL, 0, NULL, 0) != 10, "no note, nothing to convert into, no answer");
    bad |= wrong(lumintayag_readable_len(NULL, 0) != 0, "no document to walk");
    bad |= wrong(lumintayag_totals(2, 1, 0, NULL, 0, NULL, 0, NULL, 0, total, 2, sum, 2) != 0 || total[LUMINTAYAG_WHOLE] != 0 || sum[LUMINTAYAG_WHOLE] != 0, "no series");
    bad |= wrong(lumintayag_totals(2, 1, 1, NULL, 0, NULL, 0, NULL, 0, total, 2, sum, 2) != 18 || sum[LUMINTAYAG_THOUSANDTHS] != 0, "no tables to add up");
    bad |= wrong(lumintayag_totals(2, 1, 1, row, ROW, position, 1, amount, 1, NULL, 0, sum, 2) != 0 || sum[LUMINTAYAG_WHOLE] != -1, "no totals");
    bad |= wrong(lumintayag_totals(2, 1, 1, row, ROW, position, 1, amount, 1, total, 2, NULL, 0) != 0 || total[LUMINTAYAG_THOUSANDTHS] != 999, "no sum");
    bad |= wrong(lumintayag_totals(2, 1, 201, NULL, 0, NULL, 0, NULL, 0, NULL, 0, NULL, 0) != 17, "nothing to add up");
    bad |= wrong(lumintayag_views(NULL, 0, table, 32, told_of, 6) != 3 || told_of[LUMINTAYAG_PLACE] != 0 || table[0] != 0, "no document to view");
    bad |= wrong(lumintayag_views(root, 45, NULL, 0, told_of, 6) != 4 || told_of[LUMINTAYAG_PLACE] != 0 || told_of[LUMINTAYAG_KIND] != 0, "no table of views");
    bad |= wrong(lumintayag_views(root, 45, table, 31, told_of, 6) != 4 || told_of[LUMINTAYAG_KIND] != 0, "a table that is short of a header");
    bad |= wrong(lumintayag_views(root, 45, table, 32, NULL, 0) != 3, "views with no answer");
    bad |= wrong(lumintayag_views(NULL, 0, NULL, 0, NULL, 0) != 4, "nothing to view");
    return bad | writes(row, position, amount);
}
