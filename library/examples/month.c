/*
 * A month of sheets added up in memory: what each plant comes to, and what all of them do. The sheets are invented, one for each day of March 2031.
 * usage: month
 *
 * Every series here has euros per hour (MeasurementUnit Z03), so that they may be added up: a total is euros per hour times quarter hours, and a quarter
 * of it is euros. The 30th has 92 quarter hours, since the clock goes forward.
 */
#include <inttypes.h>
#include <stdio.h>
#include <string.h>
#include "../lumintayag.h"

enum { DAYS = 31, PLANTS = 3, SERIES = 64, INTERVALS = 2048 };

#define HEAD \
    "<Kostenblatt DtdBDEWNachrichtenVersion=\"1.0\"><DocumentIdentification v=\"KB-%u\"/><DocumentVersion v=\"1\"/><DocumentType v=\"Z05\"/>" \
    "<ProcessType v=\"A14\"/><SenderIdentification v=\"9900000000017\" codingScheme=\"NDE\"/><SenderRole v=\"A27\"/>" \
    "<ReceiverIdentification v=\"9900000000024\" codingScheme=\"NDE\"/><ReceiverRole v=\"A18\"/><DocumentDateTime v=\"2031-02-28T10:15:00Z\"/>" \
    "<TimePeriodCovered v=\"%s\"/>"
#define PLANT(id, object, prices) \
    "<CostTimeSeries><TimeSeriesIdentification v=\"" id "\"/><BusinessType v=\"Z02\"/><Product v=\"8716867000016\"/>" \
    "<ResourceObject v=\"" object "\" codingScheme=\"NDE\"/><ResourceProvider v=\"9900000000017\" codingScheme=\"NDE\"/><CurveType v=\"A03\"/>" \
    "<MeasurementUnit v=\"Z03\"/><Period><TimeInterval v=\"%s\"/><Resolution v=\"PT15M\"/>" prices "</Period></CostTimeSeries>"
#define FROM(pos, price) "<Interval><Pos v=\"" pos "\"/><Qty v=\"" price "\"/></Interval>"

static const char *const plants[PLANTS] = {"Isar", "Neckar", "Oste"};
static char doc[8192];
static uint32_t series[SERIES * LUMINTAYAG_SERIES_ROW], positions[INTERVALS], answer[LUMINTAYAG_ANSWER_NUMBERS];
static int64_t amounts[INTERVALS], totals[LUMINTAYAG_TOTALS_MOST * LUMINTAYAG_TOTAL_NUMBERS];
static uint8_t note[LUMINTAYAG_NOTE_ROOM];

/* The local midnight at which a day of March begins. */
static const char *midnight(unsigned day, char text[32]) {
    if (day == 1) return "2031-02-28T23:00Z";
    snprintf(text, 32, "2031-03-%02uT%s:00Z", (day - 1) % 100, day <= 30 ? "23" : "22");
    return text;
}

static size_t put_document(unsigned day) {
    char begin[32], end[32], covered[80];
    snprintf(covered, sizeof covered, "%s/%s", midnight(day, begin), midnight(day + 1, end));
    int length = snprintf(doc, sizeof doc,
                          HEAD PLANT("Neckar", "C0000000017", FROM("1", "%u") FROM("29", "275.25")) PLANT("Isar", "C0000000025", FROM("1", "-12.125"))
                              PLANT("Oste", "C0000000033", FROM("1", "0.001") FROM("41", "-%u.5")) "</Kostenblatt>",
                          day, covered, covered, 300 + day, covered, covered, day);
    return (size_t)length;
}

/* A total has its thousandths from 0 to 999, so that a carry is all there is to see to. Those of a month are far from the largest number. */
static void add(int64_t *sum, const int64_t *total) {
    sum[LUMINTAYAG_WHOLE] += total[LUMINTAYAG_WHOLE];
    sum[LUMINTAYAG_THOUSANDTHS] += total[LUMINTAYAG_THOUSANDTHS];
    if (sum[LUMINTAYAG_THOUSANDTHS] < 1000) return;
    sum[LUMINTAYAG_THOUSANDTHS] -= 1000;
    sum[LUMINTAYAG_WHOLE]++;
}

/* -0.001 is -1 and 999. */
static void print_total(const char *name, const int64_t *total) {
    int64_t whole = total[LUMINTAYAG_WHOLE], rest = total[LUMINTAYAG_THOUSANDTHS];
    int negative = whole < 0;
    if (negative && rest > 0) whole++, rest = 1000 - rest;
    printf("%s: %s%" PRIu64 ".%03" PRId64 "\n", name, negative ? "-" : "", negative ? 0 - (uint64_t)whole : (uint64_t)whole, rest);
}

static int is_plant(const uint32_t *row, const char *name) {
    size_t length = row[LUMINTAYAG_IDENTIFICATION + 1];
    return length == strlen(name) && memcmp(doc + row[LUMINTAYAG_IDENTIFICATION], name, length) == 0;
}

int main(void) {
    int64_t sums[PLANTS][LUMINTAYAG_TOTAL_NUMBERS] = {{0}}, sum[LUMINTAYAG_TOTAL_NUMBERS], all[LUMINTAYAG_TOTAL_NUMBERS] = {0};
    for (unsigned day = 1; day <= DAYS; day++) {
        if (lumintayag_read_v3((const uint8_t *)doc, put_document(day), series, SERIES * LUMINTAYAG_SERIES_ROW, positions, INTERVALS, amounts, INTERVALS,
                               LUMINTAYAG_NOTE_OLD, note, sizeof note, answer, LUMINTAYAG_ANSWER_NUMBERS))
            return fprintf(stderr, "day %u: refusal %" PRIu32 " at %" PRIu32 "\n", day, answer[LUMINTAYAG_REFUSAL], answer[LUMINTAYAG_PLACE]), 1;
        uint32_t refusal = lumintayag_totals(answer[LUMINTAYAG_KIND], answer[LUMINTAYAG_QUARTERS], answer[LUMINTAYAG_SERIES], series,
                                             SERIES * LUMINTAYAG_SERIES_ROW, positions, INTERVALS, amounts, INTERVALS, totals,
                                             LUMINTAYAG_TOTALS_MOST * LUMINTAYAG_TOTAL_NUMBERS, sum, LUMINTAYAG_TOTAL_NUMBERS);
        if (refusal) return fprintf(stderr, "day %u: refusal %" PRIu32 "\n", day, refusal), 1;
        for (uint32_t i = 0; i < answer[LUMINTAYAG_SERIES]; i++)
            for (int k = 0; k < PLANTS; k++)
                if (is_plant(series + i * LUMINTAYAG_SERIES_ROW, plants[k])) add(sums[k], totals + i * LUMINTAYAG_TOTAL_NUMBERS);
        add(all, sum);
    }
    for (int k = 0; k < PLANTS; k++) print_total(plants[k], sums[k]);
    print_total("all", all);
    return 0;
}
