/*
 * The plants of a sheet by price, cheapest first and like with like, with the UTC time at which each quarter hour begins. The sheet is invented.
 * usage: plants [QUARTER]     the quarter hour, of which 1 is the first of TimePeriodCovered; else each one in which a price changes
 *
 * A price is ranked beside those of the same BusinessType, Direction, MeasurementUnit and area of a Kostenblatt alone; `-` stands for a Direction or an
 * area that a series does not have. The unit (euros per piece, per megawatt hour or per hour) and the times are shown by lumintayag_views. A value may hold
 * references, so that it is compared and printed by what it says.
 */
#include <inttypes.h>
#include <stdio.h>
#include <stdlib.h>
#include <string.h>
#include "../lumintayag.h"

#define DAY "2031-02-02T23:00Z/2031-02-03T23:00Z"
#define UP "<Direction v=\"A01\"/>"
#define DOWN "<Direction v=\"A02\"/>"
#define AREA(code) "<ConnectingArea v=\"" code "\" codingScheme=\"A01\"/>"
#define NORTH AREA("10YFLENSBURG---3")
#define SOUTH AREA("10YDE-ENBW-----N")
#define PLANT(id, business_type, direction, area, object, unit, prices) \
    "<CostTimeSeries><TimeSeriesIdentification v=\"" id "\"/><BusinessType v=\"" business_type "\"/>" direction "<Product v=\"8716867000016\"/>" area \
    "<ResourceObject v=\"" object "\" codingScheme=\"NDE\"/><ResourceProvider v=\"9900000000017\" codingScheme=\"NDE\"/><CurveType v=\"A03\"/>" \
    "<MeasurementUnit v=\"" unit "\"/><Period><TimeInterval v=\"" DAY "\"/><Resolution v=\"PT15M\"/>" prices "</Period></CostTimeSeries>"
#define FROM(pos, price) "<Interval><Pos v=\"" pos "\"/><Qty v=\"" price "\"/></Interval>"

/* Energy of three plants, up and down, in euros per megawatt hour; what a start costs, in euros per piece and of one plant in euros per hour, which may not
 * be ranked beside the others; and an hour more, in euros, which has no Direction. */
static const char sheet[] =
    "<Kostenblatt DtdBDEWNachrichtenVersion=\"1.0\"><DocumentIdentification v=\"KB-7\"/><DocumentVersion v=\"1\"/><DocumentType v=\"Z05\"/>"
    "<ProcessType v=\"A14\"/><SenderIdentification v=\"9900000000017\" codingScheme=\"NDE\"/><SenderRole v=\"A27\"/>"
    "<ReceiverIdentification v=\"9900000000024\" codingScheme=\"NDE\"/><ReceiverRole v=\"A18\"/><DocumentDateTime v=\"2031-02-02T10:15:00Z\"/>"
    "<TimePeriodCovered v=\"" DAY "\"/>"
    PLANT("Neckar, up", "A01", UP, SOUTH, "C0000000017", "Z02", FROM("1", "84.5") FROM("29", "61.25") FROM("81", "97"))
    PLANT("Neckar, down", "A01", DOWN, SOUTH, "C0000000017", "Z02", FROM("1", "-40") FROM("41", "12.5"))
    PLANT("Neckar, start", "Z01", UP, SOUTH, "C0000000017", "Z01", FROM("1", "1250"))
    PLANT("Neckar, hour", "Z02", "", SOUTH, "C0000000017", "Z03", FROM("1", "310"))
    PLANT("Isar &amp; Amper, up", "A0&#49;", UP, SOUTH, "C0000000025", "Z02", FROM("1", "72"))
    PLANT("Isar, down", "A01", DOWN, SOUTH, "C0000000025", "Z02", FROM("1", "3.25"))
    PLANT("Isar, start", "Z01", UP, SOUTH, "C0000000025", "Z01", FROM("1", "980") FROM("41", "1400.5"))
    PLANT("Oste, up", "A01", UP, NORTH, "C0000000033", "Z02", FROM("1", "55.125") FROM("41", "-3.75") FROM("57", "120.001"))
    PLANT("Oste, start", "Z01", UP, SOUTH, "C0000000033", "Z03", FROM("1", "40.5"))
    PLANT("Oste, hour", "Z02", "", "", "C0000000033", "Z03", FROM("1", "275.5"))
    "</Kostenblatt>";

enum { SERIES = 64, INTERVALS = 2048, PAIRS = 2 * (LUMINTAYAG_HEADER_PAIRS + SERIES * LUMINTAYAG_SERIES_PAIRS) };

static uint32_t series[SERIES * LUMINTAYAG_SERIES_ROW], positions[INTERVALS], answer[LUMINTAYAG_ANSWER_NUMBERS];
static int64_t amounts[INTERVALS];
static uint8_t note[LUMINTAYAG_NOTE_ROOM];
static uint32_t views[PAIRS], told[LUMINTAYAG_VIEWS_NUMBERS];

/* A series by its number, and its price. */
struct offer { uint32_t i; int64_t price; };

/* What a value says, at most 36 characters in UTF-8. */
struct said { size_t length; char text[4 * 36]; };

/* What pair k of a series says, `-` where it is absent: a value that starts at 0. */
static struct said said_by(int k, uint32_t i) {
    const uint32_t *pair = views + LUMINTAYAG_PAIR(k, i);
    struct said said = {1, "-"};
    if (pair[0] != 0) said.length = lumintayag_unescape((const uint8_t *)sheet + pair[0], pair[1], (uint8_t *)said.text, sizeof said.text);
    return said;
}

/* By what pair k says of two series; one that is absent comes first. */
static int by_view(uint32_t i, uint32_t j, int k) {
    int absent = (views[LUMINTAYAG_PAIR(k, j)] == 0) - (views[LUMINTAYAG_PAIR(k, i)] == 0);
    struct said a = said_by(k, i), b = said_by(k, j);
    int order = memcmp(a.text, b.text, a.length < b.length ? a.length : b.length);
    return absent != 0 ? absent : order != 0 ? order : (a.length > b.length) - (a.length < b.length);
}

static const int like[] = {LUMINTAYAG_VIEW_2_BUSINESS_TYPE, LUMINTAYAG_VIEW_2_DIRECTION, LUMINTAYAG_VIEW_2_MEASUREMENT_UNIT, LUMINTAYAG_VIEW_2_CONNECTING_AREA};
enum { LIKE = sizeof like / sizeof *like };

static int by_price(const void *a, const void *b) {
    const struct offer *x = a, *y = b;
    for (int l = 0; l < LIKE; l++) {
        int order = by_view(x->i, y->i, like[l]);
        if (order != 0) return order;
    }
    if (x->price != y->price) return x->price < y->price ? -1 : 1;
    return by_view(x->i, y->i, LUMINTAYAG_VIEW_2_RESOURCE_OBJECT);
}

/* The amount of a quarter hour from 1 to N: an amount stands until the next Pos. */
static int64_t amount_at(const uint32_t *row, uint32_t quarter) {
    uint32_t k = row[LUMINTAYAG_FIRST_INTERVAL], end = k + row[LUMINTAYAG_INTERVAL_COUNT];
    while (k + 1 < end && positions[k + 1] <= quarter) k++;
    return amounts[k];
}

/* Minutes since 2000-01-01T00:00Z as a time. From 2000 to 2099 every fourth year is a leap year. */
static void print_time(uint32_t minutes) {
    static const uint32_t before[] = {0, 31, 60, 91, 121, 152, 182, 213, 244, 274, 305, 335}; /* days before each month of a leap year */
    uint32_t day = minutes / 1440 % 1461, year = minutes / 1440 / 1461 * 4, month = 11;
    if (day >= 366) year += 1 + (day - 366) / 365, day = (day - 366) % 365, day += day >= 59; /* as if it had a 29 February */
    while (before[month] > day) month--;
    printf("%04" PRIu32 "-%02" PRIu32 "-%02" PRIu32 "T%02" PRIu32 ":%02" PRIu32 "Z", 2000 + year, month + 1, day - before[month] + 1, minutes / 60 % 24,
           minutes % 60);
}

static void print_view(int k, uint32_t i) {
    struct said said = said_by(k, i);
    printf("%.*s", (int)said.length, said.text);
}

static void print_offer(struct offer o) {
    uint64_t size = (uint64_t)llabs(o.price);
    for (int l = 0; l < LIKE; l++) printf(" "), print_view(like[l], o.i);
    printf(" "), print_view(LUMINTAYAG_VIEW_2_RESOURCE_OBJECT, o.i);
    printf(" %s%" PRIu64 ".%03" PRIu64 " (", o.price < 0 ? "-" : "", size / 1000, size % 1000);
    print_view(LUMINTAYAG_VIEW_2_TIME_SERIES_IDENTIFICATION, o.i), printf(")\n");
}

/* A line for each series, from the time at which the quarter hour begins on. */
static void print_quarter(uint32_t quarter) {
    static struct offer offers[SERIES];
    uint32_t count = answer[LUMINTAYAG_SERIES];
    for (uint32_t i = 0; i < count; i++) offers[i] = (struct offer){i, amount_at(series + i * LUMINTAYAG_SERIES_ROW, quarter)};
    qsort(offers, count, sizeof *offers, by_price);
    for (uint32_t i = 0; i < count; i++) print_time(told[LUMINTAYAG_FROM] + 15 * (quarter - 1)), print_offer(offers[i]);
}

static int changes_at(uint32_t quarter) {
    for (uint32_t k = 0; k < answer[LUMINTAYAG_INTERVALS]; k++)
        if (positions[k] == quarter) return 1;
    return 0;
}

int main(int argc, char **argv) {
    unsigned long quarter = argc > 1 ? strtoul(argv[1], NULL, 10) : 1;
    const uint8_t *doc = (const uint8_t *)sheet;
    if (lumintayag_read_v3(doc, sizeof sheet - 1, series, SERIES * LUMINTAYAG_SERIES_ROW, positions, INTERVALS, amounts, INTERVALS, LUMINTAYAG_NOTE_OLD, note,
                           sizeof note, answer, LUMINTAYAG_ANSWER_NUMBERS))
        return fprintf(stderr, "refusal %" PRIu32 " at %" PRIu32 "\n", answer[LUMINTAYAG_REFUSAL], answer[LUMINTAYAG_PLACE]), 1;
    if (lumintayag_views(doc, sizeof sheet - 1, views, PAIRS, told, LUMINTAYAG_VIEWS_NUMBERS))
        return fprintf(stderr, "refusal %" PRIu32 " at %" PRIu32 "\n", told[LUMINTAYAG_REFUSAL], told[LUMINTAYAG_PLACE]), 1;
    if (answer[LUMINTAYAG_KIND] != LUMINTAYAG_KOSTENBLATT)
        return fprintf(stderr, "a document of kind %" PRIu32 " has no prices\n", answer[LUMINTAYAG_KIND]), 1;
    if (argc > 2 || quarter < 1 || quarter > answer[LUMINTAYAG_QUARTERS])
        return fprintf(stderr, "usage: plants [QUARTER], from 1 to %" PRIu32 "\n", answer[LUMINTAYAG_QUARTERS]), 2;
    if (argc == 2) return print_quarter((uint32_t)quarter), 0;
    for (uint32_t q = 1; q <= answer[LUMINTAYAG_QUARTERS]; q++)
        if (changes_at(q)) print_quarter(q);
    return 0;
}
