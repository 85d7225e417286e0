/* 200 pairs of documents that differ only in digits of readable Qty values, each read once with a note in the old shape and once in the new, or,
 * with an argument, viewed once. Under callgrind, which counts the instructions of lumintayag_read_v3 or of lumintayag_views alone, each call leaves one count.
 * No document and no amount is written anywhere. */
#include <stdint.h>
#include <stdio.h>
#include <string.h>
#include <valgrind/callgrind.h>

#include "../../library/lumintayag.h"

/* VIEWS stands in the place of a shape: the document is viewed. */
enum { PAIRS = 200, ROOM = 65536, CELLS = 2 * (LUMINTAYAG_HEADER_PAIRS + LUMINTAYAG_SERIES_PAIRS), VIEWS = 2 };

static uint64_t seed = 20261115;

static unsigned chance(unsigned n) {
    seed = seed * 6364136223846793005u + 1442695040888963407u;
    return (unsigned)((seed >> 33) % n);
}

static char text[2][ROOM];
static size_t at;

static void both(const char *s) {
    size_t n = strlen(s);
    memcpy(text[0] + at, s, n);
    memcpy(text[1] + at, s, n);
    at += n;
}

static void digits(unsigned n) {
    while (n-- > 0) {
        text[0][at] = (char)('0' + chance(10));
        text[1][at] = (char)('0' + chance(10));
        at++;
    }
}

/* Of every shape that an amount can have, and now and then of one that it cannot. Signs, points, spaces and one digit may stand by reference: the digits of a
 * reference are no readable ones, and are the same in both documents. */
static void amount(int bad) {
    unsigned plain = bad ? 13 : 1 + chance(12);
    both(chance(2) ? "  " : chance(2) ? "&#32; " : "");
    both(chance(2) ? "-" : chance(2) ? "&#x2D;" : "");
    if (plain > 1 && chance(3) == 0) {
        digits(--plain);
        both("&#50;");
    } else digits(plain);
    if (chance(2)) {
        both(chance(3) ? "." : "&#46;");
        digits(1 + chance(3));
    }
    both(chance(3) ? "" : chance(2) ? " " : "&#x20;");
}

static void document(unsigned pair) {
    static const char *const head =
        "<Kostenblatt DtdBDEWNachrichtenVersion=\"1.0\"><DocumentIdentification v=\"D-1\"/><DocumentVersion v=\"3\"/><DocumentType v=\"Z05\"/>"
        "<ProcessType v=\"A14\"/><SenderIdentification v=\"4012345000016\" codingScheme=\"A10\"/><SenderRole v=\"A27\"/>"
        "<ReceiverIdentification v=\"4012345000023\" codingScheme=\"NDE\"/><ReceiverRole v=\"A39\"/><DocumentDateTime v=\"2024-05-06T07:08:09Z\"/>"
        "<TimePeriodCovered v=\"2024-05-06T22:00Z/2024-05-07T22:00Z\"/><CostTimeSeries><TimeSeriesIdentification v=\"S-1\"/><BusinessType v=\"A01\"/>"
        "<Product v=\"8716867000016\"/><ResourceObject v=\"C0ABCDEFGH1\" codingScheme=\"NDE\"/><ResourceProvider v=\"4012345000030\" codingScheme=\"A10\"/>"
        "<CurveType v=\"A03\"/><MeasurementUnit v=\"Z02\"/><Period><TimeInterval v=\"2024-05-06T22:00Z/2024-05-07T22:00Z\"/><Resolution v=\"PT15M\"/>";
    unsigned intervals = 1 + chance(96);
    char pos[32];
    at = 0;
    both(head);
    if (pair % 10 == 8) { /* a Qty that is not due */
        both("<Qty v=\"");
        amount(0);
        both("\"/>");
    }
    for (unsigned i = 1; i <= intervals; i++) {
        snprintf(pos, sizeof pos, "<Interval><Pos v=\"%u\"/><Qty v=\"", i);
        both(pos);
        amount(pair % 10 == 9 && i == intervals); /* an amount against its form */
        both("\"/></Interval>");
    }
    both("</Period></CostTimeSeries></Kostenblatt>");
}

/* Both documents of a pair are read from one place into the same buffers: what the C library does depends on how they lie in memory. */
static uint8_t doc[ROOM], note[16], notes[2][16];
static uint32_t series[64], positions[128], answer[7], answers[2][7], table[CELLS], tables[2][CELLS];
static int64_t amounts[128];

static void count(int k, size_t rows, uint32_t shape) {
    memcpy(doc, text[k], at);
    CALLGRIND_ZERO_STATS;
    if (shape == VIEWS) lumintayag_views(doc, at, table, rows < 128 ? 40 : CELLS, answer, 7);
    else lumintayag_read_v3(doc, at, series, 64, positions, rows, amounts, 128, shape, note, 16, answer, 7);
    CALLGRIND_DUMP_STATS;
    memcpy(tables[k], table, sizeof table);
    memcpy(answers[k], answer, sizeof answer);
    memcpy(notes[k], note, sizeof note);
}

/* What is asked for and the refusal; 0 where answers, notes or views differ. */
static int compared(unsigned pair, uint32_t shape) {
    for (int k = 0; k < 2; k++) count(k, pair % 7 == 6 ? 20 : 128, shape); /* now and then a table that is full */
    if (memcmp(answers[0], answers[1], sizeof answer) != 0 || memcmp(notes[0], notes[1], sizeof note) != 0 || memcmp(tables[0], tables[1], sizeof table) != 0) {
        printf("pair %u: the answers differ\n", pair);
        return 0;
    }
    printf("%s %u\n", shape == VIEWS ? "views" : shape == LUMINTAYAG_NOTE_OLD ? "old" : "new", (unsigned)answer[0]);
    return 1;
}

int main(int argc, char **argv) {
    int viewed = argc > 1 && argv[1] != NULL;
    /* the linker's work is done here */
    if (viewed) lumintayag_views(doc, 0, table, CELLS, answer, 7);
    else lumintayag_read_v3(doc, 0, series, 64, positions, 128, amounts, 128, LUMINTAYAG_NOTE_OLD, note, 16, answer, 7);
    for (unsigned pair = 0; pair < PAIRS; pair++) {
        document(pair);
        if (viewed ? !compared(pair, VIEWS) : !compared(pair, LUMINTAYAG_NOTE_OLD) || !compared(pair, LUMINTAYAG_NOTE_NEW)) return 1;
    }
    return 0;
}
