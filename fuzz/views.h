/* Views of the documents that harness.c reads: the plain module and the checked one have to leave the same, the reader's own answer is held against theirs,
 * and each pair against the bytes around what it shows. */

uint32_t checked_lumintayag_views(const uint8_t *doc, size_t doc_len, uint32_t *table, size_t table_len, uint32_t *answer, size_t answer_len);

enum { HEADER_CELLS = 2 * LUMINTAYAG_HEADER_PAIRS, SERIES_CELLS = 2 * LUMINTAYAG_SERIES_PAIRS, MOST_SERIES = 16, MOST_INTERVALS = 1024 };

#include "pairs.h"

struct views {
    uint8_t *doc;
    uint32_t *table, *answer, returned;
};

typedef uint32_t viewing(const uint8_t *, size_t, uint32_t *, size_t, uint32_t *, size_t);

static struct views view_by(viewing *view, const uint8_t *doc, size_t answer_len, int pattern) {
    struct views o = {filled(length, 0), filled(4 * lent.table, pattern), filled(4 * answer_len, pattern), 0};
    memcpy(o.doc, doc, length);
    o.returned = view(o.doc, length, o.table, lent.table, o.answer, answer_len);
    hold(memcmp(o.doc, doc, length) == 0, "a document that is viewed is not written to");
    return o;
}

static void let_views_go(struct views o) {
    free(o.doc), free(o.table), free(o.answer);
}

static int is_name(uint8_t b) {
    return (b >= 'a' && b <= 'z') || (b >= 'A' && b <= 'Z') || (b >= '0' && b <= '9') || b == '_' || b == '-' || b == '.' || b == ':';
}

/* Whether a name ends before `at`, and no longer one. */
static int ends_with(const uint8_t *doc, size_t at, const char *name) {
    size_t count = strlen(name);
    return at > count && memcmp(doc + at - count, name, count) == 0 && !is_name(doc[at - count - 1]);
}

/* In an accepted document `<!--` begins a comment wherever it stands. */
static int in_comment(const uint8_t *doc, size_t place) {
    for (size_t i = 0; i < place; i++) {
        if (memcmp(doc + i, "<!--", 4) != 0) continue;
        for (i += 4; memcmp(doc + i, "-->", 3) != 0; i++)
            if (i >= place) return 1;
    }
    return 0;
}

/* A value stands between the quotes of its attribute, in a tag of its element, with nothing but spaces beside it where spaces are dropped. */
static void judge_pair(const uint8_t *doc, const uint32_t *cells, struct pair of) {
    size_t from = cells[0], to = from + cells[1];
    if (from == 0) {
        hold(cells[1] == 0 && (of.optional || of.attribute == NULL), "a value that is absent is 0 and 0, and may be absent");
        return;
    }
    hold(!in_comment(doc, from), "a value is not that of a comment");
    hold(of.attribute != NULL && to < length, "a value is known to the kind, and a part of the document");
    hold(!of.drops || has_no_space_at_ends(doc + from, to - from), "spaces are dropped");
    size_t at = from, end = to;
    while (of.drops && at > 1 && doc[at - 1] != '"' && doc[at - 1] != '\'') at--;
    while (of.drops && end + 1 < length && doc[end] != '"' && doc[end] != '\'') end++;
    hold(all_spaces(doc + at, from - at) && all_spaces(doc + to, end - to), "nothing but spaces is dropped");
    uint8_t quote = doc[--at];
    hold((quote == '"' || quote == '\'') && doc[end] == quote && memchr(doc + from, quote, to - from) == NULL, "a value stands between its quotes");
    do at--;
    while (doc[at] == ' ' || (doc[at] >= 9 && doc[at] <= 13));
    hold(doc[at] == '=', "a value follows its attribute");
    while (doc[at - 1] == ' ' || (doc[at - 1] >= 9 && doc[at - 1] <= 13)) at--;
    hold(ends_with(doc, at, of.attribute), "a value is that of its attribute");
    while (doc[at] != '<') at--; /* no value holds one */
    const char *root = doc[at + 1] == 'K' ? "Kostenblatt" : doc[at + 1] == 'B' ? "Beschaffungsanforderung" : "NetworkConstraintDocument";
    const char *element = of.element != NULL ? of.element : root;
    hold(memcmp(doc + at + 1, element, strlen(element)) == 0 && !is_name(doc[at + 1 + strlen(element)]), "a value is that of its element");
}

/* `from` and `to` are the places of the identifications of this series and of the next one. */
static void judge_pairs(struct views o, const uint32_t *cells, const struct pair *of, size_t count, size_t from, size_t to) {
    for (size_t k = 0; k < count; k++) {
        judge_pair(o.doc, cells + 2 * k, of[k]);
        hold(cells[2 * k] == 0 || (cells[2 * k] >= from && cells[2 * k] < to), "a value is of its own series");
    }
}

static void judge_shown(struct views o, const uint32_t *n) {
    const struct pair *const series[] = {SERIES_1, SERIES_2, SERIES_3};
    size_t used = HEADER_CELLS + SERIES_CELLS * (size_t)n[3];
    hold(used <= lent.table && is_zero(o.table, 4 * used, 4 * lent.table), "cells past the last series are 0");
    for (size_t i = 0; i <= n[3]; i++) {
        size_t from = i == 0 ? 0 : o.table[HEADER_CELLS + SERIES_CELLS * (i - 1)], to = i == n[3] ? length : o.table[HEADER_CELLS + SERIES_CELLS * i];
        if (i == 0) judge_pairs(o, o.table, n[2] == 3 ? HEADER_3 : HEADER_1, LUMINTAYAG_HEADER_PAIRS, from, to);
        else judge_pairs(o, o.table + HEADER_CELLS + SERIES_CELLS * (i - 1), series[n[2] - 1], LUMINTAYAG_SERIES_PAIRS, from, to);
    }
}

/* Minutes since 2000-01-01T00:00Z of `2031-02-02T23:00Z`, year by year. */
static uint32_t minutes_of(const uint8_t *text) {
    static const uint32_t DAYS[] = {31, 28, 31, 30, 31, 30, 31, 31, 30, 31, 30, 31};
    uint32_t part[5], days = 0;
    for (int k = 0, at = 0; k < 5; at += k == 0 ? 5 : 3, k++) part[k] = (uint32_t)strtoul((const char *)text + at, NULL, 10);
    for (uint32_t year = 2000; year < part[0]; year++) days += year % 4 == 0 ? 366 : 365;
    for (uint32_t month = 1; month < part[1]; month++) days += DAYS[month - 1] + (month == 2 && part[0] % 4 == 0);
    return ((days + part[2] - 1) * 24 + part[3]) * 60 + part[4];
}

static void judge_period(struct views o, const uint32_t *n, uint32_t quarters) {
    struct said covered = said_by(o.doc, o.table + 2 * LUMINTAYAG_VIEW_TIME_PERIOD_COVERED);
    hold(covered.count == 35, "a period has 35 characters");
    hold(n[4] == minutes_of(covered.bytes) && n[5] == minutes_of(covered.bytes + 18), "the two ends are those of TimePeriodCovered");
    free(covered.bytes);
    hold(n[5] - n[4] == 15 * quarters, "N quarter hours are between them");
}

/* What the reader answers with as much room for series as the table has, and for every interval. */
static void judge_by_reader(struct views o, const uint32_t *n) {
    static uint32_t series[MOST_SERIES * LUMINTAYAG_SERIES_ROW], positions[MOST_INTERVALS];
    static int64_t amounts[MOST_INTERVALS];
    uint8_t note[LUMINTAYAG_NOTE_ROOM];
    uint32_t answer[LUMINTAYAG_ANSWER_NUMBERS];
    /* the pairs of what a row shows, which has no Direction in kind 1 */
    const uint32_t shown[5] = {16, n[2] == 1 ? 23 : n[2] == 2 ? 22 : 21, 17, n[2] == 1 ? 0 : 18, n[2] == 2 ? 20 : 19};
    size_t room = (lent.table - HEADER_CELLS) / SERIES_CELLS;
    lumintayag_read_v3(o.doc, length, series, LUMINTAYAG_SERIES_ROW * room, positions, MOST_INTERVALS, amounts, MOST_INTERVALS, OLD, note, sizeof note, answer, 7);
    hold(memcmp(answer, n, 16) == 0, "refusal, place, kind and series are the reader's");
    if (n[0] != 0) return;
    for (size_t i = 0; i < n[3]; i++)
        for (size_t k = 0; k < 5; k++) {
            const uint32_t *view = series + LUMINTAYAG_SERIES_ROW * i + 2 * k;
            hold(shown[k] == 0 || memcmp(o.table + LUMINTAYAG_PAIR(shown[k], i), view, 8) == 0, "a value that the reader shows too stands where it says");
        }
    judge_period(o, n, answer[LUMINTAYAG_QUARTERS]);
}

/* The same table for another document of the same length. */
static void judge_same(const uint8_t *other, struct views first, const uint32_t *n, const char *promise) {
    struct views o = view_by(lumintayag_views, other, 6, 0x44);
    hold(memcmp(o.table, first.table, 4 * lent.table) == 0 && memcmp(o.answer, n, 24) == 0, promise);
    let_views_go(o);
}

/* Answers the refusal. `digits` is the document with other digits of prices, and NULL where it is not accepted by the reader. */
static uint32_t judge_views(const uint8_t *doc, const uint8_t *digits) {
    struct views a = view_by(lumintayag_views, doc, lent.viewed, 0xA5), b = view_by(checked_lumintayag_views, doc, 6, 0x5A);
    const uint32_t *n = b.answer, refusal = n[0];
    hold(memcmp(a.table, b.table, 4 * lent.table) == 0 && a.returned == b.returned && b.returned == refusal,
         "the same document is viewed alike, whatever stood in what is lent");
    hold(memcmp(a.answer, n, 4 * (lent.viewed < 6 ? lent.viewed : 6)) == 0, "the six numbers in fewer cells are the first ones");
    hold(lent.viewed <= 6 || is_zero(a.answer, 24, 4 * lent.viewed), "cells of the answer past the sixth are 0");
    if (refusal != 0) hold(is_zero(a.table, 0, 4 * lent.table) && n[4] == 0 && n[5] == 0, "on a refusal all cells of the table and the two ends are 0");
    if (lent.table < HEADER_CELLS) hold(refusal == 4 && is_zero(n, 4, 24), "a table with no room for the header is 4 at 0");
    else judge_by_reader(b, n);
    if (refusal == 0) judge_shown(b, n);
    if (digits != NULL) judge_same(digits, a, n, "no view depends on the digits of a price");
    let_views_go(a), let_views_go(b);
    return refusal;
}
