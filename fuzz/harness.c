/*
 * The entry of libFuzzer for documents, notes and views. An input is sizes and a note's shape in its first bytes and a document after them. What is lent is
 * allocated to the byte, so that AddressSanitizer sees one byte too far; the plain module reads first, then the module whose assumptions are checked, into
 * buffers that hold other bytes before. What a promise says of one call or of the two together is checked, and a broken one ends the program.
 *
 * Nothing goes to disk: the corpus is in memory, and so are the files by which libFuzzer is given the samples (memfd).
 */
#define _GNU_SOURCE
#include <dirent.h>
#include <stdio.h>
#include <sys/mman.h>
#include <unistd.h>

#include "../library/lumintayag.h"
#include "memory.h"

uint32_t checked_lumintayag_read_v3(const uint8_t *doc, size_t doc_len, uint32_t *series, size_t series_len, uint32_t *positions, size_t positions_len,
                                    int64_t *amounts, size_t amounts_len, uint32_t shape, uint8_t *note, size_t note_len, uint32_t *answer,
                                    size_t answer_len);
uint32_t checked_lumintayag_read_note_v2(const uint8_t *note, size_t note_len, uint32_t *six, size_t six_len);
uint32_t checked_lumintayag_convert_note(const uint8_t *note, size_t note_len, uint32_t shape, uint8_t *out, size_t out_len, uint32_t *answer,
                                         size_t answer_len);

enum { SIZES = 13, OLD = LUMINTAYAG_NOTE_OLD, NEW = LUMINTAYAG_NOTE_NEW, NEW_MARK = 100 };

struct sizes {
    size_t series, positions, amounts, note, answer, six, out;
    uint32_t shape;
    size_t table, viewed; /* of views */
};

/* The last byte of a shape's number is that of the input, so that numbers from 256 on are asked for too. */
static struct sizes sizes_of(const uint8_t *b) {
    struct sizes s = {b[0],      b[1] + 256 * (b[2] & 1), b[3] + 256 * (b[4] & 1), b[5] & 31,
                      b[6] & 15, b[7] & 7,                b[8] & 63,               b[9] < 128 ? b[9] : b[9] * UINT32_C(0x01010100),
                      b[10] + 256 * (b[11] & 1), b[12] & 15};
    return s;
}

struct outcome {
    uint8_t *doc, *note;
    uint32_t *series, *positions, *answer;
    int64_t *amounts;
    uint32_t returned;
};

static struct sizes lent;
static size_t length;
static uint64_t refusals[11], notes[3], views[11];

static void hold(int holds, const char *promise) {
    if (holds) return;
    fprintf(stderr, "BROKEN: %s\ndocument of %zu bytes; lent: series %zu, positions %zu, amounts %zu, note %zu, answer %zu, six %zu, out %zu; shape %lu; "
                    "table of views %zu, its answer %zu\n",
            promise, length, lent.series, lent.positions, lent.amounts, lent.note, lent.answer, lent.six, lent.out, (unsigned long)lent.shape, lent.table,
            lent.viewed);
    abort();
}

#include "references.h"
#include "views.h"
#include "spellings.h"

typedef uint32_t reading(const uint8_t *, size_t, uint32_t *, size_t, uint32_t *, size_t, int64_t *, size_t, uint32_t, uint8_t *, size_t, uint32_t *, size_t);

static struct outcome read_by(reading *read, const uint8_t *doc, size_t answer_len, uint32_t shape, int pattern) {
    struct outcome o = {filled(length, 0), filled(lent.note, pattern), filled(4 * lent.series, pattern), filled(4 * lent.positions, pattern),
                        filled(4 * answer_len, pattern), filled(8 * lent.amounts, pattern), 0};
    memcpy(o.doc, doc, length);
    o.returned =
        read(o.doc, length, o.series, lent.series, o.positions, lent.positions, o.amounts, lent.amounts, shape, o.note, lent.note, o.answer, answer_len);
    hold(memcmp(o.doc, doc, length) == 0, "the document is not written to");
    return o;
}

static void let_go(struct outcome o) {
    free(o.doc), free(o.note), free(o.series), free(o.positions), free(o.answer), free(o.amounts);
}

static int same_positions(struct outcome a, struct outcome b) {
    return a.returned == b.returned && memcmp(a.series, b.series, 4 * lent.series) == 0 && memcmp(a.positions, b.positions, 4 * lent.positions) == 0;
}

static int same_but_amounts(struct outcome a, struct outcome b) {
    return same_positions(a, b) && memcmp(a.note, b.note, lent.note) == 0;
}

static int same_tables(struct outcome a, struct outcome b) {
    return same_positions(a, b) && memcmp(a.amounts, b.amounts, 8 * lent.amounts) == 0;
}

static int same(struct outcome a, struct outcome b) {
    return same_tables(a, b) && memcmp(a.note, b.note, lent.note) == 0;
}

/* `n` has the seven numbers. */
static void judge_refusal(struct outcome o, const uint32_t *n) {
    hold(n[0] <= 10, "refusals of the document reader end with 10");
    hold(is_zero(o.series, 0, 4 * lent.series) && is_zero(o.positions, 0, 4 * lent.positions) && is_zero(o.amounts, 0, 8 * lent.amounts),
         "on a refusal all cells of the tables are 0");
    hold(n[5] == 0, "N is 0 on a refusal");
    hold(n[1] <= length, "a place is at most the length");
    hold((n[0] == 10) == (lent.note < 16), "10 is given for a note buffer of fewer than 16 bytes, and for nothing else");
    hold((n[0] == 1) == (lent.note >= 16 && length > 1048576), "1 is given for a document of more than 1,048,576 bytes, and for nothing else");
}

/* The tag that a place of the document stands in has one of these names; a `<` stands in no value. */
static int in_tag(const uint8_t *doc, size_t at, const char *name, const char *other) {
    while (at > 0 && doc[at] != '<') at--;
    return strncmp((const char *)doc + at + 1, name, strlen(name)) == 0 || strncmp((const char *)doc + at + 1, other, strlen(other)) == 0;
}

/* Direction and area are those of their own series: each stands behind the series' identification and before its object, in kind 1 InParty. */
static void judge_optional(struct outcome o, const uint32_t *n, const uint32_t *row, int cell) {
    const uint32_t *view = row + cell;
    int is_direction = cell == LUMINTAYAG_DIRECTION;
    if (view[0] == 0) {
        hold(view[1] == 0 && (n[2] == 2 || (n[2] == 1 && is_direction)), "a view that is absent is 0 and 0, that of InArea never is, and none in kind 3");
        return;
    }
    hold(view[0] > row[LUMINTAYAG_IDENTIFICATION] && view[0] < row[LUMINTAYAG_OBJECT], "a Direction or area is that of its own series");
    struct said said = said_by(o.doc, view);
    hold(said.count == (is_direction ? 3 : 16), "a Direction has three characters, and an area sixteen");
    free(said.bytes);
    hold(is_direction ? n[2] != 1 && in_tag(o.doc, view[0], "Direction", "Direction") : in_tag(o.doc, view[0], "InArea", "ConnectingArea"),
         "a view stands in the tag of its element");
    hold(has_no_space_at_ends(o.doc + view[0], view[1]), "spaces are dropped");
}

static void judge_series(struct outcome o, const uint32_t *n, size_t i, uint32_t *rows) {
    const uint32_t *row = o.series + LUMINTAYAG_SERIES_ROW * i;
    uint32_t first = row[LUMINTAYAG_FIRST_INTERVAL], count = row[LUMINTAYAG_INTERVAL_COUNT];
    for (int k = 0; k <= LUMINTAYAG_AREA; k += 2) {
        hold((size_t)row[k] + row[k + 1] < length, "a view is a part of the document");
        if (k == LUMINTAYAG_DIRECTION || k == LUMINTAYAG_AREA) judge_optional(o, n, row, k);
        else hold(row[k] > 0, "a value that has to be there is shown");
        if (k == LUMINTAYAG_BUSINESS_TYPE) hold(has_no_space_at_ends(o.doc + row[k], row[k + 1]), "spaces are dropped");
    }
    hold(first == *rows && count >= 1, "rows come in document order");
    *rows += count;
    hold(*rows <= n[4], "the rows of the series are the intervals");
    for (uint32_t k = first, before = 0; k < *rows; before = o.positions[k++])
        hold(o.positions[k] > before && o.positions[k] <= n[5] && (k > first || o.positions[k] == 1) && (n[2] == 2 || o.positions[k] == before + 1),
             "positions begin with 1 and rise to N at most");
    hold(n[2] != 1 || count == n[5], "a series of kind 1 has N intervals");
    hold(n[2] != 3 || count <= 100, "a series of kind 3 has at most 100 intervals");
}

/* In an accepted document `<!--` begins a comment wherever it stands. */
static int has_tag(const uint8_t *doc, const char *tag) {
    for (size_t i = 0; i + strlen(tag) <= length; i++) {
        if (memcmp(doc + i, "<!--", 4) == 0)
            while (memcmp(doc + i, "-->", 3) != 0) i++;
        else if (memcmp(doc + i, tag, strlen(tag)) == 0) return 1;
    }
    return 0;
}

static int says(struct outcome o, size_t series, int cell, const char *code) {
    return says_code(o.doc, o.series + LUMINTAYAG_SERIES_ROW * series + cell, code);
}

/* Kind 3: with DocStatus at most one series; else one or two of A77, of different Direction, and one of B59, or no series. */
static void judge_constraint(struct outcome o, const uint32_t *n) {
    size_t a77 = 0, b59 = 0, up = 0;
    for (size_t i = 0; i < n[3]; i++) {
        int is_a77 = says(o, i, LUMINTAYAG_BUSINESS_TYPE, "A77");
        a77 += is_a77, b59 += says(o, i, LUMINTAYAG_BUSINESS_TYPE, "B59"), up += is_a77 && says(o, i, LUMINTAYAG_DIRECTION, "A01");
    }
    hold(a77 + b59 == n[3], "a series of kind 3 is A77 or B59");
    if (has_tag(o.doc, "<DocStatus")) hold(n[3] <= 1, "with DocStatus there is at most one series");
    else if (n[3] > 0) {
        hold(a77 >= 1 && b59 >= 1, "there are an A77 and a B59");
        hold(a77 == 1 || (a77 == 2 && up == 1), "two A77 have different Directions, and three there are not");
    }
}

static void judge_acceptance(struct outcome o, const uint32_t *n) {
    size_t room = lent.positions < lent.amounts ? lent.positions : lent.amounts;
    uint32_t rows = 0;
    hold(n[1] == length && n[2] >= 1 && n[2] <= 3 && (n[3] >= 1 || n[2] == 3) && n[4] >= n[3] && n[5] >= 1, "the answer on acceptance");
    hold(LUMINTAYAG_SERIES_ROW * (size_t)n[3] <= lent.series && n[4] <= room, "rows have room");
    for (size_t i = 0; i < n[3]; i++) judge_series(o, n, i, &rows);
    hold(rows == n[4], "the rows of the series are the intervals");
    judge_meanings(o.doc, o.series, n[3]);
    if (n[2] == 3) judge_constraint(o, n);
    hold(is_zero(o.series, 4 * LUMINTAYAG_SERIES_ROW * (size_t)n[3], 4 * lent.series) && is_zero(o.positions, 4 * (size_t)rows, 4 * lent.positions) &&
             is_zero(o.amounts, 8 * (size_t)rows, 8 * lent.amounts),
         "cells past the last row are 0");
    for (size_t i = 0; i < rows; i++)
        hold(o.amounts[i] <= INT64_C(999999999999999) && o.amounts[i] >= -INT64_C(999999999999999), "an amount has twelve digits and three at most");
    hold(lumintayag_totals(n[2], n[5], n[3], o.series, lent.series, o.positions, lent.positions, o.amounts, lent.amounts, NULL, 0, NULL, 0) == 0,
         "the tables of an accepted document are added up");
}

typedef uint32_t rereading(const uint8_t *, size_t, uint32_t *, size_t);

/* The refusal; `six` has the numbers for which there was room, and 0 in the place of the others. */
static uint32_t read_note_by(rereading *read, const uint8_t *bytes, size_t count, size_t room, uint32_t *six) {
    uint8_t *note = filled(count, 0);
    uint32_t *cells = filled(4 * room, 0xB3);
    memcpy(note, bytes, count);
    uint32_t returned = read(note, count, cells, room);
    memset(six, 0, 24);
    memcpy(six, cells, 4 * (room < 6 ? room : 6));
    hold(returned == 0 || returned == 11, "the note reader answers 0 or 11");
    hold(room <= 6 || is_zero(cells, 24, 4 * room), "cells past the sixth are 0");
    hold(returned == 0 || is_zero(six, 0, 24), "on 11 the six numbers are 0");
    for (int k = 0; k < 6; k++) hold(six[k] < 1 << 21, "a number of a note is below 2^21");
    free(note), free(cells);
    return returned;
}

/* Whether bytes are a note, and its six numbers, as the papers have it: five numbers whose first is not 100, or seven whose first is 100 and whose second
 * is not; each shortest and below 2^21. */
static int is_note(const uint8_t *bytes, size_t count, uint32_t *six) {
    uint32_t numbers[8] = {0};
    size_t many = 0, groups = 0;
    for (size_t i = 0; i < count; i++) {
        if (many == 8 || groups == 3) return 0;
        numbers[many] |= (uint32_t)(bytes[i] & 127) << (7 * groups++);
        if (bytes[i] >= 128) continue;
        if (groups > 1 && bytes[i] == 0) return 0;
        many++, groups = 0;
    }
    int is_new = many == 7 && numbers[0] == NEW_MARK;
    memcpy(six, numbers + is_new, 24);
    if (!is_new) six[5] = 0;
    return groups == 0 && (many == 5 || is_new) && six[0] != NEW_MARK;
}

typedef uint32_t converting(const uint8_t *, size_t, uint32_t, uint8_t *, size_t, uint32_t *, size_t);

/* The refusal; what is written is left in `out`, which has 64 bytes, and its length in `written`. */
static uint32_t convert_by(converting *convert, const uint8_t *bytes, size_t count, uint32_t shape, size_t room, uint8_t *out, size_t *written) {
    uint8_t *note = filled(count, 0), *cells = filled(room, 0x6B);
    uint32_t *answer = filled(4 * lent.answer, 0xB3), two[2] = {0};
    memcpy(note, bytes, count);
    uint32_t returned = convert(note, count, shape, cells, room, answer, lent.answer);
    memcpy(two, answer, 4 * (lent.answer < 2 ? lent.answer : 2));
    hold(lent.answer < 1 || two[0] == returned, "what is returned is the refusal");
    hold(lent.answer <= 2 || is_zero(answer, 8, 4 * lent.answer), "cells past the second are 0");
    hold((returned == 10) == (room < 24), "10 is given for an output of fewer than 24 bytes, and for nothing else");
    hold(returned == 0 || (two[1] == 0 && is_zero(cells, 0, room)), "on a refusal the output is all 0");
    /* A note's last byte may be 0, so that its length is the answer's; where there is no cell for it, all of the output is compared. */
    *written = lent.answer < 2 || returned != 0 ? room : two[1];
    hold(*written <= room && is_zero(cells, *written, room), "the bytes past the note are 0");
    memcpy(out, cells, room);
    free(note), free(cells), free(answer);
    return returned;
}

/* A note there and back: old to new to old gives the same bytes, new to old to new does exactly when the depth is 0. */
static void judge_turns(const uint8_t *note, size_t count, uint32_t depth) {
    uint8_t out[64], again[64];
    uint32_t two[2] = {0}, own = note[0] == NEW_MARK ? NEW : OLD, other = own == OLD ? NEW : OLD, six[6];
    size_t less = depth < 128 ? 2 : depth < 16384 ? 3 : 4;
    hold(lumintayag_convert_note(note, count, own, out, 24, two, 2) == 0 && two[1] == count && memcmp(out, note, count) == 0,
         "a note that has the shape stays as it is");
    hold(lumintayag_convert_note(note, count, other, out, 24, two, 2) == 0, "a note is turned into the other shape");
    hold(two[1] == (own == OLD ? count + 2 : count - less), "it has the number 100 and a depth more, or less");
    hold(is_note(out, two[1], six) && six[5] == 0 && (out[0] == NEW_MARK) == (own == OLD), "the other shape has depth 0");
    hold(lumintayag_convert_note(out, two[1], own, again, 24, two, 2) == 0, "it is turned back");
    hold((two[1] == count && memcmp(again, note, count) == 0) == (depth == 0), "there and back gives the same exactly when the depth is 0");
}

/* Any bytes as a note: 0 where they are none, 1 for an old one, 2 for a new one. */
static int judge_bytes(const uint8_t *bytes, size_t count) {
    uint32_t expected[6], six[6], again[6];
    uint8_t out[64], other[64];
    size_t written, twice;
    int is_one = is_note(bytes, count, expected);
    uint32_t refusal = read_note_by(lumintayag_read_note_v2, bytes, count, 6, six);
    hold((refusal == 0) == is_one && (!is_one || memcmp(six, expected, 24) == 0), "what is a note is told by its numbers");
    hold(refusal == read_note_by(checked_lumintayag_read_note_v2, bytes, count, 6, again) && memcmp(six, again, 24) == 0, "the two modules read a note alike");
    uint32_t converted = convert_by(lumintayag_convert_note, bytes, count, lent.shape, lent.out, out, &written);
    hold(converted == (lent.out < 24 ? 10 : is_one ? 0 : 11), "10, then 11 for bytes that are no note");
    uint32_t checked = convert_by(checked_lumintayag_convert_note, bytes, count, lent.shape, lent.out, other, &twice);
    hold(converted == checked && written == twice && memcmp(out, other, lent.out) == 0, "the two modules convert a note alike");
    if (converted == 0 && lent.answer >= 2) hold(is_note(out, written, again) && memcmp(again, six, 20) == 0, "the note in another shape says the same");
    if (is_one) judge_turns(bytes, count, six[5]);
    return !is_one ? 0 : bytes[0] == NEW_MARK ? 2 : 1;
}

/* The first bytes of an input, and the same after the number 100, as a note. */
static void judge_front(const uint8_t *bytes, size_t count) {
    uint8_t marked[25] = {NEW_MARK};
    if (count > 24) count = 24;
    if (count > 0) memcpy(marked + 1, bytes, count);
    notes[judge_bytes(marked + 1, count)]++;
    notes[judge_bytes(marked, count + 1)]++;
}

/* Start tags less end tags of the items before a place; all of those are readable. */
static uint32_t open_before(const uint8_t *doc, size_t place) {
    uint32_t open = 0;
    for (size_t i = 0; i < place; i++) {
        if (doc[i] != '<') continue;
        if (i + 3 < place && memcmp(doc + i, "<!--", 4) == 0) {
            for (i += 6; doc[i] != '>' || doc[i - 1] != '-' || doc[i - 2] != '-';) i++;
            continue;
        }
        uint8_t kind = doc[i + 1], quote = 0;
        for (; quote != 0 || doc[i] != '>'; i++) {
            if (quote == 0 && (doc[i] == '"' || doc[i] == '\'')) quote = doc[i];
            else if (doc[i] == quote) quote = 0;
        }
        if (kind == '/') open--;
        else if (kind != '?' && doc[i - 1] != '/') open++;
    }
    return open;
}

/* The note of a reading in a shape: `n` has the seven numbers of its answer. */
static void judge_note(struct outcome o, const uint32_t *n, uint32_t shape) {
    const uint8_t *note = o.note;
    uint32_t six[6], again[6], is_new = shape != OLD;
    uint32_t depth = n[0] == 0 || n[0] == 1 ? 0 : open_before(o.doc, n[1]);
    hold(n[6] >= 5 + 2 * is_new && n[6] <= 11 + 2 * is_new, "a note of the reader has 5 to 11 bytes, in the new shape 7 to 13");
    hold((note[0] == NEW_MARK) == is_new, "a new note begins with 100");
    hold(is_zero(note, n[6], lent.note), "the bytes past the note are 0");
    hold(read_note_by(lumintayag_read_note_v2, note, n[6], 6, six) == 0 && memcmp(six, n, 20) == 0, "a note read back gives its numbers");
    hold(six[5] == (is_new ? depth : 0), "the depth is that of the elements open before the faulty item");
    hold(read_note_by(checked_lumintayag_read_note_v2, note, n[6], lent.six, again) == 0 && memcmp(six, again, 4 * (lent.six < 6 ? lent.six : 6)) == 0,
         "a note read into fewer cells gives the first numbers");
    hold(read_note_by(lumintayag_read_note_v2, note, n[6] - 1, 6, six) == 11, "a note cut short is none");
    if (n[6] < lent.note) hold(read_note_by(lumintayag_read_note_v2, note, n[6] + 1, 6, six) == 11, "a zero is no part of a note");
    judge_bytes(note, n[6]);
    o.note[is_new] = NEW_MARK; /* a refusal has one byte */
    hold(judge_bytes(note, n[6]) == 0, "with a refusal of 100 it is no note");
    o.note[is_new] = (uint8_t)n[0];
}

/* The same document with a note in the other shape: nothing else differs. */
static void judge_other_shape(const uint8_t *doc, struct outcome first, const uint32_t *n) {
    uint32_t other = lent.shape == OLD ? NEW : OLD, cells[7];
    struct outcome o = read_by(lumintayag_read_v3, doc, 7, other, 0x3C);
    memcpy(cells, o.answer, sizeof cells);
    hold(same_tables(first, o) && memcmp(o.answer, n, 24) == 0, "nothing but the note depends on its shape");
    if (n[0] == 10) hold(is_zero(o.note, 0, lent.note) && cells[6] == 0, "10 is given in either shape");
    else judge_note(o, cells, other);
    let_go(o);
}

/* In an accepted document each tag Qty has one attribute, so that its quoted digits are readable Qty digits, but for those of a reference; those in a comment
 * change nothing either. */
static size_t after_reference(const uint8_t *doc, size_t at) {
    while (at + 1 < length && doc[at] != ';') at++;
    return at;
}

static void turn_digits(uint8_t *doc) {
    for (size_t i = 0; i + 4 < length; i++) {
        if (memcmp(doc + i, "<Qty", 4) != 0) continue;
        uint8_t quote = 0;
        for (; i < length && !(quote == 0 && doc[i] == '>'); i++) {
            if (quote == 0 && (doc[i] == '"' || doc[i] == '\'')) quote = doc[i];
            else if (doc[i] == quote) quote = 0;
            else if (quote != 0 && doc[i] == '&') i = after_reference(doc, i);
            else if (quote != 0 && doc[i] >= '0' && doc[i] <= '9') doc[i] = (uint8_t)('9' - (doc[i] - '0'));
        }
    }
}

static void judge_digits(const uint8_t *doc, struct outcome first, const uint32_t *n) {
    uint8_t *other = filled(length, 0);
    memcpy(other, doc, length);
    turn_digits(other);
    struct outcome o = read_by(lumintayag_read_v3, other, 7, lent.shape, 0x11);
    hold(same_but_amounts(first, o) && memcmp(o.answer, n, 28) == 0, "nothing but the amounts depends on the digits of a price");
    judge_views(doc, other);
    let_go(o);
    free(other);
}

/* The same document with its values spelled otherwise: what they say is judged, so that nothing but places and views differs. */
static void judge_respelled(const uint8_t *doc, struct outcome first, const uint32_t *n, int spelling) {
    size_t own = length, rows = n[4];
    uint8_t *other = filled(8 * own, 0);
    length = respell(doc, spelling, other);
    struct outcome o = read_by(lumintayag_read_v3, other, 7, lent.shape, 0x33);
    hold(o.answer[0] == 0 && o.answer[1] == length && memcmp(o.answer + 2, n + 2, 16) == 0, "a value by references is judged by what it says");
    hold(memcmp(o.positions, first.positions, 4 * rows) == 0 && memcmp(o.amounts, first.amounts, 8 * rows) == 0, "a number by references is the same number");
    judge_acceptance(o, o.answer);
    judge_views(other, NULL);
    let_go(o);
    free(other);
    length = own;
}

/* The same document, where a series is given the identification of one before, spelled otherwise and perhaps a character longer: it is refused in that tag
 * exactly where it says what one before says. */
static void judge_repeated(const uint8_t *doc, struct outcome first, const uint32_t *n, int spelling, int more) {
    if (n[3] < 2) return;
    size_t own = length, to = 1 + (size_t)spelling % (n[3] - 1), from = (size_t)spelling % to;
    const uint32_t *target = first.series + LUMINTAYAG_SERIES_ROW * to, *before = first.series + LUMINTAYAG_SERIES_ROW * from;
    uint8_t *other = filled(own + 9 * (size_t)before[1] + 1, 0);
    uint32_t view[2], tag = target[0];
    length = repeat(doc, before, target, spelling, more, other, view);
    while (doc[tag] != '<') tag--;
    if (length > 0) {
        struct outcome o = read_by(lumintayag_read_v3, other, 7, lent.shape, 0x55);
        struct said id = said_by(other, view);
        hold((o.answer[0] == 9 && o.answer[1] == tag) == is_said_before(doc, first.series, to, id), "identifications that say the same are refused, and no others");
        free(id.bytes);
        let_go(o);
    }
    free(other);
    length = own;
}

/* With every character by number, and in a spelling that the document's bytes choose. */
static void judge_spellings(const uint8_t *doc, struct outcome first, const uint32_t *n) {
    uint32_t chosen = 0;
    for (size_t i = 0; i < length; i++) chosen = 31 * chosen + doc[i];
    int spelling = (int)(chosen % (SPELLINGS - 1)) + 1;
    judge_respelled(doc, first, n, FIRST_ONE + MIDDLE + LAST_ONE);
    judge_respelled(doc, first, n, spelling);
    for (int more = 0; more < 2; more++) judge_repeated(doc, first, n, spelling, more);
}

/* Those of ASCII's 95 printed characters that may stand in an identification which is replaced. */
static const char ALLOWED[] = " !#$%()*+,-./0123456789:;=>?@ABCDEFGHIJKLMNOPQRSTUVWXYZ[\\]^_`abcdefghijklmnopqrstuvwxyz{|}~";

/* The byte becomes another, by the one beside it: it can be told back from that one, so that no two identifications become one. */
static uint8_t turned(uint8_t b, uint8_t beside) {
    return b >= 0x80 ? b : (uint8_t)ALLOWED[((size_t)(strchr(ALLOWED, b) - ALLOWED) + 7 * (size_t)beside + 1) % (sizeof ALLOWED - 1)];
}

/* In an accepted document the series table shows each TimeSeriesIdentification. 0 where one may not be replaced. */
static int turn_identifications(uint8_t *doc, const uint32_t *series, size_t count) {
    for (size_t i = 0; i < count; i++) {
        uint8_t *id = doc + series[LUMINTAYAG_SERIES_ROW * i + LUMINTAYAG_IDENTIFICATION];
        size_t many = series[LUMINTAYAG_SERIES_ROW * i + LUMINTAYAG_IDENTIFICATION + 1];
        for (size_t k = 0; k < many; k++)
            if (id[k] < 0x80 && strchr(ALLOWED, id[k]) == NULL) return 0;
        for (size_t k = many; k-- > 0;) id[k] = turned(id[k], k > 0 ? id[k - 1] : 0);
        for (size_t k = 0; k < many; k++) id[k] = turned(id[k], k + 1 < many ? id[k + 1] : 0);
    }
    return 1;
}

static void judge_identifications(const uint8_t *doc, struct outcome first, const uint32_t *n) {
    uint8_t *other = filled(length, 0);
    memcpy(other, doc, length);
    if (turn_identifications(other, first.series, n[3])) {
        struct outcome o = read_by(lumintayag_read_v3, other, 7, lent.shape, 0x22);
        hold(same(first, o) && memcmp(o.answer, n, 28) == 0, "identifications replaced by a one-to-one rule change nothing");
        let_go(o);
    }
    free(other);
}

int LLVMFuzzerTestOneInput(const uint8_t *data, size_t size);

int LLVMFuzzerTestOneInput(const uint8_t *data, size_t size) {
    uint8_t first[SIZES] = {0};
    memcpy(first, data, size < SIZES ? size : SIZES);
    const uint8_t *doc = data + (size < SIZES ? size : SIZES);
    length = size < SIZES ? 0 : size - SIZES;
    lent = sizes_of(first);

    struct outcome a = read_by(lumintayag_read_v3, doc, lent.answer, lent.shape, 0xA5);
    struct outcome b = read_by(checked_lumintayag_read_v3, doc, 7, lent.shape, 0x5A);
    const uint32_t *n = b.answer;
    hold(same(a, b), "the same document gives the same, whatever stood in what is lent");
    hold(memcmp(a.answer, n, 4 * (lent.answer < 7 ? lent.answer : 7)) == 0, "the answer in fewer cells is its first numbers");
    hold(lent.answer <= 7 || is_zero(a.answer, 28, 4 * lent.answer), "cells past the seventh are 0");
    hold(b.returned == n[0], "what is returned is the refusal");
    if (n[0] == 0) judge_acceptance(b, n), judge_digits(doc, a, n), judge_identifications(doc, a, n), judge_spellings(doc, a, n);
    else judge_refusal(b, n);
    refusals[n[0]]++;
    if (n[0] == 10) hold(is_zero(b.note, 0, lent.note) && is_zero(n + 1, 0, 24), "on 10 the note buffer and the other numbers are 0");
    else judge_note(b, n, lent.shape);
    judge_other_shape(doc, a, n);
    judge_front(doc, length);
    views[judge_views(doc, NULL)]++;
    let_go(a), let_go(b);
    return 0;
}

/* Room for all rows; for no series; for one row; for fewer amounts than positions; a note of 15; outputs of 24 and of 23 bytes; both shapes; a table of views
 * for ten series, for one and a bit more, for a header, and one that is short of that or of a series by a cell. Each sample is lent one of these. */
static const uint8_t ROOM[][SIZES] = {
    {255, 255, 1, 255, 1, 16, 7, 6, 24, 0, 255, 1, 6},   {255, 255, 0, 200, 0, 31, 15, 7, 40, 1, 120, 0, 15}, {12, 1, 0, 1, 0, 16, 7, 5, 24, 1, 80, 0, 7},
    {11, 10, 0, 10, 0, 16, 3, 4, 23, 0, 31, 0, 5},       {255, 255, 1, 255, 1, 16, 0, 0, 24, 200, 76, 0, 0},  {255, 255, 1, 255, 1, 16, 7, 6, 25, 1, 208, 0, 6},
    {71, 3, 0, 2, 0, 20, 9, 1, 63, 100, 119, 0, 6},      {255, 255, 1, 255, 1, 15, 7, 5, 0, 1, 32, 0, 3},
};

/* libFuzzer's own changes break most documents. More than half of the changes are these, which keep a document near to acceptance: another value between
 * quotes, that of another tag too and spelled otherwise, references in a value, white text or a comment after a tag, other sizes. */
size_t LLVMFuzzerMutate(uint8_t *data, size_t size, size_t room);
size_t LLVMFuzzerCustomMutator(uint8_t *data, size_t size, size_t room, unsigned seed);

static uint64_t state;

static size_t below(size_t n) {
    state = state * 6364136223846793005u + 1442695040888963407u;
    return (size_t)(state >> 33) % n;
}

/* The bytes from `from` to `to` become `put`. The size as it was where there is no room. */
static size_t replaced(uint8_t *data, size_t size, size_t room, size_t from, size_t to, const char *put) {
    size_t count = strlen(put);
    if (size - (to - from) + count > room) return size;
    memmove(data + from + count, data + to, size - to);
    memcpy(data + from, put, count);
    return size - (to - from) + count;
}

/* The first `byte` from a random place on, or from the document's begin on; `size` where there is none. */
static size_t somewhere(const uint8_t *data, size_t size, uint8_t byte) {
    const uint8_t *found = NULL;
    if (size > SIZES) {
        size_t from = SIZES + below(size - SIZES);
        found = memchr(data + from, byte, size - from);
        if (found == NULL) found = memchr(data + SIZES, byte, size - SIZES);
    }
    return found == NULL ? size : (size_t)(found - data);
}

/* The place of a value in another tag of the same name as that in which `at` stands, or in any; `size` where there is none. */
static size_t other_value(const uint8_t *data, size_t size, size_t at) {
    size_t from = SIZES + below(size - SIZES), name = at, count = 1;
    while (name > SIZES && data[name] != '<') name--;
    while (name + count < at && is_name(data[name + count])) count++;
    const uint8_t *tag = below(4) ? memmem(data + from, size - from, data + name, count) : NULL;
    if (tag == NULL) return somewhere(data, size, '=') + 2;
    const uint8_t *sign = memchr(tag, '=', size - (size_t)(tag - data));
    return sign == NULL ? size : (size_t)(sign - data) + 2;
}

/* The bytes of a value up to its quote, as they stand or with the last, one or each ASCII character by reference that is not within one. */
static void spell_value(const uint8_t *data, size_t size, size_t from, char *text, size_t room) {
    size_t manner = below(4), count = 0, put = 0;
    text[0] = 0;
    while (from + count < size && data[from + count] != data[from - 1]) count++;
    int open = 0;
    for (size_t i = 0, one = below(count + 1); i < count && put + 8 < room; i++) {
        uint8_t b = data[from + i];
        open = b == '&' || open;
        int refers = !open && b < 0x80 && (manner == 3 || (manner == 2 && i == one) || (manner == 1 && i + 1 == count));
        put += (size_t)snprintf(text + put, room - put, refers ? "&#%u;" : "%c", b);
        open = b != ';' && open;
    }
}

static size_t with_value(uint8_t *data, size_t size, size_t room) {
    char text[256];
    size_t from = somewhere(data, size, '=') + 2;
    if (from >= size) return size;
    const uint8_t *end = memchr(data + from, data[from - 1], size - from);
    if (end == NULL) return size;
    switch (below(5)) {
    case 0: snprintf(text, sizeof text, "%s%zu", below(3) ? "" : "-", below(1000000)); break;
    case 1: snprintf(text, sizeof text, "%s%zu.%0*zu", below(2) ? " " : "", below(1000), (int)below(5), below(1000)); break;
    case 2: snprintf(text, sizeof text, "%zu%s", below(120), below(3) ? "" : " "); break;
    default: {
        size_t other = other_value(data, size, from);
        if (other >= size) return size;
        spell_value(data, size, other, text, sizeof text);
    }
    }
    return replaced(data, size, room, from, (size_t)(end - data), text);
}

/* A character of a value by reference, spaces by reference at its ends, or a reference that is right or not. */
static size_t with_reference(uint8_t *data, size_t size, size_t room) {
    static const char *const OTHERS[] = {"&amp;", "&lt;", "&gt;", "&quot;", "&apos;", "&#9;", "&#10;", "&#x10FFFF;", "&amp;lt;", "&#38;", "&bad;", "&#;",
                                         "&#xD800;", "&#xFFFE;", "&#0;", "&#x110000;", "&#4294967361;", "&AMP;", "&#X41;", "&amp", "& amp;", "&",
                                         "&#x0000000000000000041;"};
    char text[64];
    size_t from = somewhere(data, size, '=') + 2;
    if (from >= size) return size;
    const uint8_t *quote = memchr(data + from, data[from - 1], size - from);
    if (quote == NULL) return size;
    size_t end = (size_t)(quote - data), at = from + below(end - from + 1);
    switch (below(4)) {
    case 0: return replaced(data, size, room, at, at, OTHERS[below(23)]);
    case 1: at = below(2) ? from : end; return replaced(data, size, room, at, at, below(2) ? "&#32;" : "&#x20;");
    default:
        if (at == end || data[at] >= 0x80 || data[at] == '&') return size;
        snprintf(text, sizeof text, below(2) ? "&#%u;" : below(2) ? "&#x%x;" : "&#x00%X;", data[at]);
        return replaced(data, size, room, at, at + 1, text);
    }
}

static size_t with_text(uint8_t *data, size_t size, size_t room) {
    static const char *const TEXTS[] = {" ", "\n", "\r\n\t", "<!---->", "<!-- - -->", "<!--&\xC3\xA4-->\n", "<!-- <Direction v='A02'/> -->"};
    size_t tag = somewhere(data, size, '>');
    return tag == size ? size : replaced(data, size, room, tag + 1, tag + 1, TEXTS[below(7)]);
}

size_t LLVMFuzzerCustomMutator(uint8_t *data, size_t size, size_t room, unsigned seed) {
    state = seed;
    switch (below(10)) {
    case 0: case 1: return with_value(data, size, room);
    case 2: return with_text(data, size, room);
    case 3: case 4: return with_reference(data, size, room);
    case 5:
        if (size >= SIZES) memcpy(data, ROOM[below(8)], SIZES);
        return size;
    default: return LLVMFuzzerMutate(data, size, room);
    }
}

static int in_memory(const char *folder, const char *name, size_t number) {
    char path[4096], bytes[70000];
    snprintf(path, sizeof path, "%s/%s", folder, name);
    FILE *file = fopen(path, "rb");
    int fd = memfd_create("seed", 0);
    if (file == NULL || fd < 0) exit(2);
    size_t count = fread(bytes, 1, sizeof bytes, file);
    fclose(file);
    if (write(fd, ROOM[number % 8], SIZES) != SIZES || write(fd, bytes, count) != (ssize_t)count) exit(2);
    return fd;
}

static void tell(void) {
    printf("documents by refusal:");
    for (int k = 0; k <= 10; k++) printf(" %d: %llu", k, (unsigned long long)refusals[k]);
    printf("\nnotes taken: %llu old, %llu new, refused: %llu\n", (unsigned long long)notes[1], (unsigned long long)notes[2], (unsigned long long)notes[0]);
    printf("views by refusal:");
    for (int k = 0; k <= 9; k++) printf(" %d: %llu", k, (unsigned long long)views[k]);
    printf("\n");
}

int LLVMFuzzerInitialize(int *argc, char ***argv);

/* The samples of the folder SAMPLES, as seeds. */
int LLVMFuzzerInitialize(int *argc, char ***argv) {
    static char words[65536] = "-seed_inputs=";
    const char *folder = getenv("SAMPLES");
    atexit(tell);
    if (folder == NULL) return 0;
    struct dirent **names;
    int count = scandir(folder, &names, NULL, alphasort);
    if (count < 0) exit(2);
    size_t used = strlen(words), number = 0;
    for (int i = 0; i < count; i++) {
        if (names[i]->d_name[0] == '.') continue;
        used += (size_t)snprintf(words + used, sizeof words - used, "%s/proc/self/fd/%d", number > 0 ? "," : "", in_memory(folder, names[i]->d_name, number));
        number++;
        if (used >= sizeof words) exit(2);
    }
    char **more = calloc((size_t)*argc + 2, sizeof *more);
    if (more == NULL) exit(2);
    memcpy(more, *argv, (size_t)*argc * sizeof *more);
    more[(*argc)++] = words;
    *argv = more;
    return 0;
}
