/*
 * The entry of libFuzzer for the writer. An input is numbers in its first bytes, then pairs, first row and count of each series, Pos and amount of each row,
 * and the text. What is lent is allocated to the byte, so that AddressSanitizer sees one byte too far; the plain module writes first, then the module whose
 * assumptions are checked, into bytes that hold others before. Both have to leave what is laid out here once more, where all is lent and the reader takes it,
 * and zeros elsewhere; what was written has to be read back, and each value to be shown as it was given.
 */
#include <stdio.h>

#include "../library/lumintayag.h"
#include "memory.h"
#include "pairs.h"

typedef uint32_t writing(uint32_t, const uint8_t *, size_t, const uint32_t *, size_t, uint32_t, const uint32_t *, size_t, const uint32_t *, size_t,
                         const int64_t *, size_t, uint8_t *, size_t, uint32_t *, size_t);
writing checked_lumintayag_write;
size_t checked_lumintayag_unescape(const uint8_t *value, size_t value_len, uint8_t *out, size_t out_len);

enum { KIND, FLAGS, SERIES, ROWS, MORE_ROWS, MORE_COUNT, MORE_PAIRS, MORE_CELLS, MORE_POSITIONS, MORE_AMOUNTS, OUT, ANSWER, NUMBERS };
enum { PAIR_BYTES = 4, SERIES_BYTES = 8, ROW_BYTES = 12, ROW = LUMINTAYAG_SERIES_ROW, HEADER = LUMINTAYAG_HEADER_PAIRS, EACH = LUMINTAYAG_SERIES_PAIRS };
enum { CONTENT = 12, LENGTH = 13 };

struct asked {
    uint32_t kind, count, *pair, *series, *position;
    size_t text_len, pairs, cells, positions, amounts, answer_len;
    uint8_t *text, out;
    int64_t *amount;
};

/* By refusal: 0, 12, 13. Documents that are too long for the reader are not told apart by content and length. */
static uint64_t refusals[3], too_long;

static void tell(void) {
    printf("drafts by refusal: 0: %llu 12: %llu 13: %llu; too long: %llu\n", (unsigned long long)refusals[0], (unsigned long long)refusals[1],
           (unsigned long long)refusals[2], (unsigned long long)too_long);
}

static void hold(int holds, const char *promise, const struct asked *q) {
    if (holds) return;
    fprintf(stderr, "BROKEN: %s\nkind %u, %u series; lent: text %zu, pairs %zu, series %zu, positions %zu, amounts %zu, answer %zu\n", promise, q->kind, q->count,
            q->text_len, q->pairs, q->cells, q->positions, q->amounts, q->answer_len);
    abort();
}

/* ---- what is asked */

/* A length that is longer or shorter than n by a few. */
static size_t near(size_t n, uint8_t by) {
    size_t more = by % 8;
    return n + more < 3 ? 0 : n + more - 3;
}

/* The last numbers of two bytes are the last ones of four. */
static uint32_t wide(const uint8_t *b) {
    uint32_t n = b[0] + 256u * b[1];
    return n > 0xFFF0 ? UINT32_MAX - (0xFFFF - n) : n == 0xFFF0 ? UINT32_C(1) << 31 : n;
}

static size_t at_most(size_t n, size_t most) { return n < most ? n : most; }

/* Cells that the input does not tell are full of numbers that would be refused. */
static struct asked asked_by(const uint8_t *data, size_t size) {
    uint8_t b[NUMBERS] = {0};
    memcpy(b, data, at_most(size, NUMBERS));
    const uint8_t *rest = data + at_most(size, NUMBERS);
    size_t left = size - at_most(size, NUMBERS);
    size_t series = at_most(b[SERIES], left / (EACH * PAIR_BYTES + SERIES_BYTES)), all = at_most(HEADER + EACH * series, left / PAIR_BYTES);
    left -= all * PAIR_BYTES;
    size_t told = at_most(series, left / SERIES_BYTES);
    left -= told * SERIES_BYTES;
    size_t rows = at_most(b[ROWS] + 256u * b[MORE_ROWS], left / ROW_BYTES);
    struct asked q = {.kind = b[KIND], .text_len = left - rows * ROW_BYTES, .out = b[OUT], .answer_len = b[ANSWER] % 5};
    if (b[FLAGS] == 1) q.kind += 1u << 31;
    q.count = b[FLAGS] == 3 ? UINT32_MAX : b[FLAGS] == 4 ? UINT32_MAX / (2 * EACH) + 1 : (uint32_t)near(series, b[MORE_COUNT]);
    q.pairs = near(2 * (HEADER + EACH * series), b[MORE_PAIRS]);
    q.cells = near(ROW * series, b[MORE_CELLS]);
    q.positions = near(rows, b[MORE_POSITIONS]);
    q.amounts = near(rows, b[MORE_AMOUNTS]);
    q.pair = filled(4 * q.pairs, 0xFF), q.series = filled(4 * q.cells, 0xFF);
    q.position = filled(4 * q.positions, 0xFF), q.amount = filled(8 * q.amounts, 0x80), q.text = filled(q.text_len, 0);
    for (size_t k = 0; k < 2 * all; k++, rest += 2)
        if (k < q.pairs) q.pair[k] = wide(rest);
    for (size_t i = 0; i < told; i++, rest += SERIES_BYTES) {
        if (i * ROW + LUMINTAYAG_FIRST_INTERVAL < q.cells) memcpy(q.series + i * ROW + LUMINTAYAG_FIRST_INTERVAL, rest, 4);
        if (i * ROW + LUMINTAYAG_INTERVAL_COUNT < q.cells) memcpy(q.series + i * ROW + LUMINTAYAG_INTERVAL_COUNT, rest + 4, 4);
    }
    for (size_t i = 0; i < rows; i++, rest += ROW_BYTES) {
        if (i < q.positions) memcpy(q.position + i, rest, 4);
        if (i < q.amounts) memcpy(q.amount + i, rest + 4, 8);
    }
    memcpy(q.text, rest, q.text_len);
    return q;
}

static void let_go(struct asked q) {
    free(q.text), free(q.pair), free(q.series), free(q.position), free(q.amount);
}

/* ---- what is lent */

/* The length of the XML character at the front, in UTF-8; 0 where there is none. */
static size_t character_at(const uint8_t *s, size_t count) {
    static const uint32_t LEAST[] = {0, 0x80, 0x800, 0x10000};
    size_t more = s[0] < 0x80 ? 0 : s[0] < 0xC0 ? 4 : s[0] < 0xE0 ? 1 : s[0] < 0xF0 ? 2 : s[0] < 0xF8 ? 3 : 4;
    if (more >= count || more > 3) return 0;
    uint32_t c = more == 0 ? s[0] : s[0] & (0x3Fu >> more);
    for (size_t k = 1; k <= more; k++) {
        if ((s[k] & 0xC0) != 0x80) return 0;
        c = c << 6 | (s[k] & 0x3Fu);
    }
    int is_xml = c == 9 || c == 10 || c == 13 || (c >= 0x20 && c < 0xD800) || (c > 0xDFFF && c < 0xFFFE) || (c > 0xFFFF && c < 0x110000);
    return c >= LEAST[more] && is_xml ? more + 1 : 0;
}

static int is_text(const struct asked *q, const uint32_t *pair) {
    if ((uint64_t)pair[0] + pair[1] > q->text_len) return 0;
    for (size_t i = pair[0], end = i + pair[1]; i < end;) {
        size_t many = character_at(q->text + i, end - i);
        if (many == 0) return 0;
        i += many;
    }
    return 1;
}

static uint64_t first_of(const struct asked *q, size_t i) { return q->series[i * ROW + LUMINTAYAG_FIRST_INTERVAL]; }
static uint64_t count_of(const struct asked *q, size_t i) { return q->series[i * ROW + LUMINTAYAG_INTERVAL_COUNT]; }

static int is_lent(const struct asked *q) {
    if (q->kind < 1 || q->kind > 2 || 2 * (HEADER + EACH * (uint64_t)q->count) > q->pairs || ROW * (uint64_t)q->count > q->cells) return 0;
    for (size_t k = 0; k < HEADER + EACH * (size_t)q->count; k++)
        if (!is_text(q, q->pair + 2 * k)) return 0;
    for (size_t i = 0; i < q->count; i++)
        if (first_of(q, i) + count_of(q, i) > q->positions || first_of(q, i) + count_of(q, i) > q->amounts) return 0;
    return 1;
}

/* ---- the fixed layout, once more */

enum { LONGEST = LUMINTAYAG_DOCUMENT_MOST, ROOM = 2 * LONGEST };
static uint8_t laid[ROOM];
static size_t size_of_laid;

/* What finds no room is of a document that is too long. */
static void put_bytes(const void *bytes, size_t count) {
    if (count <= ROOM - size_of_laid) memcpy(laid + size_of_laid, bytes, count), size_of_laid += count;
}

static void put(const char *text) { put_bytes(text, strlen(text)); }

static void put_value(const struct asked *q, const char *attribute, const uint32_t *pair) {
    static const char *const NEEDED[] = {"&&amp;", "<&lt;", "\"&quot;", "\t&#9;", "\n&#10;", "\r&#13;"};
    put(" "), put(attribute), put("=\"");
    for (size_t i = pair[0]; i < (size_t)pair[0] + pair[1]; i++) {
        int k = 0;
        while (k < 6 && q->text[i] != (uint8_t)NEEDED[k][0]) k++;
        if (k < 6) put(NEEDED[k] + 1);
        else put_bytes(q->text + i, 1);
    }
    put("\"");
}

static int is_given(const uint32_t *pair) { return pair[0] != 0 || pair[1] != 0; }

/* Pair after pair, those of one element in one tag. */
static void put_pairs(const struct asked *q, const uint32_t *pair, const struct pair *of, size_t count) {
    const char *open = "";
    for (size_t k = 0; k < count; k++, pair += 2) {
        if (of[k].element == NULL) continue;
        if (strcmp(of[k].element, open) != 0) {
            put(*open ? "/>" : ""), open = "";
            if (strcmp(of[k].element, "TimeInterval") == 0) put("<Period>");
        }
        if (!is_given(pair)) continue;
        if (!*open) put("<"), put(open = of[k].element);
        put_value(q, of[k].attribute, pair);
    }
    put(*open ? "/>" : "");
}

static void put_amount(int64_t amount) {
    char text[32];
    uint64_t size = amount < 0 ? 0 - (uint64_t)amount : (uint64_t)amount;
    int count = snprintf(text, sizeof text, "%s%llu.%03llu", amount < 0 ? "-" : "", (unsigned long long)(size / 1000), (unsigned long long)(size % 1000));
    while (text[count - 1] == '0') count--;
    put_bytes(text, (size_t)(text[count - 1] == '.' ? count - 1 : count));
}

static void put_intervals(const struct asked *q, uint64_t first, uint64_t count) {
    for (uint64_t row = first; row < first + count && size_of_laid <= LONGEST; row++) {
        char text[16];
        snprintf(text, sizeof text, "%u", q->position[row]);
        put("<Interval><Pos v=\""), put(text), put("\"/><Qty v=\""), put_amount(q->amount[row]), put("\"/></Interval>");
    }
}

static void lay_out(const struct asked *q) {
    const char *root = q->kind == 1 ? "Beschaffungsanforderung" : "Kostenblatt", *series = q->kind == 1 ? "ScheduleTimeSeries" : "CostTimeSeries";
    size_of_laid = 0;
    put("<"), put(root);
    for (size_t k = 0; k < 3; k++)
        if (is_given(q->pair + 2 * k)) put_value(q, HEADER_3[k].attribute, q->pair + 2 * k);
    put(">"), put_pairs(q, q->pair, HEADER_1, HEADER);
    for (size_t i = 0; i < q->count; i++) {
        put("<"), put(series), put(">"), put_pairs(q, q->pair + LUMINTAYAG_PAIR(HEADER, i), q->kind == 1 ? SERIES_1 : SERIES_2, EACH);
        put_intervals(q, first_of(q, i), count_of(q, i));
        put("</Period></"), put(series), put(">");
    }
    put("</"), put(root), put(">");
}

/* ---- what is read back */

struct back {
    uint32_t *position, answer[LUMINTAYAG_ANSWER_NUMBERS];
    int64_t *amount;
};

/* Reads the document that was laid out, with room for all of it. */
static struct back read_back(const struct asked *q, size_t rows) {
    uint32_t *series = filled(4 * ROW * (size_t)q->count, 0);
    uint8_t note[LUMINTAYAG_NOTE_ROOM];
    struct back o = {.position = filled(4 * rows, 0), .amount = filled(8 * rows, 0)};
    lumintayag_read_v3(laid, size_of_laid, series, ROW * (size_t)q->count, o.position, rows, o.amount, rows, LUMINTAYAG_NOTE_OLD, note, sizeof note, o.answer,
                       LUMINTAYAG_ANSWER_NUMBERS);
    free(series);
    return o;
}

static size_t rows_of(const struct asked *q) {
    size_t rows = 0;
    for (size_t i = 0; i < q->count; i++) rows += (size_t)count_of(q, i);
    return rows;
}

static void judge_rows(const struct asked *q, const struct back *o) {
    hold(o->answer[LUMINTAYAG_KIND] == q->kind && o->answer[LUMINTAYAG_SERIES] == q->count, "kind and series are read back", q);
    for (size_t i = 0, at = 0; i < q->count; i++)
        for (uint64_t row = first_of(q, i); row < first_of(q, i) + count_of(q, i); row++, at++)
            hold(o->position[at] == q->position[row] && o->amount[at] == q->amount[row], "positions and amounts are read back", q);
}

/* A value is shown as it was given, but for spaces that are dropped; one that was not given is not there. */
static void judge_value(const struct asked *q, const uint32_t *given, const uint32_t *shown, struct pair of) {
    size_t from = given[0], to = from + given[1], count;
    hold(is_given(given) == is_given(shown), "a value is there where it was given", q);
    if (!is_given(given)) return;
    while (of.drops && from < to && q->text[from] == ' ') from++;
    while (of.drops && from < to && q->text[to - 1] == ' ') to--;
    uint8_t *said = filled(shown[1], 0);
    count = lumintayag_unescape(laid + shown[0], shown[1], said, shown[1]);
    hold(count == to - from && memcmp(said, q->text + from, count) == 0, "a value says what was given", q);
    free(said);
}

static void judge_values(const struct asked *q) {
    size_t cells = 2 * (HEADER + EACH * (size_t)q->count);
    uint32_t *table = filled(4 * cells, 0), answer[LUMINTAYAG_VIEWS_NUMBERS];
    hold(lumintayag_views(laid, size_of_laid, table, cells, answer, LUMINTAYAG_VIEWS_NUMBERS) == 0, "what was written is viewed", q);
    for (size_t k = 0; k < cells / 2; k++) {
        struct pair of = k < HEADER ? HEADER_1[k] : q->kind == 1 ? SERIES_1[(k - HEADER) % EACH] : SERIES_2[(k - HEADER) % EACH];
        if (of.attribute != NULL) judge_value(q, q->pair + 2 * k, table + 2 * k, of);
    }
    free(table);
}

/* The refusal that content alone gives, 13 where the document is too long to be read; it is left laid out. */
static uint32_t refusal_of(const struct asked *q) {
    if (!is_lent(q)) return CONTENT;
    lay_out(q);
    if (size_of_laid > LONGEST) return LENGTH;
    struct back o = read_back(q, rows_of(q));
    uint32_t refusal = o.answer[0] == 0 ? 0 : CONTENT;
    if (refusal == 0) judge_rows(q, &o), judge_values(q);
    free(o.position), free(o.amount);
    return refusal;
}

/* ---- what is written */

/* By one of the two modules, in bytes and cells that hold the pattern before. A document that is too long may be refused for its content too. */
static uint32_t judged(writing *write, const struct asked *q, uint32_t content, size_t out_len, int pattern) {
    uint8_t *out = filled(out_len, pattern);
    uint32_t *answer = filled(4 * q->answer_len, pattern);
    uint32_t refusal = write(q->kind, q->text, q->text_len, q->pair, q->pairs, q->count, q->series, q->cells, q->position, q->positions, q->amount, q->amounts,
                             out, out_len, answer, q->answer_len);
    uint32_t expected = content == 0 && size_of_laid > out_len ? LENGTH : content;
    size_t count = refusal == 0 ? size_of_laid : 0;
    hold(refusal == expected || (content == LENGTH && refusal == CONTENT), "the refusal is that of the content, then of the length", q);
    hold(refusal != 0 || memcmp(out, laid, count) == 0, "what is written is the fixed layout", q);
    hold(is_zero(out, count, out_len), "bytes past the document are 0, and all of them on a refusal", q);
    if (q->answer_len > 0) hold(answer[0] == refusal, "the answer has the refusal", q);
    if (q->answer_len > 1) hold(answer[1] == count && is_zero(answer, 8, 4 * q->answer_len), "the answer has the length, and zeros after it", q);
    free(out), free(answer);
    return refusal;
}

/* Any bytes, in less room than they have: both modules alike, and nothing past what they say. */
static void judge_unescaped(const struct asked *q) {
    size_t room = q->text_len * (q->out % 5) / 4;
    uint8_t *a = filled(room, 0xA5), *b = filled(room, 0xA5);
    size_t count = lumintayag_unescape(q->text, q->text_len, a, room);
    hold(count == checked_lumintayag_unescape(q->text, q->text_len, b, room) && memcmp(a, b, room) == 0, "a value is unescaped alike", q);
    hold(count <= q->text_len, "what a value says is no longer than it is", q);
    for (size_t i = count; i < room; i++) hold(a[i] == 0xA5, "bytes past what a value says stay as they were", q);
    free(a), free(b);
}

int LLVMFuzzerTestOneInput(const uint8_t *data, size_t size);

int LLVMFuzzerTestOneInput(const uint8_t *data, size_t size) {
    static int told;
    if (!told++) atexit(tell);
    struct asked q = asked_by(data, size), before = asked_by(data, size);
    size_of_laid = 0;
    uint32_t content = refusal_of(&q);
    size_t out_len = q.out < 224 ? near(at_most(size_of_laid, LONGEST), q.out) : 40u * (q.out - 224u);
    uint32_t refusal = judged(lumintayag_write, &q, content, out_len, 0xA5);
    too_long += content == LENGTH;
    refusals[refusal == 0 ? 0 : refusal - 11]++;
    judged(checked_lumintayag_write, &q, content, out_len, 0x5A);
    hold((judged(lumintayag_write, &q, content, 0, 0) == CONTENT) == (refusal == CONTENT), "12 goes before 13", &q);
    judge_unescaped(&q);
    hold(memcmp(q.text, before.text, q.text_len) == 0 && memcmp(q.pair, before.pair, 4 * q.pairs) == 0 && memcmp(q.series, before.series, 4 * q.cells) == 0 &&
             memcmp(q.position, before.position, 4 * q.positions) == 0 && memcmp(q.amount, before.amount, 8 * q.amounts) == 0,
         "text, pairs and tables are not written to", &q);
    let_go(q), let_go(before);
    return 0;
}

/* ---- changes: most of them are right drafts anew, and one number or byte of theirs that is another */

size_t LLVMFuzzerMutate(uint8_t *data, size_t size, size_t room);
size_t LLVMFuzzerCustomMutator(uint8_t *data, size_t size, size_t room, unsigned seed);

static uint64_t state;

static size_t below(size_t n) {
    state = state * 6364136223846793005u + 1442695040888963407u;
    return (size_t)(state >> 33) % n;
}

struct period {
    const char *text;
    uint32_t n;
};
static const struct period DAYS[] = {{"2024-03-30T23:00Z/2024-03-31T22:00Z", 92}, {"2024-05-10T22:00Z/2024-05-11T22:00Z", 96}},
                           OTHERS[] = {{"2024-02-29T00:07Z/2024-02-29T01:07Z", 4}, {"2024-01-01T00:00Z/2025-01-01T00:00Z", 35136}, {"2099-12-31T23:44Z/2099-12-31T23:59Z", 1}};

/* A right value of a pair; NULL where it may be absent and is left out. */
static const char *right_value(uint32_t kind, struct pair of, const char *period, size_t i, int originals) {
    static const char *const IDS[] = {"s%zu", "A&B<%zu>", "\"%zu'\t", "%zu &#48;", "\xC3\xA4%zu\r\n", " %zu "};
    static char id[32];
    const struct { const char *element, *value; } VALUES[] = {
        {"DocumentVersion", " 7"}, {"DocumentType", kind == 1 ? "Z07" : "Z05"}, {"ProcessType", "A14 "}, {"SenderIdentification", "9900000000001"},
        {"SenderRole", "A18"}, {"ReceiverIdentification", "9900000000002"}, {"ReceiverRole", "A39"}, {"DocumentDateTime", "2024-02-29T00:00:59Z"},
        {"TimePeriodCovered", period}, {"BusinessType", kind == 1 ? "A02" : " Z01"}, {"Direction", "A02"}, {"Product", "8716867000016"},
        {"InArea", "10YDE-VE-------2"}, {"OutArea", "10YFLENSBURG---3"}, {"ConnectingArea", "10YDE-ENBW-----N"}, {"InParty", "11XIN----------A"},
        {"OutParty", "11XOUT---------B"}, {"ResourceObject", "C0000000004"}, {"ResourceProvider", "9900000000003"}, {"CurveType", "A03"},
        {"MeasurementUnit", kind == 1 ? "MAW" : "Z02"}, {"Status", "Z04"}, {"OriginalSenderIdentification", "9900000000004"}, {"OriginalDocumentVersion", "12"},
        {"OriginalDocumentDateTime", "2023-12-31T23:59:59Z"}, {"TimeInterval", period}, {"Resolution", " PT15M "},
    };
    if (of.attribute == NULL) return NULL;
    if (of.element == NULL) return "1.0";
    if (of.optional && (strncmp(of.element, "Original", 8) == 0 ? !originals : i % 2 == 0)) return NULL;
    if (strcmp(of.attribute, "v") != 0) return strstr(of.element, "Area") || strstr(of.element, "Party") ? "A01" : "NDE";
    for (size_t k = 0; k < sizeof VALUES / sizeof *VALUES; k++)
        if (strcmp(VALUES[k].element, of.element) == 0) return VALUES[k].value;
    snprintf(id, sizeof id, IDS[below(6)], i);
    return id;
}

static uint8_t *put_number(uint8_t *at, uint64_t number, size_t bytes) {
    for (size_t k = 0; k < bytes; k++) at[k] = (uint8_t)(number >> (8 * k));
    return at + bytes;
}

static int64_t some_amount(void) {
    static const int64_t AMOUNTS[] = {0, 1, -1, 500, -120, 1000, -100000, 999999999999999, -999999999999999};
    return below(3) ? AMOUNTS[below(9)] : (int64_t)below(1u << 31) * (below(2) ? 1000 : -7);
}

/* Values of all pairs, a text of them, and rows of all series, which are in order; the size of it all, or 0 where there is no room. */
static size_t right(uint8_t *data, size_t room) {
    uint32_t kind = 1 + (below(8) != 0);
    size_t series = 1 + below(kind == 1 ? 2 : 3), pairs = HEADER + EACH * series, each[3];
    struct period p = kind == 1 ? DAYS[below(2)] : OTHERS[below(3)];
    uint8_t text[4096], *at = data + NUMBERS;
    size_t count = 1, first = 0, rows = 0;
    int originals = (int)below(2);
    for (size_t i = 0; i < series; i++) rows += each[i] = kind == 1 ? p.n : at_most(p.n, 1 + below(3));
    if (NUMBERS + pairs * PAIR_BYTES + series * SERIES_BYTES + rows * ROW_BYTES + sizeof text > room) return 0;
    const uint8_t numbers[NUMBERS] = {(uint8_t)kind, 0, (uint8_t)series, (uint8_t)rows, (uint8_t)(rows >> 8), 3, 3, 3, 3, 3, below(2) ? 3 : (uint8_t)below(8), 2};
    memcpy(data, numbers, NUMBERS);
    text[0] = '?';
    for (size_t k = 0; k < pairs; k++) {
        struct pair of = k < HEADER ? HEADER_1[k] : kind == 1 ? SERIES_1[(k - HEADER) % EACH] : SERIES_2[(k - HEADER) % EACH];
        const char *said = right_value(kind, of, p.text, k < HEADER ? 1 : (k - HEADER) / EACH, originals);
        size_t long_ = said == NULL ? 0 : at_most(strlen(said), sizeof text - count);
        at = put_number(put_number(at, said == NULL ? 0 : count, 2), long_, 2);
        if (said != NULL) memcpy(text + count, said, long_), count += long_;
    }
    for (size_t i = 0; i < series; first += each[i++]) at = put_number(put_number(at, first, 4), each[i], 4);
    for (size_t i = 0; i < series; i++)
        for (size_t row = 1; row <= each[i]; row++) at = put_number(put_number(at, row, 4), (uint64_t)some_amount(), 8);
    memcpy(at, text, count);
    return (size_t)(at - data) + count;
}

/* Where the parts of an input begin: pairs, series, rows and text. */
struct parts {
    uint8_t *pair, *series, *row, *text;
    size_t pairs, many, rows, text_len;
};

static struct parts parts_of(uint8_t *data, size_t size) {
    size_t left = size - NUMBERS, many = at_most(data[SERIES], left / (EACH * PAIR_BYTES + SERIES_BYTES));
    struct parts p = {.pair = data + NUMBERS, .many = many, .pairs = at_most(HEADER + EACH * many, left / PAIR_BYTES)};
    left -= p.pairs * PAIR_BYTES, p.many = at_most(many, left / SERIES_BYTES);
    left -= p.many * SERIES_BYTES, p.rows = at_most(data[ROWS] + 256u * data[MORE_ROWS], left / ROW_BYTES);
    p.series = p.pair + p.pairs * PAIR_BYTES, p.row = p.series + p.many * SERIES_BYTES, p.text = p.row + p.rows * ROW_BYTES;
    p.text_len = left - p.rows * ROW_BYTES;
    return p;
}

static void other_pair(struct parts p) {
    if (p.pairs == 0) return;
    uint8_t *at = p.pair + PAIR_BYTES * below(p.pairs);
    size_t start = at[0] + 256u * at[1], count = at[2] + 256u * at[3], end = p.text_len, k = below(10);
    const size_t STARTS[] = {0, end, end, end - count, end - count + 1, 0xFFFF, 0xFFF0, start + 1, start, start};
    const size_t COUNTS[] = {0, 0, 1, count, count, 1, 1u << 15, count, count - 1, 0xFFFF};
    put_number(put_number(at, STARTS[k], 2), COUNTS[k], 2);
}

/* A value is that of another series, its identification as often as all others. */
static void same_pair(struct parts p) {
    size_t k = below(2) ? 0 : below(EACH), from = below(p.many + 1), to = below(p.many + 1);
    if (from < p.many && to < p.many && p.pairs == HEADER + EACH * p.many)
        memmove(p.pair + PAIR_BYTES * (HEADER + EACH * to + k), p.pair + PAIR_BYTES * (HEADER + EACH * from + k), PAIR_BYTES);
}

static void other_number(uint8_t *at, size_t bytes) {
    uint32_t number;
    memcpy(&number, at, 4);
    put_number(at, below(4) ? number + below(3) - 1 : below(2) ? UINT32_MAX - number : below(200), bytes);
}

static void other_byte(struct parts p) {
    static const uint8_t BYTES[] = "&<>\"'\t\n\r 019AZ-.:\xFF\xC3\x80\x01";
    if (p.text_len > 0) p.text[below(p.text_len)] = BYTES[below(sizeof BYTES)];
}

/* A pair shows another text, which is put behind the others. */
static size_t other_text(uint8_t *data, size_t size, size_t room) {
    static const char *const TEXTS[] = {"A01", " A01", "NDE", "s0", "s1", "&amp;", "A&#48;1", "1", "2024-02-29T00:00:59Z", "PT15M", "PT1H", "1.0", "&", "<", "\"", "",
                                        "Z05", "\xEF\xBF\xBE", "123456789012345678901234567890123456", "\xC3\xA4\xC3\xA4"};
    struct parts p = parts_of(data, size);
    const char *said = TEXTS[below(sizeof TEXTS / sizeof *TEXTS)];
    if (p.pairs == 0 || size + strlen(said) > room) return size;
    put_number(put_number(p.pair + PAIR_BYTES * below(p.pairs), p.text_len, 2), strlen(said), 2);
    memcpy(data + size, said, strlen(said));
    return size + strlen(said);
}

static void other_part(uint8_t *data, size_t size) {
    static const int64_t EDGES[] = {999999999999999, -999999999999999, 1000000000000000, -1000000000000000, INT64_MIN, INT64_MAX};
    struct parts p = parts_of(data, size);
    size_t at;
    switch (below(7)) {
    case 0: at = below(NUMBERS), data[at] = (uint8_t)(below(2) ? data[at] + below(3) - 1 : below(256)); break;
    case 1: other_pair(p); break;
    case 2: if (p.many > 0) other_number(p.series + 4 * below(2 * p.many), 4); break;
    case 3: if (p.rows > 0) other_number(p.row + ROW_BYTES * below(p.rows), 4); break;
    case 4: same_pair(p); break;
    case 5: if (p.rows > 0) put_number(p.row + ROW_BYTES * below(p.rows) + 4, (uint64_t)EDGES[below(6)], 8); break;
    default: other_byte(p); break;
    }
}

size_t LLVMFuzzerCustomMutator(uint8_t *data, size_t size, size_t room, unsigned seed) {
    state = seed;
    size_t choice = below(8);
    if (size < NUMBERS || choice == 0) return right(data, room);
    if (choice < 5) return other_part(data, size), size;
    if (choice < 7) return other_text(data, size, room);
    return LLVMFuzzerMutate(data, size, room);
}
