/*
 * The entry of libFuzzer for totals. An input is numbers in its first bytes, then first row and count of each series, then Pos and amount of each row. What
 * is lent is allocated to the byte, so that AddressSanitizer sees one byte too far; the plain module adds up first, then the module whose assumptions are
 * checked, into cells that hold other bytes before. Both have to give what is worked out here, quarter hour by quarter hour and with 128 bits, and the
 * series in reverse order have to give the same sum.
 */
#include <stdio.h>

#include "../library/lumintayag.h"
#include "memory.h"

typedef uint32_t adding(uint32_t, uint32_t, size_t, const uint32_t *, size_t, const uint32_t *, size_t, const int64_t *, size_t, int64_t *, size_t, int64_t *, size_t);
adding checked_lumintayag_totals;

enum { KIND, N_LOW, N_HIGH, FLAGS, SERIES, MORE_SERIES, MORE_CELLS, MORE_POSITIONS, MORE_AMOUNTS, TOTALS, SUM, NUMBERS };
enum { SERIES_BYTES = 8, ROW_BYTES = 12, ROW = LUMINTAYAG_SERIES_ROW };
static const int64_t LARGEST = INT64_C(999999999999999);

struct asked {
    uint32_t kind, n;
    size_t count, cells, positions, amounts, totals_len, sum_len;
    uint32_t *series, *position;
    int64_t *amount;
};

static uint64_t refusals[19];

static void tell(void) {
    printf("tables by refusal: 0: %llu 17: %llu 18: %llu\n", (unsigned long long)refusals[0], (unsigned long long)refusals[17], (unsigned long long)refusals[18]);
}

static void hold(int holds, const char *promise, const struct asked *q) {
    if (holds) return;
    fprintf(stderr, "BROKEN: %s\nkind %u, N %u, %zu series; lent: series %zu, positions %zu, amounts %zu, totals %zu, sum %zu\n", promise, q->kind, q->n, q->count,
            q->cells, q->positions, q->amounts, q->totals_len, q->sum_len);
    abort();
}

/* A length that is longer or shorter than n by a few. */
static size_t near(size_t n, uint8_t by) {
    size_t more = by % 8;
    return n + more < 3 ? 0 : n + more - 3;
}

/* Cells that the input does not tell are full of numbers that would be refused. */
static struct asked asked_by(const uint8_t *data, size_t size) {
    uint8_t b[NUMBERS] = {0};
    memcpy(b, data, size < NUMBERS ? size : NUMBERS);
    const uint8_t *rest = data + (size < NUMBERS ? size : NUMBERS);
    size_t left = size < NUMBERS ? 0 : size - NUMBERS;
    size_t series = b[SERIES] < left / SERIES_BYTES ? b[SERIES] : left / SERIES_BYTES, rows = (left - series * SERIES_BYTES) / ROW_BYTES;
    struct asked q = {.kind = b[KIND], .n = b[N_LOW] + 256u * b[N_HIGH]};
    if (b[FLAGS] == 1) q.kind += 1u << 31;
    if (b[FLAGS] == 2) q.n += 1u << 31;
    q.count = b[FLAGS] == 3 ? SIZE_MAX : b[FLAGS] == 4 ? SIZE_MAX / ROW + 1 : near(series, b[MORE_SERIES]);
    q.cells = near(series * ROW, b[MORE_CELLS]);
    q.positions = near(rows, b[MORE_POSITIONS]);
    q.amounts = near(rows, b[MORE_AMOUNTS]);
    q.totals_len = b[TOTALS] < 128 ? b[TOTALS] : near(2 * series, b[TOTALS]);
    q.sum_len = b[SUM] % 5;
    q.series = filled(4 * q.cells, 0xFF);
    q.position = filled(4 * q.positions, 0xFF);
    q.amount = filled(8 * q.amounts, 0x80);
    for (size_t i = 0; i < series; i++, rest += SERIES_BYTES) {
        if (i * ROW + LUMINTAYAG_FIRST_INTERVAL < q.cells) memcpy(q.series + i * ROW + LUMINTAYAG_FIRST_INTERVAL, rest, 4);
        if (i * ROW + LUMINTAYAG_INTERVAL_COUNT < q.cells) memcpy(q.series + i * ROW + LUMINTAYAG_INTERVAL_COUNT, rest + 4, 4);
    }
    for (size_t i = 0; i < rows; i++, rest += ROW_BYTES) {
        if (i < q.positions) memcpy(q.position + i, rest, 4);
        if (i < q.amounts) memcpy(q.amount + i, rest + 4, 8);
    }
    return q;
}

static uint64_t first_of(const struct asked *q, size_t i) { return q->series[i * ROW + LUMINTAYAG_FIRST_INTERVAL]; }
static uint64_t count_of(const struct asked *q, size_t i) { return q->series[i * ROW + LUMINTAYAG_INTERVAL_COUNT]; }

static int rows_fit(const struct asked *q, uint64_t first, uint64_t count) {
    if (first + count > q->positions || first + count > q->amounts || count < 1) return 0;
    if ((q->kind == 1 && count != q->n) || (q->kind == 3 && count > 100)) return 0;
    for (uint64_t k = first; k < first + count; k++) {
        uint64_t before = k == first ? 0 : q->position[k - 1], pos = q->position[k];
        if (pos > q->n || pos <= before || ((k == first || q->kind != 2) && pos != before + 1)) return 0;
        if (q->amount[k] > LARGEST || q->amount[k] < -LARGEST) return 0;
    }
    return 1;
}

static uint32_t refusal_of(const struct asked *q) {
    uint64_t end = 0;
    if (q->count > LUMINTAYAG_TOTALS_MOST) return LUMINTAYAG_TOO_MANY_SERIES;
    int period = q->kind == 1 ? q->n == 92 || q->n == 96 || q->n == 100 : q->n >= 1 && q->n <= 35136;
    if (q->kind < 1 || q->kind > 3 || !period || q->count > q->cells / ROW) return LUMINTAYAG_WRONG_TABLES;
    for (size_t i = 0; i < q->count; i++) {
        if (first_of(q, i) != end || !rows_fit(q, end, count_of(q, i))) return LUMINTAYAG_WRONG_TABLES;
        end += count_of(q, i);
    }
    return 0;
}

/* Of each quarter hour the amount whose Pos is the last one not after it; in kinds 1 and 3 no quarter hour past the last Pos has one. */
static __int128 total_of(const struct asked *q, size_t i) {
    uint64_t row = first_of(q, i), end = row + count_of(q, i);
    uint32_t last = q->kind == 2 ? q->n : q->position[end - 1];
    __int128 total = 0;
    for (uint32_t quarter = 1; quarter <= last; quarter++) {
        while (row + 1 < end && q->position[row + 1] <= quarter) row++;
        total += q->amount[row];
    }
    return total;
}

static void judge_pair(const struct asked *q, const int64_t *cells, size_t length, size_t at, __int128 total) {
    int64_t rest = (int64_t)((total % 1000 + 1000) % 1000);
    if (at < length) hold(cells[at] == (int64_t)((total - rest) / 1000), "the whole number of a total", q);
    if (at + 1 < length) hold(cells[at + 1] == rest, "the thousandths of a total", q);
}

static void judge_totals(const struct asked *q, const int64_t *totals, const int64_t *sum) {
    __int128 all = 0;
    for (size_t i = 0; i < q->count; i++) {
        __int128 total = total_of(q, i);
        judge_pair(q, totals, q->totals_len, 2 * i, total);
        all += total;
    }
    judge_pair(q, sum, q->sum_len, 0, all);
    if (q->totals_len > 2 * q->count) hold(is_zero(totals, 16 * q->count, 8 * q->totals_len), "cells past the last series are 0", q);
    if (q->sum_len > 2) hold(is_zero(sum, 16, 8 * q->sum_len), "cells past the sum are 0", q);
}

/* The same series from the last to the first, in tables of their own. */
static void judge_order(const struct asked *q, const int64_t *sum) {
    struct asked r = *q;
    uint64_t rows = q->count == 0 ? 0 : first_of(q, q->count - 1) + count_of(q, q->count - 1), end = 0;
    int64_t again[2] = {7, 7};
    r.series = filled(4 * ROW * q->count, 0);
    r.position = filled(4 * rows, 0);
    r.amount = filled(8 * rows, 0);
    for (size_t i = 0; i < q->count; i++) {
        uint64_t from = first_of(q, q->count - 1 - i), count = count_of(q, q->count - 1 - i);
        r.series[i * ROW + LUMINTAYAG_FIRST_INTERVAL] = (uint32_t)end;
        r.series[i * ROW + LUMINTAYAG_INTERVAL_COUNT] = (uint32_t)count;
        memcpy(r.position + end, q->position + from, 4 * count);
        memcpy(r.amount + end, q->amount + from, 8 * count);
        end += count;
    }
    uint32_t refusal = lumintayag_totals(q->kind, q->n, q->count, r.series, ROW * q->count, r.position, rows, r.amount, rows, NULL, 0, again, 2);
    hold(refusal == 0, "series in another order are taken too", q);
    hold(memcmp(again, sum, 8 * (q->sum_len < 2 ? q->sum_len : 2)) == 0, "series in another order have the same sum", q);
    free(r.series), free(r.position), free(r.amount);
}

/* By one of the two modules, in cells that hold the pattern before. */
static uint32_t judged(adding *add, const struct asked *q, int pattern) {
    int64_t *totals = filled(8 * q->totals_len, pattern), *sum = filled(8 * q->sum_len, pattern);
    uint32_t refusal = add(q->kind, q->n, q->count, q->series, q->cells, q->position, q->positions, q->amount, q->amounts, totals, q->totals_len, sum, q->sum_len);
    hold(refusal == refusal_of(q), "the refusal is that of the rules", q);
    if (refusal == 0) judge_totals(q, totals, sum), judge_order(q, sum);
    else hold(is_zero(totals, 0, 8 * q->totals_len) && is_zero(sum, 0, 8 * q->sum_len), "on a refusal all cells are 0", q);
    free(totals), free(sum);
    return refusal;
}

int LLVMFuzzerTestOneInput(const uint8_t *data, size_t size);

int LLVMFuzzerTestOneInput(const uint8_t *data, size_t size) {
    static int told;
    if (!told++) atexit(tell);
    struct asked q = asked_by(data, size), before = asked_by(data, size);
    refusals[judged(lumintayag_totals, &q, 0xA5)]++;
    judged(checked_lumintayag_totals, &q, 0x5A);
    hold(memcmp(q.series, before.series, 4 * q.cells) == 0 && memcmp(q.position, before.position, 4 * q.positions) == 0 &&
             memcmp(q.amount, before.amount, 8 * q.amounts) == 0,
         "the tables are not written to", &q);
    free(q.series), free(q.position), free(q.amount);
    free(before.series), free(before.position), free(before.amount);
    return 0;
}

/* libFuzzer's own changes break most tables. Most of the changes are these: right tables anew, and one number of theirs that is another. */
size_t LLVMFuzzerMutate(uint8_t *data, size_t size, size_t room);
size_t LLVMFuzzerCustomMutator(uint8_t *data, size_t size, size_t room, unsigned seed);

static uint64_t state;

static size_t below(size_t n) {
    state = state * 6364136223846793005u + 1442695040888963407u;
    return (size_t)(state >> 33) % n;
}

static uint32_t some_period(uint32_t kind) {
    static const uint32_t DAYS[] = {92, 96, 100}, OTHERS[] = {1, 2, 3, 5, 9, 92, 99, 100, 101, 300, 35135, 35136};
    return kind == 1 ? DAYS[below(3)] : OTHERS[below(12)];
}

static int64_t some_amount(void) {
    static const int64_t AMOUNTS[] = {0, 1, -1, 999, -999, 1000, -1000, 999999999999999, -999999999999999};
    return below(3) ? AMOUNTS[below(9)] : (int64_t)below(1u << 31) * (below(2) ? 1000 : -7);
}

static uint32_t some_rows(uint32_t kind, uint32_t n) {
    uint32_t most = n < 100 ? n : 100;
    return kind == 1 ? n : below(9) == 0 ? most : 1 + (uint32_t)below(most < 5 ? most : 5);
}

static uint32_t next_pos(uint32_t kind, uint32_t n, uint32_t before) {
    if (kind != 2 || before == 0 || below(2)) return before + 1;
    return below(4) ? before + 1 + (uint32_t)below(n / 4 + 1) : n;
}

/* Rows of all series, as long as there is room; the size of it all. */
static size_t right(uint8_t *data, size_t room) {
    uint32_t kind = 1 + (uint32_t)below(3), n = some_period(kind), first = 0, counts[256];
    size_t series = below(60) ? below(5) : 199 + below(3), size = NUMBERS + series * SERIES_BYTES;
    if (room < size) return 0;
    uint8_t *row = data + size;
    for (size_t i = 0; i < series; i++) {
        uint32_t wanted = some_rows(kind, n), pos = 0;
        for (counts[i] = 0; counts[i] < wanted && size + ROW_BYTES <= room; counts[i]++, row += ROW_BYTES, size += ROW_BYTES) {
            int64_t amount = some_amount();
            uint32_t next = next_pos(kind, n, pos);
            if (next > n || next <= pos) break;
            pos = next;
            memcpy(row, &pos, 4), memcpy(row + 4, &amount, 8);
        }
    }
    const uint8_t numbers[NUMBERS] = {(uint8_t)kind, (uint8_t)n, (uint8_t)(n >> 8), 0, (uint8_t)series, 3, 3, 3, 3, below(4) ? 255 : 131, 2};
    memcpy(data, numbers, NUMBERS);
    for (size_t i = 0; i < series; first += counts[i++]) {
        memcpy(data + NUMBERS + i * SERIES_BYTES, &first, 4);
        memcpy(data + NUMBERS + i * SERIES_BYTES + 4, &counts[i], 4);
    }
    return size;
}

static void other_number(uint8_t *data, size_t size) {
    size_t series = data[SERIES], rows = NUMBERS + series * SERIES_BYTES, place = below(4);
    if (place == 0 || size <= rows) {
        size_t at = below(NUMBERS);
        if (at == N_LOW && below(2)) data[N_LOW] = 64, data[N_HIGH] = 137; /* 35,136 */
        else data[at] = (uint8_t)(below(2) ? data[at] + below(3) - 1 : below(256));
        return;
    }
    if (place == 3 && size >= rows + ROW_BYTES) {
        static const int64_t EDGES[] = {999999999999999, -999999999999999, 1000000000000000, -1000000000000000, INT64_MIN, INT64_MAX};
        memcpy(data + rows + ROW_BYTES * below((size - rows) / ROW_BYTES) + 4, &EDGES[below(6)], 8);
        return;
    }
    if (place == 1 && series == 0) return;
    uint8_t *at = place == 1 ? data + NUMBERS + 4 * below(2 * series) : data + rows + ROW_BYTES * below((size - rows) / ROW_BYTES + 1);
    if (at + 4 > data + size) return;
    uint32_t number;
    memcpy(&number, at, 4);
    number = below(4) ? number + (uint32_t)below(3) - 1 : below(2) ? UINT32_MAX - number : (uint32_t)below(200);
    memcpy(at, &number, 4);
}

size_t LLVMFuzzerCustomMutator(uint8_t *data, size_t size, size_t room, unsigned seed) {
    state = seed;
    size_t choice = below(8);
    if (size < NUMBERS || choice == 0) return right(data, room);
    if (choice < 6) return other_number(data, size), size;
    return LLVMFuzzerMutate(data, size, room);
}
