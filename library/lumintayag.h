/*
 * Lumintayag reads documents of Germany's Redispatch 2.0: Beschaffungsanforderung 1.0 (kind 1), Kostenblatt 1.0
 * (kind 2) and NetworkConstraintDocument 1.1a (kind 3). It writes those of kinds 1 and 2.
 *
 * The functions below are in liblumintayag.a and liblumintayag.so. They allocate nothing, keep nothing from call
 * to call, open no file and call nothing but memset. They end for every input. What they answer and leave behind
 * is proved for every document and every length of every slice (crates/library, crates/reader, crates/notes,
 * crates/readable, crates/totals, crates/views, crates/writer); no input is excepted. Threads may call them at the same
 * time, each with slices of its own. A call takes 70 KB of stack at most, whatever the document; a thread that has
 * 128 KiB has enough.
 *
 * Slices. A lent slice is two arguments: a pointer, and a length in elements (not in bytes). What no proof can see
 * is left to the caller:
 * - The pointer is aligned for its type, and as many elements as the length says are there to be read, and where
 *   the slice is not const to be written. Nothing is read or written past the length.
 * - With length 0 the pointer may be NULL, as that of an empty std::vector is. With any other length it may not.
 * - No slice that is written to overlaps another slice of the same call.
 * What stands in a slice that is written to makes no difference, and need not be initialized; lumintayag_unescape
 * leaves what it does not write as it was.
 *
 * Document and tables hold prices, and totals are made of them: docs/PRIVACY.md says what a caller does about copies, swap and core dumps.
 */
#ifndef LUMINTAYAG_H
#define LUMINTAYAG_H

#include <stddef.h>
#include <stdint.h>

#ifdef __cplusplus
extern "C" {
#endif

/*
 * The version of this header, a.b.c as 10000 a + 100 b + c: 0.8.0. lumintayag_version answers that of the archive
 * or shared object; a program that checks that the two are equal knows that they belong together.
 * A function whose arguments, rows or cells are laid out anew gets a new name, and the old name is gone: a
 * program that knows the old layout is not linked with the new one.
 */
#define LUMINTAYAG_VERSION 800
uint32_t lumintayag_version(void);

/* A longer document is refused with 1. */
#define LUMINTAYAG_DOCUMENT_MOST 1048576

/*
 * The document reader refuses a shorter note buffer with 10, in either shape, and the converter a shorter buffer for
 * the note that it writes. A note that the document reader writes has at most 11 bytes in the old shape and 13 in
 * the new; one that the converter writes, of a note from elsewhere, has at most 15 and 19.
 */
#define LUMINTAYAG_NOTE_ROOM 16
#define LUMINTAYAG_CONVERTED_ROOM 24

/*
 * The shapes of a note. Each number that is not 0 asks for the new one.
 * Old: refusal, place, kind, series, intervals. New: the number 100, these five, and the depth, which is the count
 * of elements open before the faulty item: one that the item would open is not counted, one that it would close is.
 * On acceptance it is 0. No old note begins with 100, and no new one has 100 for its refusal.
 */
#define LUMINTAYAG_NOTE_OLD 0
#define LUMINTAYAG_NOTE_NEW 1

/* Numbers in the answer, those that the note reader tells of a note, and in the answer of the converter. */
#define LUMINTAYAG_ANSWER_NUMBERS 7
#define LUMINTAYAG_NOTE_NUMBERS 6
#define LUMINTAYAG_CONVERTED_NUMBERS 2

/* u32 numbers that a series takes in the series table. */
#define LUMINTAYAG_SERIES_ROW 12

/*
 * Rows that are room for every document: an Interval takes 45 bytes at least and a series 398, in a document of
 * at most 1,048,576. These two numbers are counted from the guideline and not proved; with tables of this room no
 * document should be refused with 4. All of what is lent is made 0 first, so that a caller who knows its sheets
 * lends less and is served quicker.
 */
#define LUMINTAYAG_SERIES_ROOM 2635
#define LUMINTAYAG_INTERVALS_ROOM 23302

/* Series that lumintayag_totals adds up at most; more are refused with 17. */
#define LUMINTAYAG_TOTALS_MOST 200

/* i64 numbers that a total takes. */
#define LUMINTAYAG_TOTAL_NUMBERS 2

/*
 * Pairs of u32 numbers that a header and a series take in the table of views, in every kind: as many as the kind with
 * the most has. The room is that of every document, counted as above.
 */
#define LUMINTAYAG_HEADER_PAIRS 16
#define LUMINTAYAG_SERIES_PAIRS 22
#define LUMINTAYAG_VIEWS_ROOM (2 * (LUMINTAYAG_HEADER_PAIRS + LUMINTAYAG_SERIES_PAIRS * LUMINTAYAG_SERIES_ROOM))

/* Numbers in the answer of lumintayag_views, and in that of lumintayag_write. */
#define LUMINTAYAG_VIEWS_NUMBERS 6
#define LUMINTAYAG_WRITE_NUMBERS 2

/*
 * Refusals. The place of 2 to 9 is the index of the first byte of the item (tag, text or comment) with the first
 * fault, with 0 for the document's first byte; a document that is over too early has the place that is its length.
 * Where the item has several faults, the smallest number is given. 10 is looked at first, then 1.
 */
#define LUMINTAYAG_ACCEPTED 0        /* the document is read; the place is its length */
#define LUMINTAYAG_TOO_LONG 1        /* the document is longer than 1,048,576 bytes; place 0 */
#define LUMINTAYAG_UNREADABLE 2      /* the item is unreadable; so it is with any other reference than those below */
#define LUMINTAYAG_NOT_DUE 3         /* element not due, too many, too few, wrong end tag, other text, second
                                        root, document over too early */
#define LUMINTAYAG_TABLE_FULL 4      /* a due series or Interval start finds its table full; in lumintayag_views also a
                                        table with no room for the header, place 0 */
#define LUMINTAYAG_ATTRIBUTE 5       /* attribute missing or unknown */
#define LUMINTAYAG_FORM 6            /* value against its form or fixed value */
#define LUMINTAYAG_CODE 7            /* value outside its code list */
#define LUMINTAYAG_AGAINST 8         /* value or count against another value */
#define LUMINTAYAG_USED_BEFORE 9     /* TimeSeriesIdentification used before in this document */
#define LUMINTAYAG_NOTE_TOO_SHORT 10 /* the note buffer has fewer than 16 bytes, place 0; the converter's has fewer
                                        than 24 */
#define LUMINTAYAG_NOT_ONE_NOTE 11   /* note reader and converter only: the bytes aren't one note */

/* Refusals of lumintayag_write alone, 12 before 13. They have no place. */
#define LUMINTAYAG_CONTENT_UNFIT 12    /* no document of kind 1 or 2 that would be accepted has this content, or pairs or
                                          rows lie past what is lent */
#define LUMINTAYAG_NO_ROOM_TO_WRITE 13 /* the document is longer than what is lent for it, or than 1,048,576 bytes */

/* Refusals of lumintayag_totals alone, 17 before 18. They have no place. */
#define LUMINTAYAG_TOO_MANY_SERIES 17 /* more than 200 series */
#define LUMINTAYAG_WRONG_TABLES 18    /* kind, N, rows, a Pos or an amount against the rules of the kind */

/* Kinds. 0 is a document whose root was not accepted. */
#define LUMINTAYAG_BESCHAFFUNGSANFORDERUNG 1
#define LUMINTAYAG_KOSTENBLATT 2
#define LUMINTAYAG_NETWORK_CONSTRAINT_DOCUMENT 3

/* The cells of the answer. The first five are those of the note. */
enum {
    LUMINTAYAG_REFUSAL = 0,   /* 0 or a refusal's number */
    LUMINTAYAG_PLACE = 1,     /* see above */
    LUMINTAYAG_KIND = 2,      /* on a refusal, that of a root start before the faulty item, else 0 */
    LUMINTAYAG_SERIES = 3,    /* series, in kind 3 perhaps none; on a refusal, their start tags before the faulty item */
    LUMINTAYAG_INTERVALS = 4, /* intervals; on a refusal, their start tags before the faulty item */
    LUMINTAYAG_QUARTERS = 5,  /* N: quarter hours of TimePeriodCovered; 0 on every refusal */
    LUMINTAYAG_NOTE_LEN = 6   /* bytes of the note; 0 on refusal 10 */
};

/* Of the six numbers of a note the first five have the cells of the answer's. */
enum {
    LUMINTAYAG_DEPTH = 5 /* elements open before the faulty item; 0 on acceptance, and in an old note */
};

/* The cells of the converter's answer. */
enum {
    LUMINTAYAG_CONVERTED_REFUSAL = 0, /* 0, 10 or 11 */
    LUMINTAYAG_CONVERTED_LEN = 1      /* bytes of the note that was written; 0 on a refusal */
};

/*
 * References. An attribute value may hold the five of XML 1.0 that have names (&amp; &lt; &gt; &quot; &apos;) and
 * numeric ones of legal characters, decimal (&#65;) or hexadecimal (&#x41;), with any number of leading zeros. Values
 * are judged by what they say: lengths, forms, codes, times and amounts, and whether two identifications are equal.
 * Each reference is replaced once: &amp;lt; says the four characters &lt;. What the tables show is what stands in the
 * document, with its references: a caller who compares, prints or writes a value replaces them with lumintayag_unescape,
 * as library/examples/plants.c does.
 *
 * The cells of a series row: row i is series[12 * i] to series[12 * i + 11]. A start is an index into the document
 * and a length is in bytes between the quotes, so what it shows is doc[start] to doc[start + length - 1], without
 * a 0 after it. Where spaces at an end are left out, so are references to spaces. Lengths may be 0. A value that the
 * series does not have is start 0 and length 0; one that it has never starts at 0. In kind 2 Direction and
 * ConnectingArea may be absent. In kind 1 there is no Direction, and InArea is always there. In kind 3 both are
 * always there.
 */
enum {
    LUMINTAYAG_IDENTIFICATION = 0,  /* start and length of the TimeSeriesIdentification */
    LUMINTAYAG_OBJECT = 2,          /* of InParty (kind 1) or ResourceObject (kinds 2 and 3) */
    LUMINTAYAG_BUSINESS_TYPE = 4,   /* of BusinessType, without the spaces at its ends */
    LUMINTAYAG_DIRECTION = 6,       /* of Direction, without the spaces at its ends: A01 is up, A02 is down */
    LUMINTAYAG_AREA = 8,            /* of InArea (kind 1) or ConnectingArea (kinds 2 and 3) */
    LUMINTAYAG_FIRST_INTERVAL = 10, /* its first row in the position and amount tables */
    LUMINTAYAG_INTERVAL_COUNT = 11  /* and how many rows it has there */
};

/* Of the six numbers that lumintayag_views answers the first four have the cells of the reader's answer. */
enum {
    LUMINTAYAG_FROM = 4, /* minutes from 2000-01-01T00:00Z to the start of TimePeriodCovered; 0 on every refusal */
    LUMINTAYAG_TO = 5    /* and to its end */
};

/*
 * The pairs of the table of views. A pair is the start and the length of a value, as in a series row: an index into the
 * document, and bytes between the quotes. Where the guideline says collapse the spaces at both ends are left out, and
 * always of a codingScheme; so are references to spaces. All other references are shown as they stand. A value that the
 * document does not have, or its kind does not know, is 0 and 0; one that it has never starts at 0, also where it is
 * empty. Pair k of the header is in cells 2 * k and 2 * k + 1; a pair of series i, counted from 0, is 22 * i pairs after
 * that of the first one. LUMINTAYAG_PAIR is the cell of its start, with i of 0 for a pair of the header; the length is
 * in the cell after it.
 */
#define LUMINTAYAG_PAIR(k, i) (2 * ((size_t)(k) + LUMINTAYAG_SERIES_PAIRS * (size_t)(i)))

/* The header, in every kind. Kinds 1 and 2 know neither of the first two, and kind 3 alone knows the last one. */
enum {
    LUMINTAYAG_VIEW_DTD_VERSION = 0,
    LUMINTAYAG_VIEW_DTD_RELEASE = 1,
    LUMINTAYAG_VIEW_DTD_BDEW_NACHRICHTEN_VERSION = 2,
    LUMINTAYAG_VIEW_DOCUMENT_IDENTIFICATION = 3,
    LUMINTAYAG_VIEW_DOCUMENT_VERSION = 4,
    LUMINTAYAG_VIEW_DOCUMENT_TYPE = 5,
    LUMINTAYAG_VIEW_PROCESS_TYPE = 6,
    LUMINTAYAG_VIEW_SENDER_IDENTIFICATION = 7,
    LUMINTAYAG_VIEW_SENDER_SCHEME = 8,
    LUMINTAYAG_VIEW_SENDER_ROLE = 9,
    LUMINTAYAG_VIEW_RECEIVER_IDENTIFICATION = 10,
    LUMINTAYAG_VIEW_RECEIVER_SCHEME = 11,
    LUMINTAYAG_VIEW_RECEIVER_ROLE = 12,
    LUMINTAYAG_VIEW_DOCUMENT_DATE_TIME = 13,
    LUMINTAYAG_VIEW_TIME_PERIOD_COVERED = 14,
    LUMINTAYAG_VIEW_DOC_STATUS = 15
};

/* A series of kind 1, Beschaffungsanforderung. */
enum {
    LUMINTAYAG_VIEW_1_TIME_SERIES_IDENTIFICATION = 16,
    LUMINTAYAG_VIEW_1_BUSINESS_TYPE = 17,
    LUMINTAYAG_VIEW_1_PRODUCT = 18,
    LUMINTAYAG_VIEW_1_IN_AREA = 19,
    LUMINTAYAG_VIEW_1_IN_AREA_SCHEME = 20,
    LUMINTAYAG_VIEW_1_OUT_AREA = 21,
    LUMINTAYAG_VIEW_1_OUT_AREA_SCHEME = 22,
    LUMINTAYAG_VIEW_1_IN_PARTY = 23,
    LUMINTAYAG_VIEW_1_IN_PARTY_SCHEME = 24,
    LUMINTAYAG_VIEW_1_OUT_PARTY = 25,
    LUMINTAYAG_VIEW_1_OUT_PARTY_SCHEME = 26,
    LUMINTAYAG_VIEW_1_MEASUREMENT_UNIT = 27,
    LUMINTAYAG_VIEW_1_ORIGINAL_SENDER_IDENTIFICATION = 28,
    LUMINTAYAG_VIEW_1_ORIGINAL_SENDER_SCHEME = 29,
    LUMINTAYAG_VIEW_1_ORIGINAL_DOCUMENT_IDENTIFICATION = 30,
    LUMINTAYAG_VIEW_1_ORIGINAL_DOCUMENT_VERSION = 31,
    LUMINTAYAG_VIEW_1_ORIGINAL_DOCUMENT_DATE_TIME = 32,
    LUMINTAYAG_VIEW_1_ORIGINAL_TIME_SERIES_IDENTIFICATION = 33,
    LUMINTAYAG_VIEW_1_TIME_INTERVAL = 34,
    LUMINTAYAG_VIEW_1_RESOLUTION = 35
};

/* A series of kind 2, Kostenblatt. */
enum {
    LUMINTAYAG_VIEW_2_TIME_SERIES_IDENTIFICATION = 16,
    LUMINTAYAG_VIEW_2_BUSINESS_TYPE = 17,
    LUMINTAYAG_VIEW_2_DIRECTION = 18,
    LUMINTAYAG_VIEW_2_PRODUCT = 19,
    LUMINTAYAG_VIEW_2_CONNECTING_AREA = 20,
    LUMINTAYAG_VIEW_2_CONNECTING_AREA_SCHEME = 21,
    LUMINTAYAG_VIEW_2_RESOURCE_OBJECT = 22,
    LUMINTAYAG_VIEW_2_RESOURCE_OBJECT_SCHEME = 23,
    LUMINTAYAG_VIEW_2_RESOURCE_PROVIDER = 24,
    LUMINTAYAG_VIEW_2_RESOURCE_PROVIDER_SCHEME = 25,
    LUMINTAYAG_VIEW_2_CURVE_TYPE = 26,
    LUMINTAYAG_VIEW_2_MEASUREMENT_UNIT = 27,
    LUMINTAYAG_VIEW_2_STATUS = 28,
    LUMINTAYAG_VIEW_2_ORIGINAL_SENDER_IDENTIFICATION = 29,
    LUMINTAYAG_VIEW_2_ORIGINAL_SENDER_SCHEME = 30,
    LUMINTAYAG_VIEW_2_ORIGINAL_DOCUMENT_IDENTIFICATION = 31,
    LUMINTAYAG_VIEW_2_ORIGINAL_DOCUMENT_VERSION = 32,
    LUMINTAYAG_VIEW_2_ORIGINAL_DOCUMENT_DATE_TIME = 33,
    LUMINTAYAG_VIEW_2_ORIGINAL_TIME_SERIES_IDENTIFICATION = 34,
    LUMINTAYAG_VIEW_2_TIME_INTERVAL = 35,
    LUMINTAYAG_VIEW_2_RESOLUTION = 36
};

/* A series of kind 3, NetworkConstraintDocument. */
enum {
    LUMINTAYAG_VIEW_3_TIME_SERIES_IDENTIFICATION = 16,
    LUMINTAYAG_VIEW_3_BUSINESS_TYPE = 17,
    LUMINTAYAG_VIEW_3_DIRECTION = 18,
    LUMINTAYAG_VIEW_3_CONNECTING_AREA = 19,
    LUMINTAYAG_VIEW_3_CONNECTING_AREA_SCHEME = 20,
    LUMINTAYAG_VIEW_3_RESOURCE_OBJECT = 21,
    LUMINTAYAG_VIEW_3_RESOURCE_OBJECT_SCHEME = 22,
    LUMINTAYAG_VIEW_3_RESOURCE_PROVIDER = 23,
    LUMINTAYAG_VIEW_3_RESOURCE_PROVIDER_SCHEME = 24,
    LUMINTAYAG_VIEW_3_REQUESTING_GRID_OPERATOR = 25,
    LUMINTAYAG_VIEW_3_REQUESTING_GRID_OPERATOR_SCHEME = 26,
    LUMINTAYAG_VIEW_3_GRID_ELEMENT = 27,
    LUMINTAYAG_VIEW_3_GRID_ELEMENT_SCHEME = 28,
    LUMINTAYAG_VIEW_3_MEASUREMENT_UNIT = 29,
    LUMINTAYAG_VIEW_3_ORIGINAL_SENDER_IDENTIFICATION = 30,
    LUMINTAYAG_VIEW_3_ORIGINAL_SENDER_SCHEME = 31,
    LUMINTAYAG_VIEW_3_ORIGINAL_DOCUMENT_IDENTIFICATION = 32,
    LUMINTAYAG_VIEW_3_ORIGINAL_DOCUMENT_VERSION = 33,
    LUMINTAYAG_VIEW_3_ORIGINAL_DOCUMENT_DATE_TIME = 34,
    LUMINTAYAG_VIEW_3_ORIGINAL_TIME_SERIES_IDENTIFICATION = 35,
    LUMINTAYAG_VIEW_3_TIME_INTERVAL = 36,
    LUMINTAYAG_VIEW_3_RESOLUTION = 37
};

/* The cells of the writer's answer. */
enum {
    LUMINTAYAG_WRITE_REFUSAL = 0, /* 0, 12 or 13 */
    LUMINTAYAG_WRITE_LEN = 1      /* bytes of the document that was written; 0 on a refusal */
};

/* The cells of a total. */
enum {
    LUMINTAYAG_WHOLE = 0,      /* the whole number at or below it */
    LUMINTAYAG_THOUSANDTHS = 1 /* and the thousandths over that, from 0 to 999: -0.001 is -1 and 999 */
};

/*
 * Reads a document. It answers the refusal, 0 for acceptance: the same number as answer[0].
 *
 * series     rows of twelve numbers, in document order. Room for series is series_len / 12, rounded down.
 * positions  the Pos of each interval, in document order, counted over all series.
 * amounts    at the same index its Qty, in thousandths: 12.5 is 12500. Room for intervals is the shorter of
 *            positions_len and amounts_len.
 * shape      that of the note: LUMINTAYAG_NOTE_OLD, or LUMINTAYAG_NOTE_NEW. Nothing else depends on it but the
 *            note's length in the answer.
 * note       the first five numbers of the answer as bytes, for the support desk; in the new shape the depth too.
 * answer     the seven numbers. Where answer_len is smaller, the first ones; where it is larger, the cells past
 *            the seventh are 0.
 *
 * On acceptance all cells of the three tables past the last row are 0. On every refusal all cells of the three
 * tables are 0. The bytes of the note buffer past the note are 0, and on refusal 10 all of them.
 *
 * Pos 1 is the first quarter hour of TimePeriodCovered, and N the last. Kind 1: a series has N intervals, with Pos
 * 1 to N. Kind 2 (curve A03): the first Pos of a series is 1, later ones rise and are at most N, and an amount
 * stands until the next Pos, the last one to the end of quarter hour N. Kind 3: a series has 1 to 100 intervals, with
 * Pos 1, 2, 3 and so on, at most N; each amount is that of its own quarter hour, and those after the last Pos have
 * none.
 *
 * An amount is megawatts in kind 1; in kind 2 euros by MeasurementUnit: per piece (Z01), per megawatt hour (Z02)
 * or per hour (Z03); in kind 3 megawatts (MAW) or a share (C62). The unit is no cell of the row: lumintayag_views shows
 * it. What the format descriptions tell in prose of one value beside another is judged only where the build scope or a
 * request lists it: in kind 2 a Direction may be absent, and a unit may stand with any BusinessType. So amounts of two
 * series can be compared where kind, BusinessType, Direction and MeasurementUnit are the same, which the caller has to
 * see to.
 *
 * Kind 3 has no series, or with no DocStatus one or two of BusinessType A77, two only with different Direction, and
 * at least one of B59; with a DocStatus (A13, withdrawn) at most one series, of either. DocStatus is no cell:
 * lumintayag_views shows it.
 *
 * Nothing but the amounts depends on the digits of a price: two documents of equal length that differ only in
 * digits of readable Qty values get the same answer and, in the same shape, the same note, and the same cells but for
 * the amounts of accepted intervals whose own digits differ (proved: docs/ARCHITECTURE.md). Digits of a reference are
 * not among them.
 */
uint32_t lumintayag_read_v3(const uint8_t *doc, size_t doc_len,
                            uint32_t *series, size_t series_len,
                            uint32_t *positions, size_t positions_len,
                            int64_t *amounts, size_t amounts_len,
                            uint32_t shape,
                            uint8_t *note, size_t note_len,
                            uint32_t *answer, size_t answer_len);

/*
 * Reads a note of either shape back: exactly five numbers whose first is not 100, or exactly seven whose first is
 * 100 and whose second is not; each shortest and below 2^21, and nothing after, so that note_len is the note's
 * length and not that of its buffer. It answers 0, and six holds refusal, place, kind, series, intervals and depth,
 * which is 0 of an old note; or it answers 11, and six is all 0. Where six_len is smaller than 6, the first numbers;
 * where it is larger, the cells past the sixth are 0.
 */
uint32_t lumintayag_read_note_v2(const uint8_t *note, size_t note_len, uint32_t *six, size_t six_len);

/*
 * Writes a note in the asked shape into out: an old one in the new shape with depth 0, a new one in the old shape
 * without its depth, and one that has the shape already as it is. It answers 0, and answer holds 0 and the length of
 * what was written; or it answers 10 where out has fewer than 24 bytes, else 11 where the bytes are no note of either
 * shape, and the length is 0. The bytes of out past the note are 0, and on a refusal all of them. Where answer_len is
 * smaller than 2, the first number; where it is larger, the cells past the second are 0.
 *
 * Old to new to old gives the same bytes; new to old to new does exactly when the depth is 0 (proved).
 */
uint32_t lumintayag_convert_note(const uint8_t *note, size_t note_len,
                                 uint32_t shape,
                                 uint8_t *out, size_t out_len,
                                 uint32_t *answer, size_t answer_len);

/*
 * The place of the first unreadable item of a document, or its length where there is none. It looks at bytes,
 * tags, texts and comments alone: what is due and what a value may be plays no part, nor how long the document is.
 */
size_t lumintayag_readable_len(const uint8_t *doc, size_t doc_len);

/*
 * The totals of up to 200 series: each amount times the quarter hours that it stands. It relies on nothing but its
 * arguments, and looks at no document.
 *
 * kind, quarters  kind and N of the document, as answer[2] and answer[5] tell them.
 * count           how many series, from the first row on; what stands past them in the tables is not looked at.
 * series          rows of twelve numbers. Of these only the first interval row and the interval count are looked at.
 * positions, amounts  as lumintayag_read_v3 leaves them.
 * totals          two numbers for each series: totals[2 * i] is the whole number and totals[2 * i + 1] the
 *                 thousandths of series i. Cells past the last series are 0.
 * sum             two numbers: the total of all series. It depends on no order. Cells past the second are 0.
 * Where totals_len or sum_len is smaller, the first numbers; the sum is that of all series all the same.
 *
 * In kinds 1 and 3 an amount stands one quarter hour; in kind 2 from its Pos to the one before the next Pos, the
 * last one through N.
 *
 * It answers 0; or 17 for more than 200 series; or else 18 exactly when
 * - kind is not 1 to 3;
 * - quarters is not 92, 96 or 100 in kind 1, or not 1 to 35136 in kinds 2 and 3;
 * - the series, or their rows, run past the tables;
 * - the rows of a series do not begin where those of the one before end, those of the first at 0;
 * - a series has not N rows with Pos 1 to N in kind 1; not 1 row at least, the first Pos 1 and each later one
 *   higher than that before it, up to N, in kind 2; not 1 to 100 rows with Pos 1, 2 and so on, up to N, in kind 3;
 * - an amount has 10^15 thousandths or more in size.
 * On 17 and 18 all cells of totals and sum are 0. The tables of an accepted document of at most 200 series are never
 * refused. Whether an amount is too large is all of the answer that depends on amounts.
 *
 * A total is made of prices. It goes into no note, and nothing of it is written anywhere but into totals and sum.
 */
uint32_t lumintayag_totals(uint32_t kind, uint32_t quarters, size_t count,
                           const uint32_t *series, size_t series_len,
                           const uint32_t *positions, size_t positions_len,
                           const int64_t *amounts, size_t amounts_len,
                           int64_t *totals, size_t totals_len,
                           int64_t *sum, size_t sum_len);

/*
 * Shows where every attribute value of a document stands, but for those of Pos and Qty, and when its period begins and
 * ends. It judges the document as lumintayag_read_v3 does, and answers the refusal: the same number as answer[0].
 *
 * table   the pairs of the header, then those of each series in document order, as they are named above. A table of
 *         fewer than 32 cells, which has no room for the header, is refused with 4 at place 0 before the document is
 *         looked at, so before 1 as well. Otherwise there is room for (table_len - 32) / 44 series, rounded down, and a
 *         due series start that finds none is 4 at its place. Intervals never lack room, and there is no 10.
 * answer  six numbers: refusal, place, kind and series, which are the reader's, and the period's two ends in minutes
 *         since 2000-01-01T00:00Z. Quarter hour n, counted from 1, begins at the first one plus 15 * (n - 1). Where
 *         answer_len is smaller, the first ones; where it is larger, the cells past the sixth are 0.
 *
 * On acceptance all cells of the table past the last series are 0. On every refusal all cells of the table are 0, and so
 * are the two ends.
 *
 * Nothing here depends on the digits of a price: two documents of equal length that differ only in digits of readable
 * Qty values get the same answer and the same table (proved: crates/sights).
 */
uint32_t lumintayag_views(const uint8_t *doc, size_t doc_len,
                          uint32_t *table, size_t table_len,
                          uint32_t *answer, size_t answer_len);

/*
 * Writes a Beschaffungsanforderung (kind 1) or a Kostenblatt (kind 2), and answers the refusal: the same number as
 * answer[0]. library/examples/write.c writes a sheet that was read, with other amounts, and one from nothing.
 *
 * text       the values as they are to be read, with no references: &, <, quotes and line ends stand for themselves. It is
 *            UTF-8. What no pair shows is not looked at.
 * pairs      start and length in the text of every value but those of Pos and Qty, laid as lumintayag_views lays them in
 *            its table: 16 pairs for the header and 22 for each series, by the names above. 0 and 0 is a value that is
 *            absent; any other pair is one that is there, also where it is empty: let the text begin with a byte that no
 *            value has. Every pair of the header and of the series that are counted has to lie in the text and to show
 *            characters of XML 1.0, also one that the kind has no value for, which is not written; DtdVersion and
 *            DtdRelease, which these kinds refuse, are 12 where they are given.
 * count      how many series.
 * series     rows of twelve numbers, one for each series. Of these only the first interval row and the interval count are
 *            looked at. The rows of two series may come in any order, overlap or leave some out.
 * positions  the Pos of each interval.
 * amounts    at the same index its Qty, in thousandths, below 10^15 in size.
 * out        the document, from the first byte on. Bytes past it are 0.
 * answer     two numbers: the refusal, and the length of the document. Where answer_len is smaller, the first one; where
 *            it is larger, the cells past the second are 0.
 *
 * The layout is fixed: no declaration, no text between tags, double quotes, v before codingScheme, an empty tag for a
 * single value, and &amp; &lt; &quot; &#9; &#10; &#13; where a value has that character, and nowhere else a reference. An
 * amount is as short as it can be: no leading zeros but one before a point, no trailing zeros of a fraction, no minus at
 * zero. The elements of a kind come in the guideline's order; one is there where one of its pairs is.
 *
 * What is written is accepted by lumintayag_read_v3, given room, and gives back the same positions, amounts and values,
 * spaces at the ends of collapsed ones aside (proved: crates/writings).
 *
 * It answers 0; or 12 exactly when no document of kind 1 or 2, however long, that lumintayag_read_v3 would accept has this
 * content, or pairs or rows lie past what is lent; or else 13 where the document is longer than out_len or 1,048,576
 * bytes. On 12 and 13 the length is 0, and so is every byte of out.
 */
uint32_t lumintayag_write(uint32_t kind,
                          const uint8_t *text, size_t text_len,
                          const uint32_t *pairs, size_t pairs_len,
                          uint32_t count,
                          const uint32_t *series, size_t series_len,
                          const uint32_t *positions, size_t positions_len,
                          const int64_t *amounts, size_t amounts_len,
                          uint8_t *out, size_t out_len,
                          uint32_t *answer, size_t answer_len);

/*
 * Puts what a value of a document says into out, in UTF-8, with each reference replaced by its character, and answers how
 * many bytes that is: never more than value_len. Where out_len is smaller, the first ones; bytes of out past them stay as
 * they were. A byte that belongs to no character, or an & that begins no reference, says the character 0; no value of an
 * accepted document has one.
 */
size_t lumintayag_unescape(const uint8_t *value, size_t value_len,
                           uint8_t *out, size_t out_len);

#ifdef __cplusplus
}
#endif

#endif
