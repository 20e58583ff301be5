/* SPDX-License-Identifier: Apache-2.0 */
/* The C interface on image E: listings at four budgets, and of a pair whose counts are too large; refusals 1, 2, 10, 11 and 14, and what each leaves in the buffers; the class with 10 on an image of literals. Both callers: the quote page at 255, 256 and 257 pairs, the account desk also at 4,096 and 4,097; 1 for each buffer. Children as they arrive: in front, joined, refused by a full list and by a count of 64 bits. Narrowing: at the limit and one above, and the first entry that fails. Cards: written, read back and with further brackets; 1 for each buffer, 17, 13, 18 and 14 at their limits and in their order, and what each leaves in the buffers. */
#include <stdio.h>
#include <string.h>

#include "tariff_merge.h"

/* operation 0 Lit, 1 Plain2; class 0 literal 5, 1 literal 7, 2 operation 1 over (0, 1), 3 operation 1 over (0, 0) */
static const uint8_t image[125] = {
    0, 0, 0, 121, 1, 0, 2, 0, 4, 0, 4, 0, 4,
    9, 0, 255, 255,
    2, 0, 255, 255,
    0, 0, 0, 1, 0, 0, 0, 0, 0, 1,
    0, 1, 0, 1, 0, 1, 0, 0, 0, 1,
    0, 2, 0, 1, 0, 2, 0, 0, 0, 3,
    0, 3, 0, 1, 0, 3, 0, 0, 0, 3,
    0, 0, 0, 0, 0, 5, 0, 0, 0, 0,
    0, 0, 0, 0, 0, 7, 0, 0, 0, 0,
    0, 1, 0, 0, 0, 0, 0, 0, 0, 2,
    0, 1, 0, 0, 0, 0, 0, 2, 0, 2,
    0, 0, 0, 0, 0, 1,
    0, 1, 0, 0, 0, 1,
    0, 0, 0, 0, 0, 1,
    0, 0, 0, 0, 0, 1,
};

/* operation 0 Lit; classes 0 to 4 with the literals 1, 10, 20, 20, 10 */
static const uint8_t clashes[117] = {
    0, 0, 0, 113, 1, 0, 1, 0, 5, 0, 5, 0, 0,
    9, 0, 255, 255,
    0, 0, 0, 1, 0, 0, 0, 0, 0, 1,
    0, 1, 0, 1, 0, 1, 0, 0, 0, 1,
    0, 2, 0, 1, 0, 2, 0, 0, 0, 1,
    0, 3, 0, 1, 0, 3, 0, 0, 0, 1,
    0, 4, 0, 1, 0, 4, 0, 0, 0, 1,
    0, 0, 0, 0, 0, 1, 0, 0, 0, 0,
    0, 0, 0, 0, 0, 10, 0, 0, 0, 0,
    0, 0, 0, 0, 0, 20, 0, 0, 0, 0,
    0, 0, 0, 0, 0, 20, 0, 0, 0, 0,
    0, 0, 0, 0, 0, 10, 0, 0, 0, 0,
};

/* operation 0 Lit, 1 MSet; class 0 literal 5, 1 literal 7 and operation 1 over 0 4,294,967,296 times, 2 literal 9 and
   operation 1 over 0 4,294,967,295 times and 1 once: the pair of the two sums is skipped */
static const uint8_t large[125] = {
    0, 0, 0, 121, 1, 0, 2, 0, 3, 0, 5, 0, 4,
    9, 0, 255, 255,
    7, 1, 255, 255,
    0, 0, 0, 1, 0, 0, 0, 0, 0, 1,
    0, 1, 0, 2, 0, 1, 0, 0, 0, 1,
    0, 3, 0, 2, 0, 3, 0, 0, 0, 1,
    0, 0, 0, 0, 0, 5, 0, 0, 0, 0,
    0, 0, 0, 0, 0, 7, 0, 0, 0, 0,
    0, 1, 0, 0, 0, 0, 0, 0, 0, 2,
    0, 0, 0, 0, 0, 9, 0, 2, 0, 0,
    0, 1, 0, 0, 0, 0, 0, 2, 0, 2,
    0, 0, 255, 255, 255, 255,
    0, 0, 0, 0, 0, 1,
    0, 0, 255, 255, 255, 255,
    0, 1, 0, 0, 0, 1,
};

_Static_assert(sizeof large == sizeof image, "one length for both");

#define MERGED "0 lit 0 5\n1 lit 0 7\n2 variants 1:1 0:1\n3 op 1 0:1 2:1\n"
#define TURNED "0 lit 0 5\n1 lit 0 7\n2 variants 0:1 1:1\n3 op 1 0:1 2:1\n"
#define APART "0 lit 0 5\n1 lit 0 7\n2 op 1 0:1 1:1\n3 op 1 0:2\n4 variants 2:1 3:1\n"
#define TWO "0 lit 0 7\n1 lit 0 9\n2 variants 0:1 1:1\n"

static struct tariff_work work;
static uint8_t out[TARIFF_OUTPUT_BYTES];
static int failed;

static void expect(int holds, const char *what)
{
    if (!holds) {
        printf("FAILED: %s\n", what);
        failed = 1;
    }
}

static int all(const void *bytes, size_t length, uint8_t value)
{
    const uint8_t *at = bytes;
    for (size_t i = 0; i < length; i++)
        if (at[i] != value)
            return 0;
    return 1;
}

static void soil(void)
{
    memset(&work, 0xa5, sizeof work);
    memset(out, 0x5a, sizeof out);
}

/* A listing of one of the images, each of 125 bytes. */
static void listed(const uint8_t *of, uint16_t left, uint16_t right, uint32_t budget, const char *text)
{
    char what[64];
    size_t length = strlen(text);
    snprintf(what, sizeof what, "image %s with budget %u", of == image ? "E" : "of a skipped pair", (unsigned)budget);
    soil();
    struct tariff_returned r = tariff_merge_in(&work, of, sizeof image, left, right, budget, out, sizeof out);
    expect(r.number == TARIFF_LISTING && r.bytes == length && r.class_number == 0, what);
    expect(memcmp(out, text, length) == 0, what);
    expect(all(out + length, sizeof out - length, 0x5a), "output past the listing untouched");
    expect(all(&work, sizeof work, 0), "work buffers cleared");
}

static void refused(struct tariff_returned r, uint32_t number, size_t class_number, const char *what)
{
    expect(r.number == number && r.bytes == 0 && r.class_number == class_number, what);
    expect(all(out, sizeof out, 0x5a), "output untouched by a refusal");
    expect(all(&work, sizeof work, number == TARIFF_WORK_SHORT ? 0xa5 : 0), "work buffers after a refusal");
}

/* ---- both callers */

static uint8_t *put(uint8_t *at, unsigned number, unsigned bytes)
{
    while (bytes > 0) {
        bytes--;
        *at++ = (uint8_t)(number >> (8 * bytes));
    }
    return at;
}

/* An image and its length. Operations 0 Lit, 1 MSet, 2 Seq; a class for each row and for each column, holding a
   literal; behind them two classes, a sum of the rows and one of the columns, and pairs by position: the graph of
   these two has rows * columns + 1 + more pairs. */
static size_t graph_of(uint8_t *to, unsigned rows, unsigned columns, unsigned more)
{
    unsigned literals = rows + columns, children = rows + columns + 2 * more, i;
    uint8_t *at = put(to + 4, 1, 1);
    at = put(put(put(put(at, 3, 2), literals + 2, 2), literals + 4, 2), children, 2);
    at = put(put(put(at, 0x0900ffff, 4), 0x0701ffff, 4), 0x0600ffff, 4);
    for (i = 0; i < literals; i++)
        at = put(put(put(put(at, i, 2), 1, 2), i, 2), 1, 4);
    for (i = literals; i < literals + 4; i += 2)
        at = put(put(put(put(at, i, 2), 2, 2), i, 2), rows + 1, 4);
    for (i = 0; i < literals; i++)
        at = put(put(put(at, 0, 2), i, 4), 0, 4);
    at = put(put(put(put(at, 1, 2), 0, 4), 0, 2), rows, 2);
    at = put(put(put(put(at, 2, 2), 0, 4), rows, 2), more, 2);
    at = put(put(put(put(at, 1, 2), 0, 4), rows + more, 2), columns, 2);
    at = put(put(put(put(at, 2, 2), 0, 4), rows + more + columns, 2), more, 2);
    for (i = 0; i < rows; i++)
        at = put(put(at, i, 2), 1, 4);
    for (i = 0; i < more; i++)
        at = put(put(at, i, 2), 1, 4);
    for (i = 0; i < columns; i++)
        at = put(put(at, rows + i, 2), i == 0 ? rows - columns + 1 : 1, 4);
    for (i = 0; i < more; i++)
        at = put(put(at, (i + 1) % rows, 2), 1, 4);
    put(to, (unsigned)(at - to - 4), 4);
    return (size_t)(at - to);
}

/* A complete listing of so many pairs, with every other byte and number as promised. */
static void complete(struct tariff_returned r, unsigned pairs, const char *what)
{
    char first[64];
    size_t length = (size_t)snprintf(first, sizeof first, "complete pairs %u rounds 1 ", pairs);
    expect(r.number == TARIFF_LISTING && r.bytes > length && r.class_number == 0, what);
    expect(memcmp(out, first, length) == 0 && out[r.bytes - 1] == '\n', what);
    /* 2n + (r + 1)(n + 1) checks, with 1 round */
    length = (size_t)snprintf(first, sizeof first, " skipped 0 checks %u\n", 2 * pairs + 2 * (pairs + 1));
    const uint8_t *end = memchr(out, '\n', r.bytes);
    expect(end && (size_t)(end + 1 - out) > length && memcmp(end + 1 - length, first, length) == 0, "checks of a complete run");
    expect(all(out + r.bytes, sizeof out - r.bytes, 0x5a), "output past the listing untouched");
    expect(all(&work, sizeof work, 0), "work buffers cleared");
}

static void callers(void)
{
    static const struct { unsigned rows, columns, more; } graphs[] = {
        { 16, 15, 14 }, { 16, 15, 15 }, { 16, 15, 16 },
        /* the same numbers of pairs, of more classes than the lent buffers have room for */
        { 64, 3, 62 }, { 64, 3, 63 }, { 64, 3, 64 },
        { 64, 63, 63 }, { 64, 63, 64 },
    };
    static uint8_t large_image[8192], quoted[sizeof out];
    for (size_t i = 0; i < sizeof graphs / sizeof *graphs; i++) {
        unsigned rows = graphs[i].rows, columns = graphs[i].columns, more = graphs[i].more;
        unsigned pairs = rows * columns + 1 + more;
        uint16_t left = (uint16_t)(rows + columns);
        size_t length = graph_of(large_image, rows, columns, more);
        char what[64];
        snprintf(what, sizeof what, "%u pairs, %u rows", pairs, rows);

        soil();
        struct tariff_returned page = tariff_quote_in(&work, large_image, length, left, left + 1, UINT32_MAX, out, sizeof out);
        if (pairs <= 256)
            complete(page, pairs, what);
        else
            refused(page, TARIFF_PAIRS_FULL, 0, what);
        memcpy(quoted, out, sizeof out);

        soil();
        struct tariff_returned desk = tariff_merge_in(&work, large_image, length, left, left + 1, UINT32_MAX, out, sizeof out);
        if (pairs <= 4096)
            complete(desk, pairs, what);
        else
            refused(desk, TARIFF_PAIRS_FULL, 0, what);
        if (pairs <= 256)
            expect(page.bytes == desk.bytes && memcmp(quoted, out, sizeof out) == 0, "the same bytes for both");

        /* 14 last; one check, which enters all pairs, and none */
        soil();
        page = tariff_quote_in(&work, large_image, length, left, left + 1, UINT32_MAX, out, 0);
        refused(page, pairs <= 256 ? TARIFF_OUTPUT_SHORT : TARIFF_PAIRS_FULL, 0, what);
        soil();
        page = tariff_quote_in(&work, large_image, length, left, left + 1, 1, out, 0);
        refused(page, pairs <= 256 ? TARIFF_OUTPUT_SHORT : TARIFF_PAIRS_FULL, 0, what);
        soil();
        page = tariff_quote_in(&work, large_image, length, left, left + 1, 0, out, 0);
        refused(page, TARIFF_OUTPUT_SHORT, 0, what);
        soil();
        page = tariff_quote_in(&work, large_image, length, left, left + 2, UINT32_MAX, out, 0);
        refused(page, TARIFF_QUERY, 0, what);
    }

    /* a buffer one short: 1 for both, whatever else is wrong */
    for (int i = 0; i < 12; i++) {
        soil();
        struct tariff_returned r = (i < 6 ? tariff_quote : tariff_merge)(image, 0, 9, 9, 14,
            work.graph, TARIFF_GRAPH - (i % 6 == 0), work.pairs, TARIFF_PAIRS - (i % 6 == 1),
            work.work, TARIFF_WORK - (i % 6 == 2), work.flow, TARIFF_FLOW - (i % 6 == 3),
            work.terms, TARIFF_TERMS - (i % 6 == 4), work.runs, TARIFF_RUNS - (i % 6 == 5),
            out, sizeof out);
        refused(r, TARIFF_WORK_SHORT, 0, "refusal 1: a work buffer one short, for either caller");
    }
}

/* After a call: the number, the terms, and every number of the list's array. */
static void child(struct tariff_added r, uint32_t number, size_t terms, const uint64_t *list, const uint64_t *expected, size_t length, const char *what)
{
    expect(r.number == number && r.terms == terms, what);
    expect(memcmp(list, expected, length * sizeof *list) == 0, what);
}

static void children(void)
{
    /* two places, and a number behind them */
    uint64_t list[5] = { 9, 9, 9, 9, 8 };
    struct tariff_added r = tariff_add_child(list, 5, 0, 4, 1);
    child(r, TARIFF_CHILD_ADDED, 1, list, (uint64_t[]){ 4, 1, 9, 9, 8 }, 5, "child 4:1");
    r = tariff_add_child(list, 5, r.terms, 2, 3);
    child(r, TARIFF_CHILD_ADDED, 2, list, (uint64_t[]){ 2, 3, 4, 1, 8 }, 5, "child 2:3 stands in front");
    r = tariff_add_child(list, 5, r.terms, 4, 2);
    child(r, TARIFF_CHILD_ADDED, 2, list, (uint64_t[]){ 2, 3, 4, 3, 8 }, 5, "child 4:2 joins 4:1, in a full list");
    r = tariff_add_child(list, 5, r.terms, 3, 1);
    child(r, TARIFF_CHILD_FULL, 2, list, (uint64_t[]){ 2, 3, 4, 3, 8 }, 5, "a third class in a full list");
    r = tariff_add_child(list, 5, r.terms, 4, UINT64_MAX - 3);
    child(r, TARIFF_CHILD_ADDED, 2, list, (uint64_t[]){ 2, 3, 4, UINT64_MAX, 8 }, 5, "a count of 64 bits");
    r = tariff_add_child(list, 5, r.terms, 4, 1);
    child(r, TARIFF_CHILD_OVERFLOW, 2, list, (uint64_t[]){ 2, 3, 4, UINT64_MAX, 8 }, 5, "one more");
    r = tariff_add_child(list, 5, 3, 2, 1);
    child(r, TARIFF_CHILD_FULL, 3, list, (uint64_t[]){ 2, 3, 4, UINT64_MAX, 8 }, 5, "more terms than the list can have");
    r = tariff_add_child(list, 0, 0, 2, 1);
    child(r, TARIFF_CHILD_FULL, 0, list, (uint64_t[]){ 2, 3, 4, UINT64_MAX, 8 }, 5, "a list of no numbers");

    struct tariff_monomial m = { 0 };
    uint64_t total = 7;
    for (uint16_t c = 64; c < 65; c--)
        expect(tariff_monomial_add(&m, c, 2 * (uint64_t)c + 1) == TARIFF_CHILD_ADDED, "65 classes, falling");
    for (size_t i = 0; i < 65; i++)
        expect(tariff_monomial_class(&m, i) == i && tariff_monomial_count(&m, i) == 2 * i + 1, "classes rising");
    expect(m.terms == 65 && tariff_monomial_total(&m, &total) && total == 65 * 65, "the counts' sum");
    expect(tariff_monomial_add(&m, 65, 1) == TARIFF_CHILD_FULL && m.terms == 65, "a class too many");
    expect(tariff_monomial_add(&m, 0, UINT64_MAX - 65 * 65) == TARIFF_CHILD_ADDED, "a sum of 64 bits");
    expect(tariff_monomial_total(&m, &total) && total == UINT64_MAX, "the sum of 64 bits");
    expect(tariff_monomial_add(&m, 1, 1) == TARIFF_CHILD_ADDED && !tariff_monomial_total(&m, &total), "a sum past 64 bits");
}

static void narrowed(struct tariff_narrowed r, uint32_t number, size_t entry, const char *what)
{
    expect(r.number == number && r.entry == entry, what);
}

static void narrowing(void)
{
    const uint64_t most = 4294967295;
    /* three places, and a number behind them */
    const uint64_t list[7] = { 2, most, 4, most + 1, 5, UINT64_MAX, UINT64_MAX };
    narrowed(tariff_narrow(list, 7, 1), TARIFF_NARROW_FITS, 0, "4,294,967,295 fits, what stands behind is not asked");
    narrowed(tariff_narrow(list, 7, 2), TARIFF_NARROW_FAILS, 1, "4,294,967,296 at entry 1");
    narrowed(tariff_narrow(list, 7, 3), TARIFF_NARROW_FAILS, 1, "the first of two that fail");
    narrowed(tariff_narrow(list + 2, 5, 2), TARIFF_NARROW_FAILS, 0, "one above at entry 0");
    narrowed(tariff_narrow(list + 4, 2, 1), TARIFF_NARROW_FAILS, 0, "a count of 64 bits");
    narrowed(tariff_narrow(list, 3, 2), TARIFF_NARROW_FITS, 0, "two terms said, places for one");
    narrowed(tariff_narrow(list, 2, SIZE_MAX), TARIFF_NARROW_FITS, 0, "more terms than the list has, all fit");
    narrowed(tariff_narrow(list, 4, SIZE_MAX), TARIFF_NARROW_FAILS, 1, "more terms than the list has, one fails");
    narrowed(tariff_narrow(list + 2, 5, 0), TARIFF_NARROW_FITS, 0, "an empty list");
    narrowed(tariff_narrow(list + 2, 0, 0), TARIFF_NARROW_FITS, 0, "a list of no numbers");
    narrowed(tariff_narrow(list + 2, 0, 1), TARIFF_NARROW_FITS, 0, "a term said of a list of no numbers");
    narrowed(tariff_narrow(list + 5, 1, 1), TARIFF_NARROW_FITS, 0, "a term said of a list of one number");
    narrowed(tariff_narrow((const uint64_t[]){ most + 1, most }, 2, 1), TARIFF_NARROW_FITS, 0, "classes are not judged");

    struct tariff_monomial m = { 0 };
    narrowed(tariff_monomial_narrow(&m), TARIFF_NARROW_FITS, 0, "no children");
    for (uint16_t c = 64; c < 65; c--)
        expect(tariff_monomial_add(&m, c, most) == TARIFF_CHILD_ADDED, "65 classes at the limit");
    narrowed(tariff_monomial_narrow(&m), TARIFF_NARROW_FITS, 0, "65 classes at the limit");
    for (uint16_t c = 64; c < 65; c--) {
        expect(tariff_monomial_add(&m, c, 1) == TARIFF_CHILD_ADDED, "one more");
        narrowed(tariff_monomial_narrow(&m), TARIFF_NARROW_FAILS, c, "the first above the limit");
    }
}

/* ---- cards */

static struct tariff_card_work card_work;
static uint8_t large_out[1 << 20];

/* * + km wait max < of the precedences 2 1 9 9 3 4, of which 4 groups to the right; operations 0 and 7 have none */
static const uint8_t signs[9 + 8 * 9] =
    "\0\0\0\1\0\0\0\0\0"
    "\0\0\0\0\0\0\0\0\0"
    "*\0\0\0\0\0\0\0\2"
    "+\0\0\0\0\0\0\0\1"
    "km\0\0\0\0\0\0\11"
    "wait\0\0\0\0\11"
    "max\0\0\0\0\0\3"
    "<\0\0\0\0\0\0\0\4"
    "<>\0\0\0\0\0\0\4";

static void soil_card(void)
{
    memset(&card_work, 0xa5, sizeof card_work);
    memset(large_out, 0x5a, sizeof large_out);
}

/* What a call wrote, and every buffer; a text of NULL is a refusal. */
static void carded(struct tariff_returned r, uint32_t number, const char *text, size_t length, const char *what)
{
    expect(r.number == number && r.bytes == length && r.class_number == 0, what);
    expect(length == 0 || memcmp(large_out, text, length) == 0, what);
    expect(all(large_out + length, sizeof large_out - length, 0x5a), "output past the card untouched");
    expect(all(&card_work, sizeof card_work, number == TARIFF_WORK_SHORT ? 0xa5 : 0), "work buffers after a card");
}

static struct tariff_returned write_card(const char *lines, size_t room)
{
    soil_card();
    return tariff_card_in(&card_work, signs, sizeof signs, (const uint8_t *)lines, strlen(lines), large_out, room);
}

static struct tariff_returned read_card(const char *text, size_t room)
{
    soil_card();
    return tariff_read_card_in(&card_work, signs, sizeof signs, (const uint8_t *)text, strlen(text), large_out, room);
}

/* Lines and their card: there, back, and with the output's length as it must be and one short. */
static void both_ways(const char *lines, const char *card)
{
    size_t of_lines = strlen(lines), of_card = strlen(card);
    carded(write_card(lines, sizeof large_out), TARIFF_LISTING, card, of_card, card);
    carded(write_card(lines, of_card), TARIFF_LISTING, card, of_card, card);
    carded(write_card(lines, of_card - 1), TARIFF_OUTPUT_SHORT, NULL, 0, "refusal 14: a card one byte too long");
    carded(read_card(card, sizeof large_out), TARIFF_LISTING, lines, of_lines, card);
    carded(read_card(card, of_lines), TARIFF_LISTING, lines, of_lines, card);
    carded(read_card(card, of_lines - 1), TARIFF_OUTPUT_SHORT, NULL, 0, "refusal 14: lines one byte too long");
}

static void no_formula(const char *text)
{
    carded(read_card(text, 0), TARIFF_NO_FORMULA, NULL, 0, text);
}

static void no_lines(const char *lines)
{
    carded(write_card(lines, 0), TARIFF_NO_FORMULA, NULL, 0, lines);
}

/* `count` lines of operation 3, each over the one before, with `last` behind them. */
static struct tariff_returned deep_card(unsigned count, const char *last)
{
    static char lines[400000];
    size_t at = 0;
    for (unsigned i = 0; i < count; i++)
        at += (size_t)(i == 0 ? sprintf(lines, "0 op 3\n") : sprintf(lines + at, "%u op 3 %u:1\n", i, i - 1));
    sprintf(lines + at, "%s", last);
    return write_card(lines, sizeof large_out);
}

/* A card of so many terms one in another, with `last` behind it. */
static size_t nested(char *text, const char *sign, unsigned terms, const char *last)
{
    size_t at = 0;
    for (unsigned i = 0; i < terms; i++)
        at += (size_t)sprintf(text + at, "%s[", sign);
    memset(text + at, ']', terms);
    at += terms;
    return at + (size_t)sprintf(text + at, "%s", last);
}

static void cards(void)
{
    struct tariff_card_lengths lengths = tariff_card_lengths();
    expect(lengths.marks == TARIFF_CARD_MARKS && lengths.terms == TARIFF_CARD_TERMS && lengths.runs == TARIFF_CARD_RUNS,
        "the header's lengths of a card are the library's");

    both_ways("0 lit 0 3\n1 op 3\n2 op 4\n3 op 2 1:1 2:1\n4 op 1 0:1 3:1\n", "3#0 * (km[] + wait[])");
    both_ways("0 lit 0 5\n1 lit 0 7\n2 variants 1:1 0:1\n3 op 1 0:1 2:1\n", "5#0 * {7#0 | 5#0}");
    both_ways("0 lit 63 4294967295\n1 op 2 0:2\n2 op 2 1:2\n", "4294967295#63 + 4294967295#63 + (4294967295#63 + 4294967295#63)");
    both_ways("0 lit 0 1\n1 op 6 0:2\n2 op 6 1:2\n", "(1#0 < 1#0) < 1#0 < 1#0");
    both_ways("0 lit 0 1\n1 op 5 0:3\n2 op 5 1:1\n3 variants 2:2\n", "{max[max[1#0; 1#0; 1#0]] | max[max[1#0; 1#0; 1#0]]}");
    both_ways("0 lit 7 0\n", "0#7");

    /* further brackets; lines outside the formula */
    const char *three = "0 lit 0 3\n1 op 3\n2 op 2 0:1 1:1\n";
    carded(read_card("((3#0) + (((km[]))))", sizeof large_out), TARIFF_LISTING, three, strlen(three), "further brackets");
    carded(write_card("0 op 0\n1 op 7 0:1\n2 op 3\n", sizeof large_out), TARIFF_LISTING, "km[]", 4, "lines outside the formula");

    /* 18, before 14 */
    carded(write_card("0 op 0\n", 0), TARIFF_NO_SIGN, NULL, 0, "refusal 18: no sign");
    carded(write_card("0 op 7\n1 op 3 0:1\n", 0), TARIFF_NO_SIGN, NULL, 0, "refusal 18: no proper sign");
    carded(write_card("0 op 63\n1 variants 0:2\n", 0), TARIFF_NO_SIGN, NULL, 0, "refusal 18: no entry");
    carded(write_card("0 lit 0 1\n1 op 3 0:279172874175\n", sizeof large_out), TARIFF_OUTPUT_SHORT, NULL, 0, "refusal 14: a child 279,172,874,175 times");
    carded(write_card("0 lit 0 1\n1 op 0 0:279172874175\n", sizeof large_out), TARIFF_NO_SIGN, NULL, 0, "refusal 18 before 14");

    static const char *const broken[] = {
        "", "\n", "1 op 3\n", "0 op 3", "0 op 3 \n", "0  op 3\n", "00 op 3\n", "0 op 64\n", "0 op\n", "0 Op 3\n", "0 lit 0\n",
        "0 lit 64 1\n", "0 lit 0 4294967296\n", "0 lit 0 01\n", "0 lit 0 1 0:1\n", "0 op 3 0:1\n", "0 op 3\n0 op 4\n",
        "0 op 3\n1 op 3\n", "0 op 3\n1 op 3 0:1 0:1\n", "0 op 3\n1 op 3 0:0\n", "0 op 3\n1 op 3 0\n", "0 op 3\n1 op 3 0:\n",
        "0 op 3\n1 op 3 0:279172874176\n", "0 op 3\n1 op 4\n2 op 3 0:279172874175 1:1\n", "0 op 3\n1 variants\n",
        "0 op 3\n1 variants 0:1\n", "0 op 3\n1 variants 0:3\n", "0 op 3\r\n", "0 op 3\n\n",
    };
    for (size_t i = 0; i < sizeof broken / sizeof *broken; i++)
        no_lines(broken[i]);
    static const char *const texts[] = {
        "", " ", "3#0\n", " 3#0", "3#0 ", "03#0", "3#64", "4294967296#0", "3#0+3#0", "3#0 +3#0", "3#0 + ", "3#0 - 3#0", "km", "km[",
        "KM[]", "max[3#0; 3#0]", "max[3#0;3#0;3#0]", "<>[]", "{3#0}", "{3#0 | 3#0 | 3#0}", "{3#0|3#0}", "()", "(3#0", "3#0)",
        "[3#0]", "3#0 + + 3#0", "3#0 (+) 3#0",
    };
    for (size_t i = 0; i < sizeof texts / sizeof *texts; i++)
        no_formula(texts[i]);
    soil_card();
    carded(tariff_read_card_in(&card_work, signs, 0, (const uint8_t *)"km[]", 4, large_out, sizeof large_out), TARIFF_NO_FORMULA, NULL, 0,
        "an empty table");

    /* 1 before all: each buffer one short; the frames of a text are as many as it has bytes, and no more are asked */
    for (int i = 0; i < 9; i++) {
        const char *text = i < 4 ? "0 op 0\n" : "(km[])(";
        size_t frames = i < 4 ? TARIFF_CARD_FRAMES : 7;
        soil_card();
        struct tariff_returned r = (i < 4 ? tariff_card : tariff_read_card)(signs, sizeof signs, (const uint8_t *)text, 7,
            card_work.frames, frames - (i % 4 == 0 && i < 8), card_work.marks, TARIFF_CARD_MARKS - (i % 4 == 1),
            card_work.terms, TARIFF_CARD_TERMS - (i % 4 == 2), card_work.runs, TARIFF_CARD_RUNS - (i % 4 == 3),
            large_out, sizeof large_out);
        if (i < 8) {
            carded(r, TARIFF_WORK_SHORT, NULL, 0, "refusal 1: a card's work buffer one short");
        } else {
            expect(all(card_work.frames + 7, sizeof card_work.frames - 7 * sizeof *card_work.frames, 0xa5), "frames that are not lent");
            memset(card_work.frames + 7, 0, sizeof card_work.frames - 7 * sizeof *card_work.frames);
            carded(r, TARIFF_NO_FORMULA, NULL, 0, "as many frames as bytes");
        }
    }

    /* 13 and 17 at 16,384 terms */
    static char text[80000];
    size_t bytes = nested(text, "km", 16384, "");
    carded(deep_card(16384, ""), TARIFF_LISTING, text, bytes, "16,384 lines");
    carded(deep_card(16385, ""), TARIFF_TERMS_FULL, NULL, 0, "refusal 13: 16,385 lines");
    carded(deep_card(16385, "rubbish\n"), TARIFF_TERMS_FULL, NULL, 0, "refusal 13, and then a broken line");
    carded(deep_card(16384, "16384 op 3 16382:1\n"), TARIFF_NO_FORMULA, NULL, 0, "refusal 17: line 16,384 is there before");
    carded(deep_card(16384, "16384 op 3 16384:1\n"), TARIFF_NO_FORMULA, NULL, 0, "refusal 17: line 16,384 names itself");
    struct tariff_returned r = read_card(text, sizeof large_out);
    expect(r.number == TARIFF_LISTING && memcmp(large_out, "0 op 3\n1 op 3 0:1\n", 18) == 0, "a card of 16,384 terms");
    expect(r.bytes > 19 && memcmp(large_out + r.bytes - 19, "16383 op 3 16382:1\n", 19) == 0, "a card of 16,384 terms");
    expect(all(large_out + r.bytes, sizeof large_out - r.bytes, 0x5a) && all(&card_work, sizeof card_work, 0), "buffers after a card of 16,384 terms");
    nested(text, "km", 16384, " ");
    carded(read_card(text, sizeof large_out), TARIFF_WORK_SHORT, NULL, 0, "refusal 1: a text of 65,537 bytes");
    nested(text, "*", 16385, "");
    carded(read_card(text, sizeof large_out), TARIFF_TERMS_FULL, NULL, 0, "refusal 13: a card of 16,385 terms");
    nested(text, "*", 16385, "]");
    carded(read_card(text, sizeof large_out), TARIFF_NO_FORMULA, NULL, 0, "refusal 17 before 13");
}

int main(void)
{
    struct tariff_lengths lengths = tariff_lengths();
    expect(lengths.graph == TARIFF_GRAPH && lengths.pairs == TARIFF_PAIRS && lengths.work == TARIFF_WORK
            && lengths.flow == TARIFF_FLOW && lengths.terms == TARIFF_TERMS && lengths.runs == TARIFF_RUNS,
        "the header's lengths are the library's");

    listed(image, 2, 3, 14, "complete pairs 3 rounds 1 size 4 mass 2 skipped 0 checks 14\n" MERGED);
    listed(image, 2, 3, 1000, "complete pairs 3 rounds 1 size 4 mass 2 skipped 0 checks 14\n" MERGED);
    listed(image, 2, 3, 13, "partial pairs 3 rounds 1 size 4 mass 2 skipped 0 checks 13\n" MERGED);
    listed(image, 2, 3, 9, "partial pairs 3 rounds 0 size 6 mass 6 skipped 0 checks 9\n" APART);
    listed(image, 2, 3, 2, "partial pairs 1 rounds 0 size 6 mass 6 skipped 0 checks 2\n" APART);
    listed(image, 2, 3, 0, "partial pairs 1 rounds 0 size 6 mass 6 skipped 0 checks 0\n" APART);
    /* turned round */
    listed(image, 3, 2, 14, "complete pairs 3 rounds 1 size 4 mass 2 skipped 0 checks 14\n" TURNED);
    listed(image, 3, 2, 13, "partial pairs 3 rounds 1 size 4 mass 2 skipped 0 checks 13\n" TURNED);
    listed(large, 1, 2, 14, "complete pairs 1 rounds 0 size 2 mass 2 skipped 1 checks 4\n" TWO);
    listed(large, 1, 2, 1, "partial pairs 1 rounds 0 size 2 mass 2 skipped 1 checks 1\n" TWO);
    listed(large, 1, 2, 0, "partial pairs 1 rounds 0 size 2 mass 2 skipped 0 checks 0\n" TWO);

    soil();
    refused(tariff_merge(image, sizeof image, 2, 3, 14,
                work.graph, TARIFF_GRAPH, work.pairs, TARIFF_PAIRS, work.work, TARIFF_WORK,
                work.flow, TARIFF_FLOW, work.terms, TARIFF_TERMS, work.runs, TARIFF_RUNS - 1,
                out, sizeof out),
        TARIFF_WORK_SHORT, 0, "refusal 1: a work buffer one short");
    soil();
    refused(tariff_merge_in(&work, image, sizeof image - 1, 2, 3, 14, out, sizeof out), TARIFF_LENGTH, 0, "refusal 2: a cut image");
    soil();
    refused(tariff_merge_in(&work, image, sizeof image, 2, 4, 14, out, sizeof out), TARIFF_QUERY, 0, "refusal 11: class 4");
    soil();
    refused(tariff_merge_in(&work, image, sizeof image, 2, 3, 14, out, 113), TARIFF_OUTPUT_SHORT, 0, "refusal 14: one byte too few");

    uint8_t doubled[sizeof image];
    memcpy(doubled, image, sizeof image);
    doubled[76] = 5;
    soil();
    refused(tariff_merge_in(&work, doubled, sizeof doubled, 2, 3, 14, out, sizeof out), TARIFF_LITERAL, 0,
        "refusal 10: literal 5 in classes 0 and 1");
    soil();
    refused(tariff_merge_in(&work, clashes, sizeof clashes, 0, 1, 14, out, sizeof out), TARIFF_LITERAL, 1,
        "refusal 10: literal 20 in classes 2 and 3, literal 10 in classes 1 and 4");

    callers();
    children();
    narrowing();
    cards();

    if (!failed)
        puts("C interface: ok");
    return failed;
}
