/* SPDX-License-Identifier: Apache-2.0 */
/*
 * The tariff merge with a C interface: libtariff.a, made by `make library`, for x86-64 Linux.
 *
 * `tariff_merge` merges two classes of an image into a listing, for the account desk; `tariff_quote` does
 * the same for the public quote page, which may hold fewer pairs; `tariff_add_child` adds up a member's
 * children as they arrive, and `tariff_narrow` says whether their counts have 32 bits; `tariff_card` writes
 * the formula of a listing as infix text for a driver's card, and `tariff_read_card` reads such text back.
 * The same arguments give the same answer: the library keeps nothing between calls, and calls with buffers
 * of their own may run at the same time.
 *
 * The contract of each is proved for every call with pointers as C asks them: not null (also where the
 * length is 0), aligned for their type, with as many elements behind them as the length says, and no lent
 * buffer overlapping another or what is read.
 *
 * Stack: `tariff_merge`, `tariff_quote`, `tariff_card` and `tariff_read_card` need up to TARIFF_STACK_BYTES
 * of the calling thread's stack, since a query that is too large for the lent buffers runs in arrays there,
 * about 1.2 MB, and listing, card and lines are written by recursion. The library does not test it: on a
 * thread with less, an overflow ends the process.
 */
#ifndef TARIFF_MERGE_H
#define TARIFF_MERGE_H

#include <stddef.h>
#include <stdint.h>

#ifdef __cplusplus
extern "C" {
#endif

/* How many elements each work buffer has at least; `tariff_lengths` answers the same. */
#define TARIFF_GRAPH 4352
#define TARIFF_PAIRS 1536
#define TARIFF_WORK 1024
#define TARIFF_FLOW 256
#define TARIFF_TERMS 3074
#define TARIFF_RUNS 1024

/* An output buffer of the length that program `merge` has. Any length is allowed. */
#define TARIFF_OUTPUT_BYTES 65536

#define TARIFF_STACK_BYTES 6291456

/* What `number` says. */
enum tariff_number {
    /* a listing: the first `bytes` bytes of the output buffer. Its first line is the status (`complete` or
       `partial`) and, each behind its word, pairs, rounds, size, mass, skipped and checks. Skipped: how many
       monomial pairs were passed over in building since a count in them is above 4,294,967,295; above 0, a
       complete run is least among the formulas that do without them. Checks: how many checks passed; a
       complete run with n pairs and r rounds spends 2n + (r + 1)(n + 1), however large its budget, one that
       was cut short spends its budget. Complete runs on (left, right) and (right, left) have the same
       first line */
    TARIFF_LISTING = 0,
    /* a work buffer below its constant length: lend buffers of the lengths above */
    TARIFF_WORK_SHORT = 1,
    /* the image has fewer than 13 bytes, or its length field is wrong: it counts what follows it */
    TARIFF_LENGTH = 2,
    /* the version byte is not 1 */
    TARIFF_VERSION = 3,
    /* a count outside its range: operations 1 to 64, classes 1 to 256, members 1 to 1,024, children 0 to 4,096 */
    TARIFF_COUNT = 4,
    /* counts and length disagree */
    TARIFF_TABLES = 5,
    /* an operation entry: kind above 9, wrong commutative flag, or an identity that it may not have */
    TARIFF_OPERATION = 6,
    /* a span, operation number, member order or literal field */
    TARIFF_MEMBER = 7,
    /* a child entry or an arity */
    TARIFF_CHILD = 8,
    /* a best member outside its class, or a best size that is wrong or outside its range */
    TARIFF_BEST = 9,
    /* a literal (operation and value) stands in two classes: join class `class_number` with the class
       that shares the literal */
    TARIFF_LITERAL = 10,
    /* a queried class is not in the image */
    TARIFF_QUERY = 11,
    /* a pair of classes beyond the caller's limit would be entered, 4,096 with `tariff_merge` and 256 with
       `tariff_quote`: ask smaller classes, or a smaller budget; what is too large for the quote page may
       not be for the account desk */
    TARIFF_PAIRS_FULL = 12,
    /* a term beyond 16,384 or a run beyond 65,536 would be entered: the same. Of a card that is read, and of
       lines: the formula is too large */
    TARIFF_TERMS_FULL = 13,
    /* the listing, the card or the lines exceed the output buffer: lend a longer one */
    TARIFF_OUTPUT_SHORT = 14,
    /* of a card that is read: the text is not a formula. Of lines that are to be written as a card: one
       breaks its form, names a line that is not above it or is there before, or there is none */
    TARIFF_NO_FORMULA = 17,
    /* of a card that is written: an operation in the formula has no proper sign of its own and precedence:
       give it one in the table */
    TARIFF_NO_SIGN = 18
};

struct tariff_returned {
    uint32_t number;
    /* the length of the listing, the card or the lines; 0 with a refusal */
    size_t bytes;
    /* with TARIFF_LITERAL the lowest-numbered class holding a literal that also stands in another class;
       else 0 */
    size_t class_number;
};

struct tariff_lengths {
    size_t graph;
    size_t pairs;
    size_t work;
    size_t flow;
    size_t terms;
    size_t runs;
};

struct tariff_lengths tariff_lengths(void);

/*
 * The merge of class `left` with class `right` of the image, with a budget of checks. It is the account
 * desk's call: at most 4,096 pairs of classes.
 *
 * With TARIFF_WORK_SHORT every buffer is as it was. With any other number the work buffers are zero in
 * full. The output buffer changes only with a listing, and past the listing not at all.
 */
struct tariff_returned tariff_merge(
    const uint8_t *image, size_t image_bytes,
    uint16_t left, uint16_t right, uint32_t budget,
    uint16_t *graph, size_t graph_length,
    uint32_t *pairs, size_t pairs_length,
    uint64_t *work, size_t work_length,
    uint64_t *flow, size_t flow_length,
    uint32_t *terms, size_t terms_length,
    uint64_t *runs, size_t runs_length,
    uint8_t *out, size_t out_bytes);

/*
 * The same call for the public quote page: at most 256 pairs of classes, and TARIFF_PAIRS_FULL beyond.
 *
 * The work buffers have the same constant lengths, so that one set serves both. Where this call gives a
 * listing, `tariff_merge` with the same arguments gives the same bytes and leaves every buffer the same;
 * where it refuses with another number than TARIFF_PAIRS_FULL, `tariff_merge` refuses with that number.
 */
struct tariff_returned tariff_quote(
    const uint8_t *image, size_t image_bytes,
    uint16_t left, uint16_t right, uint32_t budget,
    uint16_t *graph, size_t graph_length,
    uint32_t *pairs, size_t pairs_length,
    uint64_t *work, size_t work_length,
    uint64_t *flow, size_t flow_length,
    uint32_t *terms, size_t terms_length,
    uint64_t *runs, size_t runs_length,
    uint8_t *out, size_t out_bytes);

/* All work buffers, of their constant lengths: about 46 KB, static or from malloc, and kept between calls. */
struct tariff_work {
    uint64_t work[TARIFF_WORK];
    uint64_t flow[TARIFF_FLOW];
    uint64_t runs[TARIFF_RUNS];
    uint32_t pairs[TARIFF_PAIRS];
    uint32_t terms[TARIFF_TERMS];
    uint16_t graph[TARIFF_GRAPH];
};

/* `tariff_merge` in these buffers: never TARIFF_WORK_SHORT. */
static inline struct tariff_returned tariff_merge_in(
    struct tariff_work *work,
    const uint8_t *image, size_t image_bytes,
    uint16_t left, uint16_t right, uint32_t budget,
    uint8_t *out, size_t out_bytes)
{
    return tariff_merge(
        image, image_bytes, left, right, budget,
        work->graph, TARIFF_GRAPH, work->pairs, TARIFF_PAIRS, work->work, TARIFF_WORK,
        work->flow, TARIFF_FLOW, work->terms, TARIFF_TERMS, work->runs, TARIFF_RUNS,
        out, out_bytes);
}

/* `tariff_quote` in these buffers: never TARIFF_WORK_SHORT. */
static inline struct tariff_returned tariff_quote_in(
    struct tariff_work *work,
    const uint8_t *image, size_t image_bytes,
    uint16_t left, uint16_t right, uint32_t budget,
    uint8_t *out, size_t out_bytes)
{
    return tariff_quote(
        image, image_bytes, left, right, budget,
        work->graph, TARIFF_GRAPH, work->pairs, TARIFF_PAIRS, work->work, TARIFF_WORK,
        work->flow, TARIFF_FLOW, work->terms, TARIFF_TERMS, work->runs, TARIFF_RUNS,
        out, out_bytes);
}

/* ---- a member's children as they arrive */

/* What `number` says of a child. */
enum tariff_child {
    /* added: the list holds `terms` terms now */
    TARIFF_CHILD_ADDED = 0,
    /* the child's class is new and every place of the list is taken: lend a longer list. Also where the
       list has not the `terms` terms that the caller says: half its length is the most */
    TARIFF_CHILD_FULL = 1,
    /* the class's count would pass 18,446,744,073,709,551,615: the child is too many */
    TARIFF_CHILD_OVERFLOW = 2
};

struct tariff_added {
    uint32_t number;
    /* how many terms the list holds: as many as before where the child was refused */
    size_t terms;
};

/*
 * A child in a list of so many terms, each a class with its count: term i has its class at list[2 * i],
 * its count at list[2 * i + 1]. Classes rise, and the counts of one class are added.
 *
 * From `terms` 0 on, whatever the array held, and with the `terms` of each answer given to the next call:
 * after each child the list is the monomial of the children added so far. Numbers behind the list stay as
 * they were, and a child that is refused leaves every number as it was. Class and count are not judged: a
 * count of 0 makes a term of count 0, which no image has. Needs little stack.
 */
struct tariff_added tariff_add_child(
    uint64_t *list, size_t list_length, size_t terms,
    uint16_t class_number, uint64_t count);

/* What `number` says of a list's counts. */
enum tariff_narrowing {
    /* every count is at most 4,294,967,295 */
    TARIFF_NARROW_FITS = 0,
    /* the count of term `entry` is above: bring the count of class list[2 * entry] down to 4,294,967,295,
       or the merge does without this list. It passes over every monomial pair in which a count, after
       padding, is above, and its listing's field skipped counts them */
    TARIFF_NARROW_FAILS = 1
};

struct tariff_narrowed {
    uint32_t number;
    /* with TARIFF_NARROW_FAILS the first term, from 0, whose count is above 4,294,967,295; else 0 */
    size_t entry;
};

/*
 * Whether every count of the list's terms, as `tariff_add_child` holds them, is at most 4,294,967,295. Of
 * more terms than the list has places for, as many as it has; a list without terms fits. Nothing is
 * written, and classes are not judged. Needs little stack.
 *
 * A list that fails is in no monomial pair that the merge aligns. One that fits can be passed over too:
 * padding adds to the count of the operation's identity.
 */
struct tariff_narrowed tariff_narrow(const uint64_t *list, size_t list_length, size_t terms);

/* Places for the 64 children that a member has at most, and for an identity: a member's children always
   fit. Empty where `terms` is 0, as `struct tariff_monomial m = { 0 };` has it. */
#define TARIFF_MONOMIAL_TERMS 65

struct tariff_monomial {
    size_t terms;
    uint64_t list[2 * TARIFF_MONOMIAL_TERMS];
};

/* `tariff_add_child` in this list: a number of `enum tariff_child`. */
static inline uint32_t tariff_monomial_add(struct tariff_monomial *m, uint16_t class_number, uint64_t count)
{
    struct tariff_added added = tariff_add_child(m->list, 2 * TARIFF_MONOMIAL_TERMS, m->terms, class_number, count);
    m->terms = added.terms;
    return added.number;
}

/* `tariff_narrow` of this list. */
static inline struct tariff_narrowed tariff_monomial_narrow(const struct tariff_monomial *m)
{
    return tariff_narrow(m->list, 2 * TARIFF_MONOMIAL_TERMS, m->terms);
}

/* The class of term i, i below m->terms; classes rise. */
static inline uint16_t tariff_monomial_class(const struct tariff_monomial *m, size_t i)
{
    return (uint16_t)m->list[2 * i];
}

static inline uint64_t tariff_monomial_count(const struct tariff_monomial *m, size_t i)
{
    return m->list[2 * i + 1];
}

/* The sum of the counts: 1 with the sum in *total, or 0 where it passes 64 bits. Of a member's children,
   whose counts have 32 bits, it does not. */
static inline int tariff_monomial_total(const struct tariff_monomial *m, uint64_t *total)
{
    uint64_t sum = 0;
    for (size_t i = 0; i < m->terms; i++) {
        uint64_t count = tariff_monomial_count(m, i);
        if (count > UINT64_MAX - sum)
            return 0;
        sum += count;
    }
    *total = sum;
    return 1;
}

/* ---- formula text for a driver's card */

/*
 * A sign table: 9 bytes, one for each precedence from 1 to 9, 0 where it groups to the left, any other where
 * it groups to the right; then 9 bytes for each operation from 0 on, its sign (1 to 8 ASCII letters or one
 * of + - * / < >, with zeros up to 8 bytes) and its precedence, 1 to 9; a higher one binds first. Any bytes
 * are a table: whole entries count, the first 64 of them, and an operation whose entry is not proper, or
 * whose sign stands in another entry too, has no sign.
 *
 * Text: `value#operation` for a literal; a sign between two children, with a space on each side,
 * `3#0 * (km[] + wait[])`; the sign and a list where an operation has no child, one, or three and more,
 * `sum[a; b; c]`, equal children written out; `{a | b}` for a marked place.
 *
 * Lines: those of a listing behind its first line, `N lit OPERATION VALUE`, `N op OPERATION CHILD:COUNT ..`
 * and `N variants CHILD:COUNT ..`, each ended by a line feed. N is the line's number, from 0; children
 * stand on lower lines, and neighbours are different; counts are at least 1 and together at most
 * 279,172,874,175 a line; operations are at most 63, values at most 4,294,967,295; a marked place has two
 * branches; no line is there twice. The last line is the formula.
 */

/* How many elements each work buffer has at least; `tariff_card_lengths` answers the same of marks, terms and
   runs. The frames are TARIFF_CARD_FRAMES for `tariff_card`, and for `tariff_read_card` as many as the text
   has bytes. */
#define TARIFF_CARD_FRAMES 65536
#define TARIFF_CARD_MARKS 32768
#define TARIFF_CARD_TERMS 66562
#define TARIFF_CARD_RUNS 65536

struct tariff_card_lengths {
    size_t marks;
    size_t terms;
    size_t runs;
};

struct tariff_card_lengths tariff_card_lengths(void);

/*
 * The card of the formula on these lines, with the fewest brackets: TARIFF_LISTING (0), and the first
 * `bytes` bytes of the output buffer are the text, without a line feed. Read back with the same table it is
 * the same formula, and without any one bracket pair it is another one or none.
 *
 * Refused, the first that applies: TARIFF_WORK_SHORT; TARIFF_NO_FORMULA and TARIFF_TERMS_FULL as met, line
 * by line; TARIFF_NO_SIGN; TARIFF_OUTPUT_SHORT.
 *
 * With TARIFF_WORK_SHORT every buffer is as it was. With any other number the work buffers are zero in
 * full. The output buffer changes only with a card, and past the card not at all.
 */
struct tariff_returned tariff_card(
    const uint8_t *table, size_t table_bytes,
    const uint8_t *lines, size_t lines_bytes,
    uint64_t *frames, size_t frames_length,
    uint16_t *marks, size_t marks_length,
    uint32_t *terms, size_t terms_length,
    uint64_t *runs, size_t runs_length,
    uint8_t *out, size_t out_bytes);

/*
 * The lines of a card's formula, with brackets round any subterm beside those needed or without, numbered
 * in the order a left-to-right walk finishes them: TARIFF_LISTING (0), and the first `bytes` bytes of the
 * output buffer are the lines. No line feed ends the text.
 *
 * Refused, the first that applies: TARIFF_WORK_SHORT, TARIFF_NO_FORMULA, TARIFF_TERMS_FULL,
 * TARIFF_OUTPUT_SHORT. Buffers as with `tariff_card`.
 */
struct tariff_returned tariff_read_card(
    const uint8_t *table, size_t table_bytes,
    const uint8_t *text, size_t text_bytes,
    uint64_t *frames, size_t frames_length,
    uint16_t *marks, size_t marks_length,
    uint32_t *terms, size_t terms_length,
    uint64_t *runs, size_t runs_length,
    uint8_t *out, size_t out_bytes);

/* All work buffers of a card: about 1.4 MB, static or from malloc, and kept between calls. */
struct tariff_card_work {
    uint64_t frames[TARIFF_CARD_FRAMES];
    uint64_t runs[TARIFF_CARD_RUNS];
    uint32_t terms[TARIFF_CARD_TERMS];
    uint16_t marks[TARIFF_CARD_MARKS];
};

/* `tariff_card` in these buffers: never TARIFF_WORK_SHORT. */
static inline struct tariff_returned tariff_card_in(
    struct tariff_card_work *work,
    const uint8_t *table, size_t table_bytes,
    const uint8_t *lines, size_t lines_bytes,
    uint8_t *out, size_t out_bytes)
{
    return tariff_card(
        table, table_bytes, lines, lines_bytes,
        work->frames, TARIFF_CARD_FRAMES, work->marks, TARIFF_CARD_MARKS,
        work->terms, TARIFF_CARD_TERMS, work->runs, TARIFF_CARD_RUNS,
        out, out_bytes);
}

/* `tariff_read_card` in these buffers: TARIFF_WORK_SHORT only where the text has more than 65,536 bytes. */
static inline struct tariff_returned tariff_read_card_in(
    struct tariff_card_work *work,
    const uint8_t *table, size_t table_bytes,
    const uint8_t *text, size_t text_bytes,
    uint8_t *out, size_t out_bytes)
{
    return tariff_read_card(
        table, table_bytes, text, text_bytes,
        work->frames, TARIFF_CARD_FRAMES, work->marks, TARIFF_CARD_MARKS,
        work->terms, TARIFF_CARD_TERMS, work->runs, TARIFF_CARD_RUNS,
        out, out_bytes);
}

/* Where a listing's lines begin: behind its first line. */
static inline const uint8_t *tariff_listing_lines(const uint8_t *listing, size_t bytes, size_t *lines_bytes)
{
    size_t at = 0;
    while (at < bytes && listing[at] != '\n')
        at++;
    at = at < bytes ? at + 1 : bytes;
    *lines_bytes = bytes - at;
    return listing + at;
}

#ifdef __cplusplus
}
#endif

#endif
