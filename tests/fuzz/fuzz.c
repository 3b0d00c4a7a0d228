/*
 * A libFuzzer harness over include/rch.h. It needs no second implementation: it checks what the
 * header promises of replies and buffers, that reading and writing are inverse, and that the five
 * functions agree with each other.
 *
 * Octet 0 of the input chooses the function, octet 1 the lengths of the lent buffers; the rest is
 * what is given to be read. Every buffer ends where a page begins that cannot be touched, has a
 * fence before it, and is full of rubbish when it is lent. What is given to be read cannot be
 * written to.
 *
 * The library is not instrumented. So that the fuzzer still learns what is new, each reply counts:
 * function, number, and how far the reading came.
 */
#define _GNU_SOURCE
#include "rch.h"

#include <stdio.h>
#include <stdlib.h>
#include <string.h>
#include <sys/mman.h>

#define REQUIRE(what)                                                                              \
    do {                                                                                           \
        if (!(what)) {                                                                             \
            fprintf(stderr, "%s:%d: not so: %s\n", __func__, __LINE__, #what);                     \
            abort();                                                                               \
        }                                                                                          \
    } while (0)

enum { READ_IP, READ_AS, WRITE, PATH, FAULT, FUNCTIONS };
enum { IP = 1, AS = 2 };
enum { DEPTHS = 128 };

/* What the fuzzer is told: one counter for each function, number and depth. */
__attribute__((section("__libfuzzer_extra_counters"))) static uint8_t seen[FUNCTIONS][21][DEPTHS];

static void tell(int function, const uint64_t *reply)
{
    uint64_t depth = reply[RCH_NUMBER] == 0 ? reply[RCH_COUNT] : reply[RCH_PLACE];
    seen[function][reply[RCH_NUMBER]][depth < DEPTHS ? depth : DEPTHS - 1] = 1;
}

/* ---- Memory ---- */

enum { PAGE = 4096, ARENA = 32 * PAGE, FENCE = 8 };

/* Memory that ends where a page begins that cannot be touched. */
struct arena {
    uint8_t *start;
};

static struct arena values[2], tables[2], replies, outputs;

static void *end_of(struct arena *arena, size_t octets)
{
    if (!arena->start) {
        arena->start =
            mmap(NULL, ARENA + PAGE, PROT_READ | PROT_WRITE, MAP_PRIVATE | MAP_ANONYMOUS, -1, 0);
        REQUIRE(arena->start != MAP_FAILED);
        REQUIRE(mprotect(arena->start + ARENA, PAGE, PROT_NONE) == 0);
    }
    REQUIRE(octets + FENCE * sizeof(uint64_t) <= ARENA);
    return arena->start + ARENA - octets;
}

/* A copy of some octets that can only be read. */
static const void *given(struct arena *arena, const void *octets, size_t length)
{
    void *copy = end_of(arena, length);
    REQUIRE(mprotect(arena->start, ARENA, PROT_READ | PROT_WRITE) == 0);
    memcpy(copy, octets, length);
    REQUIRE(mprotect(arena->start, ARENA, PROT_READ) == 0);
    return copy;
}

/* A lent run of numbers. */
struct lent {
    uint64_t *numbers;
    size_t length;
};

static uint64_t rubbish(const uint64_t *at)
{
    return ((uintptr_t)at >> 3) * 0x9e3779b97f4a7c15u | 1;
}

static struct lent lend(struct arena *arena, size_t length)
{
    struct lent lent = {end_of(arena, length * sizeof(uint64_t)), length};
    for (uint64_t *at = lent.numbers - FENCE; at < lent.numbers + length; at++)
        *at = rubbish(at);
    return lent;
}

/* The numbers from a place on, and the fence, are as they were. */
static void require_unchanged(struct lent lent, size_t from)
{
    for (const uint64_t *at = lent.numbers - FENCE; at < lent.numbers; at++)
        REQUIRE(*at == rubbish(at));
    for (const uint64_t *at = lent.numbers + from; at < lent.numbers + lent.length; at++)
        REQUIRE(*at == rubbish(at));
}

/* ---- Tables ---- */

typedef unsigned __int128 wide;

static wide low_of(const uint64_t *row) { return (wide)row[2] << 64 | row[3]; }
static wide high_of(const uint64_t *row) { return (wide)row[4] << 64 | row[5]; }

static int is_ip(uint64_t space)
{
    return (space >= 1024 && space <= 1280) || (space >= 2048 && space <= 2304);
}

static int is_as(uint64_t space) { return space == 4096 || space == 5120; }

static void require_row(const uint64_t *row)
{
    REQUIRE(is_ip(row[0]) || is_as(row[0]));
    REQUIRE(row[1] <= 1);
    REQUIRE(low_of(row) <= high_of(row));
    if (row[1] == 1)
        REQUIRE(high_of(row) == 0);
    if (row[0] / 1024 != 2)
        REQUIRE(high_of(row) <= UINT32_MAX);
}

/* Two rows, one after the other, ascend and leave a gap; an inherit row is alone in its space. */
static void require_order(const uint64_t *before, const uint64_t *row)
{
    if (before[0] == row[0]) {
        REQUIRE(before[1] == 0 && row[1] == 0);
        REQUIRE(low_of(row) > high_of(before) && low_of(row) - high_of(before) > 1);
    } else {
        REQUIRE(before[0] < row[0]);
    }
}

static void require_rows(const uint64_t *rows, uint64_t count)
{
    REQUIRE(count <= RCH_ROWS);
    for (uint64_t row = 0; row < count; row++) {
        require_row(rows + RCH_ROW * row);
        if (row > 0)
            require_order(rows + RCH_ROW * (row - 1), rows + RCH_ROW * row);
    }
}

/* So many rows, then zeros up to number 3,072, then what was there before. */
static void require_table(struct lent table, uint64_t count)
{
    require_rows(table.numbers, count);
    for (size_t at = RCH_ROW * count; at < RCH_TABLE; at++)
        REQUIRE(table.numbers[at] == 0);
    require_unchanged(table, RCH_TABLE);
}

/* The row of a table that is an inherit row of this space, or lists this number in it. */
static const uint64_t *find_row(const uint64_t *rows, uint64_t count, uint64_t space, wide value)
{
    for (const uint64_t *row = rows; row < rows + RCH_ROW * count; row += RCH_ROW)
        if (row[0] == space && (row[1] == 1 || (low_of(row) <= value && value <= high_of(row))))
            return row;
    return NULL;
}

/* ---- Replies ---- */

/* What holds for the reply of any function. Space and value of rch_fault are looked at there. */
static void require_reply(int function, uint64_t returned, struct lent reply)
{
    const uint64_t *n = reply.numbers;
    uint64_t refusal = n[RCH_NUMBER];
    require_unchanged(reply, RCH_REPLY);
    REQUIRE(refusal == returned && refusal <= RCH_OUTPUT_SHORT);
    REQUIRE(n[RCH_EXTENSION] <= AS && n[RCH_CERTIFICATE] < RCH_CERTIFICATES);
    if (refusal != 0)
        REQUIRE(n[RCH_COUNT] == 0 && n[RCH_PAIRS] == 0);
    if (function != PATH)
        REQUIRE(n[RCH_CERTIFICATE] == 0 && n[RCH_PAIRS] == 0);
    if (refusal == 0 || refusal == RCH_CERTIFICATE_COUNT || refusal >= RCH_TABLE_SHORT)
        REQUIRE(n[RCH_CERTIFICATE] == 0 && n[RCH_EXTENSION] == 0 && n[RCH_PLACE] == 0);
    if (refusal > RCH_ROW_COUNT)
        REQUIRE(n[RCH_PLACE] == 0);
    if (function != FAULT && refusal != RCH_NOT_HELD) {
        REQUIRE(n[RCH_UPPER] == 0 && n[RCH_LOWER] == 0);
        REQUIRE((n[RCH_SPACE] != 0) == (refusal == RCH_NOTHING_TO_INHERIT));
    }
    tell(function, n);
}

/* With a reply below nine numbers nothing changes; true if that was so. */
static int is_too_short(uint64_t returned, struct lent reply, struct lent first, struct lent second)
{
    if (reply.length >= RCH_REPLY)
        return 0;
    REQUIRE(returned == RCH_TABLE_SHORT);
    require_unchanged(reply, 0);
    require_unchanged(first, 0);
    require_unchanged(second, 0);
    return 1;
}

/* ---- Calls with full buffers, for comparison ---- */

struct answer {
    uint64_t reply[RCH_REPLY];
    uint64_t table[RCH_TABLE];
};

static const struct answer nothing;

static void read_again(struct answer *a, int extension, const uint8_t *value, size_t length)
{
    (extension == IP ? rch_read_ip : rch_read_as)(value, length, a->table, RCH_TABLE, a->reply,
                                                  RCH_REPLY);
}

static void read_both_again(struct answer *a, const uint8_t *ip, size_t ip_len, const uint8_t *as,
                            size_t as_len)
{
    rch_fault(ip, ip_len, as, as_len, a->table, RCH_TABLE, a->reply, RCH_REPLY);
}

/* A table is written as exactly these octets, and does not fit in one octet less. */
static void require_written(int kind, const uint64_t *rows, uint64_t count, const uint8_t *value,
                            size_t length)
{
    static uint8_t out[RCH_VALUE];
    uint64_t reply[RCH_REPLY];
    REQUIRE(length <= RCH_VALUE);
    REQUIRE(rch_write(kind, rows, RCH_ROW * count, out, length, reply, RCH_REPLY) == 0);
    REQUIRE(reply[RCH_COUNT] == length && memcmp(out, value, length) == 0);
    REQUIRE(rch_write(kind, rows, RCH_ROW * count, out, length - 1, reply, RCH_REPLY) ==
            RCH_OUTPUT_SHORT);
}

/* ---- The readers ---- */

static void fuzz_reader(int extension, const uint8_t *data, size_t size, size_t table_len,
                        size_t reply_len)
{
    const uint8_t *value = given(&values[0], data, size);
    struct lent table = lend(&tables[0], table_len);
    struct lent reply = lend(&replies, reply_len);
    uint64_t returned = (extension == IP ? rch_read_ip : rch_read_as)(
        value, size, table.numbers, table_len, reply.numbers, reply_len);
    if (is_too_short(returned, reply, table, table))
        return;
    require_reply(extension == IP ? READ_IP : READ_AS, returned, reply);

    uint64_t count = reply.numbers[RCH_COUNT];
    REQUIRE((returned == RCH_TABLE_SHORT) == (table_len < RCH_TABLE));
    if (returned == RCH_TABLE_SHORT) {
        require_unchanged(table, 0);
        return;
    }
    require_table(table, count);
    REQUIRE(returned <= RCH_ROW_COUNT);
    REQUIRE((returned == RCH_VALUE_SIZE) == (size == 0 || size > RCH_VALUE));
    REQUIRE(reply.numbers[RCH_EXTENSION] == (returned == 0 ? 0 : (uint64_t)extension));
    REQUIRE(reply.numbers[RCH_PLACE] <= size);
    if (returned == 0) {
        for (uint64_t row = 0; row < count; row++)
            REQUIRE(is_ip(table.numbers[RCH_ROW * row]) == (extension == IP));
        require_written(extension, table.numbers, count, value, size);
    }
}

/* ---- The writer ---- */

static void fuzz_writer(uint64_t kind, const uint64_t *numbers, size_t rows_len, size_t room,
                        size_t reply_len)
{
    const uint64_t *rows = given(&values[0], numbers, rows_len * sizeof *numbers);
    uint8_t *out = end_of(&outputs, room);
    struct lent reply = lend(&replies, reply_len);
    memset(out - FENCE, 0xa5, room + FENCE);
    uint64_t returned = rch_write(kind, rows, rows_len, out, room, reply.numbers, reply_len);

    uint64_t count = 0;
    if (reply_len < RCH_REPLY) {
        REQUIRE(returned == RCH_TABLE_SHORT);
        require_unchanged(reply, 0);
    } else {
        require_reply(WRITE, returned, reply);
        REQUIRE(returned == 0 || returned == RCH_NOT_A_TABLE || returned == RCH_OUTPUT_SHORT ||
                (returned == RCH_EMPTY_LIST && kind == AS && rows_len == 0));
        REQUIRE(reply.numbers[RCH_EXTENSION] == (returned == RCH_EMPTY_LIST ? AS : 0));
        count = reply.numbers[RCH_COUNT];
        REQUIRE(count <= room);
    }
    for (const uint8_t *at = out - FENCE; at < out + room; at++)
        REQUIRE(*at == 0xa5 || (at >= out && at < out + count));

    if (reply_len >= RCH_REPLY && returned == 0) {
        static struct answer back;
        require_rows(rows, rows_len / RCH_ROW);
        read_again(&back, kind == IP ? IP : AS, out, count);
        REQUIRE(back.reply[RCH_NUMBER] == 0 && back.reply[RCH_COUNT] == rows_len / RCH_ROW);
        REQUIRE(memcmp(back.table, rows, rows_len * sizeof *rows) == 0);
    }
}

/* ---- The part at fault ---- */

/* The reply names what the reader alone of that value names. */
static void require_same_fault(const uint64_t *reply, const uint8_t *value, size_t length)
{
    static struct answer alone;
    read_again(&alone, (int)reply[RCH_EXTENSION], value, length);
    REQUIRE(alone.reply[RCH_NUMBER] == reply[RCH_NUMBER]);
    REQUIRE(alone.reply[RCH_PLACE] == reply[RCH_PLACE]);
}

static void require_part(const uint64_t *reply, size_t ip_len, size_t as_len)
{
    uint64_t number = reply[RCH_NUMBER];
    if (number == 0 || number == RCH_VALUE_SIZE || number == RCH_ROW_COUNT ||
        number == RCH_TABLE_SHORT) {
        REQUIRE(reply[RCH_SPACE] == IP && reply[RCH_UPPER] == 0 && reply[RCH_LOWER] == 0);
    } else {
        REQUIRE(reply[RCH_SPACE] == reply[RCH_EXTENSION]);
        REQUIRE(reply[RCH_UPPER] == reply[RCH_PLACE] && reply[RCH_UPPER] <= reply[RCH_LOWER]);
        REQUIRE(reply[RCH_LOWER] == (reply[RCH_EXTENSION] == IP ? ip_len : as_len));
    }
}

static void fuzz_fault(const uint8_t *data, size_t ip_len, size_t as_len, size_t table_len,
                       size_t reply_len)
{
    static struct answer alone;
    const uint8_t *ip = given(&values[0], data, ip_len);
    const uint8_t *as = given(&values[1], data + ip_len, as_len);
    struct lent table = lend(&tables[0], table_len);
    struct lent reply = lend(&replies, reply_len);
    uint64_t returned =
        rch_fault(ip, ip_len, as, as_len, table.numbers, table_len, reply.numbers, reply_len);
    if (is_too_short(returned, reply, table, table))
        return;
    const uint64_t *n = reply.numbers;
    require_reply(FAULT, returned, reply);
    require_part(n, ip_len, as_len);
    REQUIRE((returned == RCH_TABLE_SHORT) == (table_len < RCH_TABLE));
    if (returned == RCH_TABLE_SHORT) {
        require_unchanged(table, 0);
        return;
    }
    require_table(table, n[RCH_COUNT]);
    REQUIRE(returned <= RCH_ROW_COUNT);

    /* Each value that is there reads alone as it does here, but for row 513 of the AS value. */
    uint64_t ip_rows = 0;
    if (n[RCH_EXTENSION] != IP && ip_len > 0) {
        read_again(&alone, IP, ip, ip_len);
        REQUIRE(alone.reply[RCH_NUMBER] == 0);
        ip_rows = alone.reply[RCH_COUNT];
        if (returned == 0)
            REQUIRE(memcmp(alone.table, table.numbers, RCH_ROW * ip_rows * sizeof(uint64_t)) == 0);
    }
    if (n[RCH_EXTENSION] == IP)
        require_same_fault(n, ip, ip_len);
    else if (n[RCH_EXTENSION] == AS && (returned != RCH_ROW_COUNT || ip_rows == 0))
        require_same_fault(n, as, as_len);
    else if (returned == 0 && as_len > 0)
        REQUIRE(n[RCH_COUNT] > ip_rows);
    else if (returned == 0)
        REQUIRE(n[RCH_COUNT] == ip_rows);
}

/* ---- The path ---- */

/* A certificate's two values. */
struct certificate {
    const uint8_t *value[3];
    size_t length[3];
};

/* The number of the refusal that the frame of a bundle gives; its certificates if that is 0. */
static uint64_t frame(const uint8_t *bundle, size_t size, struct certificate *certificates)
{
    if (size < 6 || size > RCH_BUNDLE)
        return RCH_FRAMING;
    if (memcmp(bundle, "RCH\x00\x01", 5) != 0)
        return RCH_MARK;
    if (bundle[5] == 0 || bundle[5] > RCH_CERTIFICATES)
        return RCH_CERTIFICATE_COUNT;
    size_t at = 6;
    for (int certificate = 0; certificate < bundle[5]; certificate++) {
        for (int extension = IP; extension <= AS; extension++) {
            if (size - at < 2)
                return RCH_FRAMING;
            size_t length = (size_t)bundle[at] << 8 | bundle[at + 1];
            at += 2;
            if (size - at < length)
                return RCH_FRAMING;
            certificates[certificate].value[extension] = bundle + at;
            certificates[certificate].length[extension] = length;
            at += length;
        }
    }
    return at == size ? 0 : RCH_FRAMING;
}

static void read_certificate(struct answer *a, const struct certificate *c)
{
    read_both_again(a, c->value[IP], c->length[IP], c->value[AS], c->length[AS]);
}

static int has_inherit_row(const struct answer *a)
{
    for (uint64_t row = 0; row < a->reply[RCH_COUNT]; row++)
        if (a->table[RCH_ROW * row + 1] == 1)
            return 1;
    return 0;
}

/* Number 14 or 15: the space is inherited and the issuer has none of it, or the value is the first
 * of a listed row that the issuer does not hold. */
static void require_not_held(const uint64_t *n, const struct answer *own,
                             const struct answer *issuer)
{
    wide value = (wide)n[RCH_UPPER] << 64 | n[RCH_LOWER];
    uint64_t space = n[RCH_SPACE], issuer_rows = issuer->reply[RCH_COUNT];
    const uint64_t *row = find_row(own->table, own->reply[RCH_COUNT], space, value);
    REQUIRE(row && n[RCH_EXTENSION] == (is_ip(space) ? IP : AS));
    if (n[RCH_NUMBER] == RCH_NOTHING_TO_INHERIT) {
        REQUIRE(row[1] == 1);
        for (uint64_t other = 0; other < issuer_rows; other++)
            REQUIRE(issuer->table[RCH_ROW * other] != space);
    } else {
        REQUIRE(row[1] == 0 && !find_row(issuer->table, issuer_rows, space, value));
        REQUIRE(value == low_of(row) || find_row(issuer->table, issuer_rows, space, value - 1));
    }
}

/* A refusal in a certificate agrees with what that certificate carries and its issuer holds. */
static void require_refusal(const uint64_t *n, const struct certificate *certificates,
                            const struct answer *issuer)
{
    static struct answer own;
    uint64_t number = n[RCH_NUMBER], extension = n[RCH_EXTENSION];
    const struct certificate *at = certificates + n[RCH_CERTIFICATE];
    int is_anchor = at == certificates;
    read_certificate(&own, at);
    int in_a_value = number < RCH_ROW_COUNT || (number == RCH_ROW_COUNT && extension != 0);
    REQUIRE((own.reply[RCH_NUMBER] != 0) == in_a_value);
    if (in_a_value) {
        REQUIRE(own.reply[RCH_NUMBER] == number && own.reply[RCH_EXTENSION] == extension);
        REQUIRE(own.reply[RCH_PLACE] == n[RCH_PLACE]);
    } else if (number == RCH_ROW_COUNT) {
        REQUIRE(!is_anchor && has_inherit_row(&own));
    } else if (number == RCH_ISSUER_LACKS) {
        REQUIRE(!is_anchor && extension != 0);
        REQUIRE(at->length[extension] > 0 && at[-1].length[extension] == 0);
    } else {
        REQUIRE(number == RCH_NOTHING_TO_INHERIT || !is_anchor);
        REQUIRE(is_anchor || at[-1].length[extension] > 0);
        require_not_held(n, &own, issuer);
    }
}

/* The path of the first `count` certificates alone. */
static void check_first(struct answer *a, const uint8_t *bundle,
                        const struct certificate *certificates, uint64_t count)
{
    static uint8_t shorter[RCH_BUNDLE];
    static uint64_t second[RCH_TABLE];
    const struct certificate *last = &certificates[count - 1];
    size_t size = (size_t)(last->value[AS] + last->length[AS] - bundle);
    memcpy(shorter, bundle, size);
    shorter[5] = (uint8_t)count;
    rch_path(shorter, size, a->table, RCH_TABLE, second, RCH_TABLE, a->reply, RCH_REPLY);
}

/* A table after inheritance has the listed rows, and the issuer's in place of each inherit row. */
static void require_inherited(const struct answer *own, const struct answer *listed,
                              const struct answer *issuer)
{
    const uint64_t *at = own->table, *end = own->table + RCH_ROW * own->reply[RCH_COUNT];
    for (uint64_t row = 0; row < listed->reply[RCH_COUNT]; row++) {
        const uint64_t *wanted = listed->table + RCH_ROW * row;
        const uint64_t *from = wanted[1] ? issuer->table : wanted;
        uint64_t count = wanted[1] ? issuer->reply[RCH_COUNT] : 1;
        for (; count > 0; count--, from += RCH_ROW) {
            if (from[0] != wanted[0])
                continue;
            REQUIRE(at < end && memcmp(at, from, RCH_ROW * sizeof *at) == 0);
            at += RCH_ROW;
        }
    }
    REQUIRE(at == end);
}

/* Each row lies in a row of the issuer; so many pairs are looked at until the last one is found. */
static uint64_t require_held(const struct answer *own, const struct answer *issuer)
{
    uint64_t rows = own->reply[RCH_COUNT], place = 0;
    for (const uint64_t *row = own->table; row < own->table + RCH_ROW * rows; row += RCH_ROW) {
        const uint64_t *holder =
            find_row(issuer->table, issuer->reply[RCH_COUNT], row[0], low_of(row));
        REQUIRE(row[1] == 0 && holder && high_of(row) <= high_of(holder));
        place = (uint64_t)(holder - issuer->table) / RCH_ROW;
    }
    return rows == 0 ? 0 : rows + place;
}

/* The first certificates up to this one, which are accepted, follow from those before it. */
static void require_step(const struct answer *own, const struct answer *issuer,
                         const struct certificate *certificate, int is_anchor)
{
    static struct answer listed;
    read_certificate(&listed, certificate);
    REQUIRE(own->reply[RCH_NUMBER] == 0 && listed.reply[RCH_NUMBER] == 0);
    if (is_anchor) {
        REQUIRE(own->reply[RCH_PAIRS] == 0 && !has_inherit_row(&listed));
        require_inherited(own, &listed, &nothing);
        return;
    }
    for (int extension = IP; extension <= AS; extension++)
        REQUIRE(certificate->length[extension] == 0 || certificate[-1].length[extension] > 0);
    require_inherited(own, &listed, issuer);
    REQUIRE(own->reply[RCH_PAIRS] == issuer->reply[RCH_PAIRS] + require_held(own, issuer));
}

/* The first `count` certificates are accepted, each by what the one before it holds. */
static void require_accepted(struct answer *last, const uint8_t *bundle,
                             const struct certificate *certificates, uint64_t count)
{
    static struct answer issuer;
    for (uint64_t certificate = 0; certificate < count; certificate++) {
        issuer = *last;
        check_first(last, bundle, certificates, certificate + 1);
        require_step(last, &issuer, &certificates[certificate], certificate == 0);
    }
}

static void fuzz_path(const uint8_t *data, size_t size, size_t first_len, size_t second_len,
                      size_t reply_len)
{
    static struct answer last;
    const uint8_t *bundle = given(&values[0], data, size);
    struct lent first = lend(&tables[0], first_len);
    struct lent second = lend(&tables[1], second_len);
    struct lent reply = lend(&replies, reply_len);
    uint64_t returned = rch_path(bundle, size, first.numbers, first_len, second.numbers, second_len,
                                 reply.numbers, reply_len);
    if (is_too_short(returned, reply, first, second))
        return;
    const uint64_t *n = reply.numbers;
    require_reply(PATH, returned, reply);
    REQUIRE((returned == RCH_TABLE_SHORT) == (first_len < RCH_TABLE || second_len < RCH_TABLE));
    if (returned == RCH_TABLE_SHORT) {
        require_unchanged(first, 0);
        require_unchanged(second, 0);
        return;
    }
    require_table(first, n[RCH_COUNT]);
    require_table(second, 0);
    REQUIRE(returned <= RCH_FRAMING);

    struct certificate certificates[RCH_CERTIFICATES];
    uint64_t framing = frame(bundle, size, certificates);
    int by_frame =
        returned == RCH_FRAMING || returned == RCH_MARK || returned == RCH_CERTIFICATE_COUNT;
    REQUIRE(by_frame ? returned == framing : framing == 0);
    if (by_frame)
        return;
    uint64_t accepted = returned == 0 ? bundle[5] : n[RCH_CERTIFICATE];
    REQUIRE(accepted + (returned != 0) <= bundle[5]);
    require_accepted(&last, bundle, certificates, accepted);
    if (returned == 0) {
        REQUIRE(memcmp(last.table, first.numbers, sizeof last.table) == 0);
    } else {
        require_refusal(n, certificates, accepted == 0 ? &nothing : &last);
        check_first(&last, bundle, certificates, accepted + 1);
    }
    REQUIRE(memcmp(last.reply, n, sizeof last.reply) == 0);
}

/* ---- The input ---- */

static size_t length_of_table(unsigned choice)
{
    static const size_t lengths[8] = {RCH_TABLE,     RCH_TABLE,     RCH_TABLE, RCH_TABLE,
                                      RCH_TABLE + 1, RCH_TABLE + 9, 3071,      0};
    return lengths[choice % 8];
}

static size_t length_of_reply(unsigned choice)
{
    static const size_t lengths[4] = {RCH_REPLY, RCH_REPLY, RCH_REPLY + 3, RCH_REPLY - 1};
    return lengths[choice % 4];
}

/* A kind, a room of 16 bits, then numbers of eight octets, high octet first. */
static void decode_writer(const uint8_t *data, size_t size, size_t reply_len)
{
    static uint64_t numbers[RCH_TABLE + 2 * RCH_ROW];
    if (size < 3)
        return;
    uint64_t kind = data[0];
    size_t room = (size_t)data[1] << 8 | data[2], count = 0;
    for (size_t at = 3; at + 8 <= size && count < sizeof numbers / sizeof *numbers; at += 8) {
        uint64_t number = 0;
        for (int octet = 0; octet < 8; octet++)
            number = number << 8 | data[at + octet];
        numbers[count++] = number;
    }
    fuzz_writer(kind, numbers, count, room, reply_len);
}

/* A length of 16 bits, then the IP value, then the AS value. */
static void decode_fault(const uint8_t *data, size_t size, size_t table_len, size_t reply_len)
{
    if (size < 2)
        return;
    size_t ip_len = (size_t)data[0] << 8 | data[1], rest = size - 2;
    if (ip_len > rest)
        ip_len = rest;
    fuzz_fault(data + 2, ip_len, rest - ip_len, table_len, reply_len);
}

int LLVMFuzzerTestOneInput(const uint8_t *data, size_t size)
{
    if (size < 2 || size > ARENA - PAGE)
        return 0;
    size_t table_len = length_of_table(data[1]), second_len = length_of_table(data[1] >> 5);
    size_t reply_len = length_of_reply(data[1] >> 3);
    int function = data[0] % FUNCTIONS;
    data += 2;
    size -= 2;
    switch (function) {
    case READ_IP:
        fuzz_reader(IP, data, size, table_len, reply_len);
        break;
    case READ_AS:
        fuzz_reader(AS, data, size, table_len, reply_len);
        break;
    case WRITE:
        decode_writer(data, size, reply_len);
        break;
    case PATH:
        fuzz_path(data, size, table_len, second_len, reply_len);
        break;
    default:
        decode_fault(data, size, table_len, reply_len);
    }
    return 0;
}
