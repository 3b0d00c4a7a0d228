/*
 * rch.h: the RFC 3779 resource tables of Quimaxtoc, for C.
 *
 * Two certificate extension values are read and written (IPAddrBlocks and ASIdentifiers), and a path of certificates is checked.
 * Every function takes any octets and any lengths, stops, uses no heap, keeps nothing between calls and never relies on its caller.
 * Each is proved to give exactly the reply and to leave exactly the buffers that its text says.
 *
 * Buffers must not overlap, and a pointer with a length of 0 must still be a valid, aligned pointer (not NULL).
 * Link with libface.a, which `tools/staticlib` writes to target/staticlib.
 *
 * A row of a table is six 64-bit numbers:
 *     space, inherit mark (0 or 1), low (upper half, lower half), high (upper half, lower half)
 * Space is AFI * 1024, plus 1 + SAFI if a SAFI is present; AS numbers are 4096, routing domain identifiers 5120.
 * IPv4 addresses, AS numbers and routing domain identifiers have upper half 0.
 */
#ifndef RCH_H
#define RCH_H

#include <stddef.h>
#include <stdint.h>

#ifdef __cplusplus
extern "C" {
#endif

/* Sizes. A table that is lent has at least RCH_TABLE numbers, a reply at least RCH_REPLY. RCH_VALUE octets are room for any value that is written. */
enum {
    RCH_ROW = 6,
    RCH_ROWS = 512,
    RCH_TABLE = 3072,
    RCH_REPLY = 9,
    RCH_VALUE = 32768,
    RCH_BUNDLE = 65536,
    RCH_CERTIFICATES = 8
};

/* The numbers of a reply by their place in it. */
enum rch_reply {
    RCH_NUMBER = 0,      /* the number of the refusal, 0 if accepted */
    RCH_CERTIFICATE = 1, /* the certificate at fault, the anchor is 0 */
    RCH_EXTENSION = 2,   /* the extension at fault: 0 none, 1 IPAddrBlocks, 2 ASIdentifiers */
    RCH_PLACE = 3,       /* the octet at fault, from the start of the value */
    RCH_SPACE = 4,       /* the space at fault (rch_fault: which value, 1 IP, 2 AS) */
    RCH_UPPER = 5,       /* the number at fault, upper half (rch_fault: where the octets at fault start) */
    RCH_LOWER = 6,       /* its lower half (rch_fault: where they end) */
    RCH_COUNT = 7,       /* rows; rch_write: octets */
    RCH_PAIRS = 8        /* rch_path: the row pairs looked at */
};

/* The refusals by their numbers. */
enum rch_refusal {
    RCH_ACCEPTED = 0,
    RCH_VALUE_SIZE = 1,         /* the value is empty, or above 32,768 octets */
    RCH_ELEMENT = 2,            /* a tag or a length is missing, or a length is not minimal, not definite, or past the enclosing element */
    RCH_TAG = 3,                /* a tag that is not allowed here */
    RCH_CONTENTS = 4,           /* a NULL, OCTET STRING, BIT STRING or INTEGER with contents against the rules */
    RCH_OCTETS_LEFT = 5,        /* octets after the last allowed element */
    RCH_AFI = 6,                /* an address family that is neither IPv4 nor IPv6 */
    RCH_FAMILY_ORDER = 7,       /* a family that is not above the one before */
    RCH_EMPTY_LIST = 8,         /* an empty list, or ASIdentifiers with no member */
    RCH_RANGE_FORM = 9,         /* a range that is not in its one form */
    RCH_ELEMENT_ORDER = 10,     /* an element that is not more than 1 past the one before */
    RCH_ROW_COUNT = 11,         /* row 513 */
    RCH_CERTIFICATE_COUNT = 12, /* no certificate, or more than 8 */
    RCH_ISSUER_LACKS = 13,      /* an extension is carried that the issuer has not */
    RCH_NOTHING_TO_INHERIT = 14,/* inherit, and the issuer has no such space, or there is no issuer */
    RCH_NOT_HELD = 15,          /* a number is held that the issuer does not hold */
    RCH_TABLE_SHORT = 16,       /* a lent table or reply is too short */
    RCH_MARK = 17,              /* the bundle's mark or version differs */
    RCH_FRAMING = 18,           /* the bundle's length is outside its limits, it is cut short, or octets are over */
    RCH_NOT_A_TABLE = 19,       /* what is to be written is not a table of that kind */
    RCH_OUTPUT_SHORT = 20       /* the output is shorter than the encoding */
};

/*
 * Each function returns the number of its reply. The reply is written to the first nine numbers of `reply`, later ones are unchanged.
 * If reply_len is below 9, RCH_TABLE_SHORT is returned and nothing at all changes.
 * On acceptance certificate, extension, place, space and value are 0. A refusal reports 0 rows, octets and pairs.
 */

/*
 * Reads an IPAddrBlocks value (the octets inside extnValue) into `table`.
 * The first 3,072 numbers of the table are then the rows and after them zeros; all zeros on a refusal; later numbers are unchanged.
 * If the table is shorter (RCH_TABLE_SHORT), it is unchanged.
 */
uint64_t rch_read_ip(const uint8_t *value, size_t value_len, uint64_t *table, size_t table_len, uint64_t *reply, size_t reply_len);

/* Reads an ASIdentifiers value, in the same way. */
uint64_t rch_read_as(const uint8_t *value, size_t value_len, uint64_t *table, size_t table_len, uint64_t *reply, size_t reply_len);

/*
 * Writes the one encoding of a table: kind 1 IPAddrBlocks, 2 ASIdentifiers; rows_len numbers, six a row.
 * Only the octets that are reported are changed in `out`; a refusal changes none.
 */
uint64_t rch_write(uint64_t kind, const uint64_t *rows, size_t rows_len, uint8_t *out, size_t out_len, uint64_t *reply, size_t reply_len);

/*
 * Checks the path of a bundle. `first` is left with the rows of the last certificate, after inheritance, and then zeros (all zeros on a refusal),
 * the first 3,072 numbers of `second` with zeros; later numbers of both are unchanged. If either is too short (RCH_TABLE_SHORT), both are unchanged.
 */
uint64_t rch_path(const uint8_t *bundle, size_t bundle_len, uint64_t *first, size_t first_len, uint64_t *second, size_t second_len, uint64_t *reply, size_t reply_len);

/*
 * Reads one certificate's two values, IP rows then AS rows, an empty value being absent, into `table` (as rch_read_ip does), and says which octets are at fault:
 * RCH_SPACE 1 or 2 for the IP or the AS value, RCH_UPPER and RCH_LOWER where they start and end. They are 1, 0, 0 if there are none: on acceptance, and for the refusals 1, 11 and 16.
 */
uint64_t rch_fault(const uint8_t *ip, size_t ip_len, const uint8_t *as, size_t as_len, uint64_t *table, size_t table_len, uint64_t *reply, size_t reply_len);

#ifdef __cplusplus
}
#endif

#endif
