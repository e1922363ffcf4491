/* Cizasmok's option resolver, for C and C++: link crates/optc/out/liboptc.a, which `rt lib` in crates/optc writes (x86-64 Linux; it
 * needs nothing but the C library's memset and memcpy).
 *
 * A slice is a pointer and, right behind it, how many elements it has (not bytes). NULL with a count of 0 is allowed everywhere and means
 * no elements; with any other count the pointer has to lead to that many elements, which `words` want aligned as uint32_t is. Inputs are
 * only read. `out` is lent memory: it may not overlap an input, a refusal and Absent leave it as it was, and on OPT_DONE the elements from
 * its start on, `length` of them, are written, and no others. No call keeps a pointer, allocates, or holds anything between calls, so any
 * number of threads may call at once. Leave 64 KB of stack: 42 KB were measured of opt_clean, 18 KB of opt_resolve, less of the others.
 *
 * Every input has an answer: nothing is asked of sheets, requests, names or bytes, well-formed or not. What each call answers is proved of
 * the code behind it (docs/PROMISES.md); that the declarations below are those of the code is tested by runs, and not proved. */
#ifndef CIZASMOK_OPT_H
#define CIZASMOK_OPT_H

#include <stddef.h>
#include <stdint.h>

#ifdef __cplusplus
extern "C" {
#endif

/* Replies: why a call is refused. docs/RULES.md, [REPLY-1], has the sentence behind each. */
enum opt_reply {
    OPT_DONE = 0,                                    /* answered: `length` elements, or Absent where `absent` is 1 */
    OPT_BAD_SHEET = 1,                               /* the sheet is malformed */
    OPT_BAD_REQUEST = 2,                             /* the request, a path, a name or a list of words is malformed */
    OPT_BEYOND_LIMIT = 3,                            /* an input is longer, deeper or has more than is allowed */
    OPT_EXTENSION_NOT_FOUND = 4,                     /* no scope at a candidate path declares an extension of that name */
    OPT_WRONG_EXTENSION_TYPE = 5,                    /* the extension that is found first extends another message */
    OPT_EXTENSION_IS_NOT_MESSAGE = 6,                /* the name goes on inside something that is no message */
    OPT_MESSAGE_NOT_FOUND = 7,                       /* no message, or enum, has that full name */
    OPT_MESSAGE_FOUND_MORE_THAN_ONCE = 8,            /* more than one has it */
    OPT_UNKNOWN_FIELD_NAME = 9,                      /* the message has no field of that name */
    OPT_BUILTIN_OPTION_NOT_FOUND = 10,               /* the options type has no such field; with `second` 1 it is
                                                        BuiltinOptionPointsToNonSingularField: the field is repeated */
    OPT_MESSAGE_FIELD_REQUIRES_MESSAGE_CONSTANT = 11, /* a message constant on something that is no message */
    OPT_UNSUPPORTED_EXTENSION_TYPE = 12,             /* the constant does not fit the type */
    OPT_UNKNOWN_ENUM_VALUE = 13,                     /* the enum has no value of that name */
    OPT_VALUE_RANGE = 14,                            /* the type does not hold that integer */
    OPT_STR_LIT_DECODE_ERROR = 15,                   /* a string is not UTF-8 */
    OPT_RANGE_END = 16,                              /* the end of a range has no successor */
    OPT_NO_ROOM = 17,                                /* all else has passed, and `out` is too short */
    OPT_BAD_BYTES = 18,                              /* the option bytes are malformed */
    OPT_WIRE_MISMATCH = 19                           /* a known number on another wire type than its type's */
};

/* Stands in `option` and `part` where there is no position. */
enum { OPT_NOWHERE = 65535 };

/* What every call returns. */
struct opt_answer {
    uint32_t reply;  /* an enum opt_reply */
    uint32_t second; /* 1 for BuiltinOptionPointsToNonSingularField, and for the yes of opt_clean and opt_contained; else 0 */
    uint32_t absent; /* 1 where there is nothing to answer: no options, or no record that a query's name leads to; else 0 */
    uint32_t length; /* how many elements of `out` were written; of opt_payload the payload's length; 0 on a refusal */
    uint32_t option; /* which option of the request was refused, from 0, or OPT_NOWHERE */
    uint32_t part;   /* which part of its name, or of a query's, from 0, or OPT_NOWHERE */
};

/* Most elements that a call writes, whatever its input. */
enum {
    OPT_MOST_OPTION_BYTES = 65536, /* of opt_resolve */
    OPT_FOUND_WORDS = 10,          /* of opt_find */
    OPT_RECORD_WORDS = 8,          /* of opt_query; so many for each option byte are enough for opt_list */
    OPT_MOST_WORDS = 4096          /* of opt_ranges, opt_fields, opt_fields_by */
};

/* Tests the form of a sheet: OPT_DONE, or its first fault from the front (OPT_BAD_SHEET, OPT_BEYOND_LIMIT). */
struct opt_answer opt_sheet(const uint8_t *sheet, size_t sheet_count);

/* Tests the form of a request: OPT_DONE, or its first fault from the front (OPT_BAD_REQUEST, OPT_BEYOND_LIMIT). */
struct opt_answer opt_request(const uint8_t *request, size_t request_count);

/* Writes the bytes of a request's options under a sheet; of a refused option `option` and `part` say where. Absent: it has no options. */
struct opt_answer opt_resolve(const uint8_t *sheet, size_t sheet_count,
                              const uint8_t *request, size_t request_count,
                              uint8_t *out, size_t out_count);

/* Writes ten words of the extension that a path, which may lead with a dot, finds in a scope: file index; place and length of its name and
 * of its extendee in the sheet; number, type, label; place and length of its type path. */
struct opt_answer opt_find(const uint8_t *sheet, size_t sheet_count,
                           const uint8_t *scope, size_t scope_count,
                           const uint8_t *path, size_t path_count,
                           uint32_t *out, size_t out_count);

/* Writes eight words for each record of option bytes under an options type: level, number, type (0 unknown), wire type, place and length of
 * the payload in the bytes, value low, value high. */
struct opt_answer opt_list(const uint8_t *sheet, size_t sheet_count,
                           const uint8_t *options_type, size_t options_type_count,
                           const uint8_t *bytes, size_t bytes_count,
                           uint32_t *out, size_t out_count);

/* Writes the eight words of the record that a name leads to in option bytes. The name is parts as an option has them, 1A a field and 1B an
 * extension: 1B 000B plant.order. Absent: there is no such record. */
struct opt_answer opt_query(const uint8_t *sheet, size_t sheet_count,
                            const uint8_t *options_type, size_t options_type_count,
                            const uint8_t *name, size_t name_count,
                            const uint8_t *bytes, size_t bytes_count,
                            uint32_t *out, size_t out_count);

/* Whether a place and a length lie in option bytes: OPT_DONE and the length, OPT_BAD_REQUEST, or OPT_BEYOND_LIMIT for over-long bytes. */
struct opt_answer opt_payload(const uint8_t *bytes, size_t bytes_count, uint64_t place, uint64_t length);

/* The payload itself, no copy: where in `bytes` it stands; NULL exactly where opt_payload refuses. */
static inline const uint8_t *opt_payload_part(const uint8_t *bytes, size_t bytes_count, uint64_t place, uint64_t length)
{
    static const uint8_t none[1] = {0}; /* stands for no bytes at NULL */
    if (opt_payload(bytes, bytes_count, place, length).reply != OPT_DONE)
        return NULL;
    return bytes ? bytes + place : none;
}

/* Lowers ranges, a start and an end in turn, of a kind: 0 extension ranges, 1 a message's reserved ones, 2 an enum's. */
struct opt_answer opt_ranges(uint32_t kind,
                             const int32_t *words, size_t words_count,
                             int32_t *out, size_t out_count);

/* Gives fields their oneofs. Words: 0 a plain field, 1 a proto3 optional, 2 a oneof opens, 3 its member; for each 0, 1 and 3 one word
 * comes back, 0 for no oneof, else its index and 1. */
struct opt_answer opt_fields(const uint32_t *words, size_t words_count, uint32_t *out, size_t out_count);

/* The same in a numbering of the oneofs: 0 in order of declaration, as opt_fields has it, 1 those of proto3 optional fields after all
 * others, as the notes on proto3 presence ask. Another is OPT_BAD_REQUEST. A field has the same oneof in both, with another index. */
struct opt_answer opt_fields_by(uint32_t numbering,
                                const uint32_t *words, size_t words_count,
                                uint32_t *out, size_t out_count);

/* Whether a sheet is clean (no name and no number declared twice, every path names one thing): `second` is 1 for yes. */
struct opt_answer opt_clean(const uint8_t *sheet, size_t sheet_count);

/* Whether an older sheet is contained in a newer one: `second` is 1 for yes. Where both are clean besides, what opt_resolve writes under
 * the newer opt_list reads under the older, where that declares the options type, and misreads nothing. */
struct opt_answer opt_contained(const uint8_t *older, size_t older_count,
                                const uint8_t *newer, size_t newer_count);

/* ---- the same calls for a sheet that opt_sheet found fine: they leave that test out, which is most of the work of one call, and answer
 * alike. Of any other sheet they answer too, and stay in bounds, but not with that sheet's fault. */

/* As opt_resolve, of a tested sheet. */
struct opt_answer opt_resolve_tested(const uint8_t *sheet, size_t sheet_count,
                                     const uint8_t *request, size_t request_count,
                                     uint8_t *out, size_t out_count);

/* As opt_find, of a tested sheet. */
struct opt_answer opt_find_tested(const uint8_t *sheet, size_t sheet_count,
                                  const uint8_t *scope, size_t scope_count,
                                  const uint8_t *path, size_t path_count,
                                  uint32_t *out, size_t out_count);

/* As opt_list, of a tested sheet. */
struct opt_answer opt_list_tested(const uint8_t *sheet, size_t sheet_count,
                                  const uint8_t *options_type, size_t options_type_count,
                                  const uint8_t *bytes, size_t bytes_count,
                                  uint32_t *out, size_t out_count);

/* As opt_query, of a tested sheet. */
struct opt_answer opt_query_tested(const uint8_t *sheet, size_t sheet_count,
                                   const uint8_t *options_type, size_t options_type_count,
                                   const uint8_t *name, size_t name_count,
                                   const uint8_t *bytes, size_t bytes_count,
                                   uint32_t *out, size_t out_count);

#ifdef __cplusplus
}
#endif

#endif
