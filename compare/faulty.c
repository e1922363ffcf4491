/* Bends one thing of liboptc.a at a time, for `python3 compare/library.py faults`: calls of the driver come here first (the linker's
 * --wrap), and from here to the library. FAULT in the environment is the number of the fault, as they stand below; 0 is none. */
#include <opt.h>
#include <stdlib.h>

enum fault {
    NONE,
    PAST_ANSWER,     /* resolve writes a byte past its answer */
    PAST_ROOM,       /* fields writes a word past its room */
    BEFORE_OUT,      /* find writes a word before its room */
    NOT_WRITTEN,     /* query leaves the last word of its answer as it was */
    BACK_REFUSED,    /* resolve writes on a refusal, and puts back what was there */
    BACK_ABSENT,     /* resolve writes on Absent, and puts back what was there */
    BACK_NO_ROOM,    /* list writes on NoRoom, and puts back what was there */
    BACK_PAST,       /* ranges writes past its answer, and puts back what was there */
    INPUT_CHANGED,   /* resolve writes to its request what stands there */
    READ_PAST,       /* sheet reads a byte past the sheet */
    READ_BEFORE,     /* request reads a byte before the request */
    READ_UNFINE,     /* resolve_tested reads past a sheet that is not fine */
    SHORT_DONE,      /* list answers a room that is too short with done */
    ROOM_EARLY,      /* resolve answers a room that is just enough with NoRoom */
    LENGTH_MORE,     /* resolve gives a length that is one more */
    PART_MORE,       /* resolve gives the part after the one that is refused */
    OPTION_LESS,     /* resolve counts options from 1 */
    SECOND_LOST,     /* resolve loses the second word */
    ABSENT_AS_DONE,  /* resolve answers Absent as no bytes */
    QUERY_PART_LOST, /* query loses the part that is refused */
    PLACE_MORE,      /* find gives the place of the type path one further on */
    STATE_KEPT,      /* find answers with the label that it found before */
    BIT_FLIPPED,     /* list has a wrong bit in the second record's value */
    TESTED_OTHER,    /* query_tested answers the first word otherwise */
    LONG_TAKEN,      /* list takes one option byte too many, and drops it */
    SUM_WRAPS,       /* payload adds place and length in 64 bits */
    END_KEPT,        /* ranges keeps the end of an extension range */
    ONEOF_SHARED,    /* fields gives the last oneof the number before it */
    NUMBERING_OTHER, /* fields_by takes the one numbering for the other */
    EMPTY_LOST,      /* fields_by leaves a oneof without members out of the count that the synthetic ones start at */
    ALWAYS_CLEAN,    /* clean answers yes to every sheet that is fine */
    SWAPPED          /* contained takes the older for the newer */
};

#define SLICE(type, name) type *name, size_t name##_count
#define WRAPPED(name, ...)                                                                                                                \
    struct opt_answer __real_opt_##name(__VA_ARGS__);                                                                                     \
    struct opt_answer __wrap_opt_##name(__VA_ARGS__);                                                                                     \
    struct opt_answer __wrap_opt_##name(__VA_ARGS__)

static int bent(enum fault which)
{
    const char *text = getenv("FAULT");
    return text && atoi(text) == (int)which;
}

static int wrote(struct opt_answer answer)
{
    return answer.reply == OPT_DONE && answer.length > 0;
}

static void write_back(void *at)
{
    volatile uint8_t *byte = at;
    const uint8_t kept = *byte;
    *byte = kept ^ 1;
    *byte = kept;
}

static void look_at(const uint8_t *at)
{
    (void)*(const volatile uint8_t *)at;
}

WRAPPED(sheet, SLICE(const uint8_t, sheet))
{
    if (bent(READ_PAST))
        look_at(sheet + sheet_count);
    return __real_opt_sheet(sheet, sheet_count);
}

WRAPPED(request, SLICE(const uint8_t, request))
{
    if (bent(READ_BEFORE) && request_count)
        look_at(request - 1);
    return __real_opt_request(request, request_count);
}

/* What is bent of both forms alike, so that one does not give the other away. */
static void bend_resolve(struct opt_answer *answer, const uint8_t *request, uint8_t *out, size_t room)
{
    if (bent(PAST_ANSWER) && wrote(*answer) && answer->length < room)
        out[answer->length] = 0x5A;
    if (bent(BACK_REFUSED) && answer->reply != OPT_DONE && answer->reply != OPT_NO_ROOM && room)
        write_back(out);
    if (bent(BACK_ABSENT) && answer->absent && room)
        write_back(out);
    if (bent(INPUT_CHANGED) && request)
        *(volatile uint8_t *)(uintptr_t)request = request[0];
    answer->length += bent(LENGTH_MORE) && wrote(*answer);
    answer->part += bent(PART_MORE) && answer->part != OPT_NOWHERE;
    answer->option += bent(OPTION_LESS) && answer->option != OPT_NOWHERE;
    answer->second *= !bent(SECOND_LOST);
    answer->absent *= !bent(ABSENT_AS_DONE);
}

WRAPPED(resolve, SLICE(const uint8_t, sheet), SLICE(const uint8_t, request), SLICE(uint8_t, out))
{
    const size_t room = out_count - (bent(ROOM_EARLY) && out_count);
    struct opt_answer answer = __real_opt_resolve(sheet, sheet_count, request, request_count, out, room);
    bend_resolve(&answer, request_count ? request : NULL, out, out_count);
    return answer;
}

WRAPPED(resolve_tested, SLICE(const uint8_t, sheet), SLICE(const uint8_t, request), SLICE(uint8_t, out))
{
    if (bent(READ_UNFINE) && opt_sheet(sheet, sheet_count).reply != OPT_DONE)
        look_at(sheet + sheet_count);
    struct opt_answer answer = __real_opt_resolve_tested(sheet, sheet_count, request, request_count, out, out_count);
    bend_resolve(&answer, request_count ? request : NULL, out, out_count);
    return answer;
}

static void bend_find(struct opt_answer answer, uint32_t *out)
{
    static uint32_t label = 1;
    if (!wrote(answer))
        return;
    const uint32_t before = label;
    label = out[7];
    out[7] = bent(STATE_KEPT) ? before : label;
    out[8] += bent(PLACE_MORE) && out[8];
    if (bent(BEFORE_OUT))
        out[-1] = 0;
}

WRAPPED(find, SLICE(const uint8_t, sheet), SLICE(const uint8_t, scope), SLICE(const uint8_t, path), SLICE(uint32_t, out))
{
    struct opt_answer answer = __real_opt_find(sheet, sheet_count, scope, scope_count, path, path_count, out, out_count);
    bend_find(answer, out);
    return answer;
}

WRAPPED(find_tested, SLICE(const uint8_t, sheet), SLICE(const uint8_t, scope), SLICE(const uint8_t, path), SLICE(uint32_t, out))
{
    struct opt_answer answer = __real_opt_find_tested(sheet, sheet_count, scope, scope_count, path, path_count, out, out_count);
    bend_find(answer, out);
    return answer;
}

static void bend_list(struct opt_answer *answer, uint32_t *out, size_t room)
{
    if (bent(BIT_FLIPPED) && wrote(*answer) && answer->length >= 16)
        out[14] ^= 1;
    if (bent(BACK_NO_ROOM) && answer->reply == OPT_NO_ROOM && room)
        write_back(out);
    if (bent(SHORT_DONE) && answer->reply == OPT_NO_ROOM)
        *answer = (struct opt_answer){OPT_DONE, 0, 0, (uint32_t)room, OPT_NOWHERE, OPT_NOWHERE};
}

WRAPPED(list, SLICE(const uint8_t, sheet), SLICE(const uint8_t, type), SLICE(const uint8_t, bytes), SLICE(uint32_t, out))
{
    const size_t taken = bytes_count - (bent(LONG_TAKEN) && bytes_count == 65537);
    struct opt_answer answer = __real_opt_list(sheet, sheet_count, type, type_count, bytes, taken, out, out_count);
    bend_list(&answer, out, out_count);
    return answer;
}

WRAPPED(list_tested, SLICE(const uint8_t, sheet), SLICE(const uint8_t, type), SLICE(const uint8_t, bytes), SLICE(uint32_t, out))
{
    const size_t taken = bytes_count - (bent(LONG_TAKEN) && bytes_count == 65537);
    struct opt_answer answer = __real_opt_list_tested(sheet, sheet_count, type, type_count, bytes, taken, out, out_count);
    bend_list(&answer, out, out_count);
    return answer;
}

static void bend_query(struct opt_answer *answer, uint32_t *out, uint32_t last)
{
    if (bent(NOT_WRITTEN) && wrote(*answer))
        out[7] = last;
    if (bent(QUERY_PART_LOST))
        answer->part = OPT_NOWHERE;
}

WRAPPED(query, SLICE(const uint8_t, sheet), SLICE(const uint8_t, type), SLICE(const uint8_t, name), SLICE(const uint8_t, bytes),
        SLICE(uint32_t, out))
{
    const uint32_t last = out_count >= 8 ? out[7] : 0;
    struct opt_answer answer =
        __real_opt_query(sheet, sheet_count, type, type_count, name, name_count, bytes, bytes_count, out, out_count);
    bend_query(&answer, out, last);
    return answer;
}

WRAPPED(query_tested, SLICE(const uint8_t, sheet), SLICE(const uint8_t, type), SLICE(const uint8_t, name), SLICE(const uint8_t, bytes),
        SLICE(uint32_t, out))
{
    const uint32_t last = out_count >= 8 ? out[7] : 0;
    struct opt_answer answer =
        __real_opt_query_tested(sheet, sheet_count, type, type_count, name, name_count, bytes, bytes_count, out, out_count);
    bend_query(&answer, out, last);
    if (bent(TESTED_OTHER) && wrote(answer))
        out[0] ^= 1;
    return answer;
}

WRAPPED(payload, SLICE(const uint8_t, bytes), uint64_t place, uint64_t length)
{
    struct opt_answer answer = __real_opt_payload(bytes, bytes_count, place, length);
    if (bent(SUM_WRAPS) && answer.reply == OPT_BAD_REQUEST && place + length <= bytes_count)
        answer = (struct opt_answer){OPT_DONE, 0, 0, (uint32_t)length, OPT_NOWHERE, OPT_NOWHERE};
    return answer;
}

WRAPPED(ranges, uint32_t kind, SLICE(const int32_t, words), SLICE(int32_t, out))
{
    struct opt_answer answer = __real_opt_ranges(kind, words, words_count, out, out_count);
    if (bent(END_KEPT) && wrote(answer) && kind == 0)
        out[answer.length - 1]--;
    if (bent(BACK_PAST) && wrote(answer) && answer.length < out_count)
        write_back(out + answer.length);
    return answer;
}

WRAPPED(fields, SLICE(const uint32_t, words), SLICE(uint32_t, out))
{
    struct opt_answer answer = __real_opt_fields(words, words_count, out, out_count);
    if (bent(ONEOF_SHARED) && wrote(answer) && out[answer.length - 1] > 1)
        out[answer.length - 1]--;
    if (bent(PAST_ROOM) && wrote(answer))
        out[out_count] = 0;
    return answer;
}

static int has_empty(const uint32_t *words, size_t count)
{
    for (size_t i = 0; i + 1 < count; i++)
        if (words[i] == 2 && words[i + 1] != 3)
            return 1;
    return 0;
}

WRAPPED(fields_by, uint32_t numbering, SLICE(const uint32_t, words), SLICE(uint32_t, out))
{
    const uint32_t other = bent(NUMBERING_OTHER) && numbering < 2 ? 1 - numbering : numbering;
    struct opt_answer answer = __real_opt_fields_by(other, words, words_count, out, out_count);
    if (bent(EMPTY_LOST) && wrote(answer) && numbering == 1 && words[words_count - 1] == 1 && has_empty(words, words_count))
        out[answer.length - 1]--;
    return answer;
}

WRAPPED(clean, SLICE(const uint8_t, sheet))
{
    struct opt_answer answer = __real_opt_clean(sheet, sheet_count);
    answer.second |= bent(ALWAYS_CLEAN) && answer.reply == OPT_DONE;
    return answer;
}

WRAPPED(contained, SLICE(const uint8_t, older), SLICE(const uint8_t, newer))
{
    return bent(SWAPPED) ? __real_opt_contained(newer, newer_count, older, older_count)
                         : __real_opt_contained(older, older_count, newer, newer_count);
}
