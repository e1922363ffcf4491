/* Makes the calls of liboptc.a for compare/library.py, and watches memory and room.
 *
 * usage: driver [blocks] < cases > answers
 *
 * It knows nothing of what a call answers. What it sees to follows from include/opt.h alone: inputs are only read; of `out` the answer's
 * elements are written and nothing else, nothing at all where the answer is a refusal or Absent; a room that is shorter than the answer is
 * NoRoom; the same inputs give the same answer, wherever they lie; of a fine sheet the tested form answers alike.
 *
 * A case is a call and how many inputs it has (32 bits each), two numbers (64 bits each), and each input as its length (32 bits) and bytes.
 * Its answer is the six numbers, how many bytes its elements have and how many a text has (32 bits each), the elements and the text, which
 * says what was wrong, or is empty. Behind the last answer stand lines with what was counted. Numbers are the machine's own.
 *
 * Memory is seen through views of one file, each between two pages that trap: `open` may be written, `sealed` may not, and of `half` only
 * the first half. Inputs lie in sealed ones. A call is made with memory at the end of its views, right before a page that traps, and at
 * their start, right behind one; `out` is filled first, at the two places with bytes that are each other's complement. Rooms that are too
 * short, and those of a call that writes nothing, are lent open and sealed; rooms that are longer than the answer in `half`, so that what
 * is past the answer cannot be written. An access that traps ends the run with status 70 and a line on standard error.
 *
 * With `blocks` all memory comes from malloc, as long as it has to be and no longer, and `out` is left as it came: for valgrind. */
#define _GNU_SOURCE
#include <opt.h>
#include <signal.h>
#include <stdio.h>
#include <stdlib.h>
#include <string.h>
#include <sys/mman.h>
#include <ucontext.h>
#include <unistd.h>

enum call { SHEET, REQUEST, RESOLVE, FIND, LIST, QUERY, PAYLOAD, RANGES, FIELDS, FIELDS_BY, CLEAN, CONTAINED, CALLS };
enum view { OPEN, SEALED, HALF, VIEWS };
enum place { AT_END, AT_START };
enum { PAGE = 4096, INPUTS = 4, INPUT_SIZE = 64 * PAGE, OUT_SIZE = 640 * PAGE, REPLIES = 20, TRAPPED = 70 };
/* Work, as rooms by bytes of input, up to which every room is tried; valgrind is slower. */
enum { MOST_WORK = 70000000, MOST_IN_BLOCKS = 70000 };

static const char *const CALL[CALLS] = {"sheet", "request", "resolve", "find", "list", "query", "payload", "ranges", "fields", "fields_by",
                                        "clean", "contained"};
static const char *const VIEW[VIEWS] = {"open", "sealed", "half"}, *const PLACE[2] = {"end", "start"};
/* Bytes of an element of `out`; none where nothing is lent. */
static const size_t WIDTH[CALLS] = {[RESOLVE] = 1, [FIND] = 4, [LIST] = 4, [QUERY] = 4, [RANGES] = 4, [FIELDS] = 4, [FIELDS_BY] = 4};
static const struct opt_answer NO_ROOM = {OPT_NO_ROOM, 0, 0, 0, OPT_NOWHERE, OPT_NOWHERE};
static const uint8_t FILL[2] = {0xA5, 0x5A};

struct trial {
    int tested;
    enum view view;
    enum place place;
    size_t room;
};

/* What the first call of a form answered. `length` counts what it wrote to `out`, `shown` bytes are handed on. */
struct known {
    int taken;
    struct opt_answer answer;
    size_t length, shown;
    uint8_t *elements;
};

static struct {
    uint32_t call, inputs;
    uint64_t number[2];
    uint32_t bytes[INPUTS];
    uint8_t *given[INPUTS], *block[INPUTS];
} asked;
static uint8_t *input[INPUTS][VIEWS], *lent[VIEWS], *out;
static struct trial now;
static size_t cases;
static int blocks;
static char wrong[400];
static unsigned long long replies[CALLS][2][REPLIES], views[VIEWS][2], rooms[5], empty[2], whole[2], twice[2];

static _Noreturn void fail(const char *what)
{
    fprintf(stderr, "driver: %s, case %zu\n", what, cases);
    exit(2);
}

/* ---- memory */
static uint8_t *view_of(int file, size_t size, size_t writable)
{
    uint8_t *at = mmap(NULL, size + 2 * PAGE, PROT_NONE, MAP_PRIVATE | MAP_ANONYMOUS, -1, 0);
    if (at == MAP_FAILED || mmap(at + PAGE, size, PROT_READ, MAP_SHARED | MAP_FIXED, file, 0) == MAP_FAILED)
        fail("no memory");
    if (writable && mprotect(at + PAGE, writable, PROT_READ | PROT_WRITE))
        fail("no memory that can be written");
    return at + PAGE;
}

static void map(uint8_t **of, size_t size)
{
    const size_t writable[VIEWS] = {[OPEN] = size, [SEALED] = 0, [HALF] = size / 2};
    int file = memfd_create("driver", 0);
    if (file < 0 || ftruncate(file, (off_t)size))
        fail("no file in memory");
    for (int view = OPEN; view < VIEWS; view++)
        of[view] = view_of(file, size, writable[view]);
    close(file);
}

/* Where an input is lent. One that is empty is the page that traps, or NULL. */
static const void *from(int i, enum place place)
{
    if (place == AT_START && asked.bytes[i] == 0)
        return NULL;
    if (blocks)
        return asked.block[i];
    return place == AT_START ? input[i][SEALED] : input[i][SEALED] + INPUT_SIZE - asked.bytes[i];
}

static int all_are(const uint8_t *at, size_t many, uint8_t fill)
{
    return many == 0 || (at[0] == fill && memcmp(at, at + 1, many - 1) == 0);
}

/* ---- what was wrong */
static const char *form(void)
{
    return now.tested ? "_tested" : "";
}

static void amiss(const char *what, struct opt_answer got)
{
    if (!wrong[0])
        snprintf(wrong, sizeof wrong, "%s: opt_%s%s, room %zu, %s, at the %s: %u %u %u %u %u %u", what, CALL[asked.call], form(), now.room,
                 VIEW[now.view], PLACE[now.place], got.reply, got.second, got.absent, got.length, got.option, got.part);
}

static int inside(const uint8_t *at, const uint8_t *view, size_t size)
{
    return at >= view - PAGE && at < view + size + PAGE;
}

static void trapped(int number, siginfo_t *info, void *context)
{
    const uint8_t *at = info->si_addr;
    const char *how = ((ucontext_t *)context)->uc_mcontext.gregs[REG_ERR] & 2 ? "written" : "read";
    char where[64];
    snprintf(where, sizeof where, "at %p", (const void *)at);
    for (int i = 0; i < INPUTS; i++)
        if (inside(at, input[i][SEALED], INPUT_SIZE))
            snprintf(where, sizeof where, "input %d, byte %td of %u", i, at - (const uint8_t *)from(i, now.place), asked.bytes[i]);
    for (int view = OPEN; view < VIEWS; view++)
        if (inside(at, lent[view], OUT_SIZE))
            snprintf(where, sizeof where, "out, byte %td", at - out);
    fprintf(stderr, "trapped: case %zu: signal %d, %s, %s: opt_%s%s, room %zu, %s, at the %s\n", cases, number, how, where,
            CALL[asked.call], form(), now.room, VIEW[now.view], PLACE[now.place]);
    _exit(TRAPPED);
}

static void watch(void)
{
    static uint8_t stack[16 * PAGE];
    stack_t own = {.ss_sp = stack, .ss_size = sizeof stack};
    struct sigaction action = {.sa_sigaction = trapped, .sa_flags = SA_SIGINFO | SA_ONSTACK};
    if (sigaltstack(&own, NULL) || sigaction(SIGSEGV, &action, NULL) || sigaction(SIGBUS, &action, NULL))
        fail("no signals");
}

/* ---- calls */
static struct opt_answer ask_under_sheet(const void *const *at, const uint32_t *bytes, uint8_t *to)
{
    void *words = to;
    switch (asked.call) {
    case RESOLVE:
        return (now.tested ? opt_resolve_tested : opt_resolve)(at[0], bytes[0], at[1], bytes[1], to, now.room);
    case FIND:
        return (now.tested ? opt_find_tested : opt_find)(at[0], bytes[0], at[1], bytes[1], at[2], bytes[2], words, now.room);
    case LIST:
        return (now.tested ? opt_list_tested : opt_list)(at[0], bytes[0], at[1], bytes[1], at[2], bytes[2], words, now.room);
    default:
        return (now.tested ? opt_query_tested : opt_query)(at[0], bytes[0], at[1], bytes[1], at[2], bytes[2], at[3], bytes[3], words,
                                                           now.room);
    }
}

static struct opt_answer ask(uint8_t *to)
{
    const void *at[INPUTS];
    for (uint32_t i = 0; i < asked.inputs; i++) {
        at[i] = from((int)i, now.place);
        empty[at[i] == NULL] += asked.bytes[i] == 0;
    }
    void *words = to;
    switch (asked.call) {
    case SHEET:
        return opt_sheet(at[0], asked.bytes[0]);
    case REQUEST:
        return opt_request(at[0], asked.bytes[0]);
    case PAYLOAD:
        return opt_payload(at[0], asked.bytes[0], asked.number[0], asked.number[1]);
    case RANGES:
        return opt_ranges((uint32_t)asked.number[0], at[0], asked.bytes[0] / 4, words, now.room);
    case FIELDS:
        return opt_fields(at[0], asked.bytes[0] / 4, words, now.room);
    case FIELDS_BY:
        return opt_fields_by((uint32_t)asked.number[0], at[0], asked.bytes[0] / 4, words, now.room);
    case CLEAN:
        return opt_clean(at[0], asked.bytes[0]);
    case CONTAINED:
        return opt_contained(at[0], asked.bytes[0], at[1], asked.bytes[1]);
    default:
        return ask_under_sheet(at, asked.bytes, to);
    }
}

/* The most elements that a call writes, by the header; a record of a listing has two bytes at least. */
static size_t most(void)
{
    const size_t by_call[CALLS] = {[RESOLVE] = OPT_MOST_OPTION_BYTES,
                                   [FIND] = OPT_FOUND_WORDS,
                                   [LIST] = asked.bytes[2] / 2 * OPT_RECORD_WORDS,
                                   [QUERY] = OPT_RECORD_WORDS,
                                   [RANGES] = OPT_MOST_WORDS,
                                   [FIELDS] = OPT_MOST_WORDS,
                                   [FIELDS_BY] = OPT_MOST_WORDS};
    const size_t many = by_call[asked.call], words = asked.bytes[0] / 4;
    const int lowers = asked.call == RANGES || asked.call == FIELDS || asked.call == FIELDS_BY;
    return lowers && words < many ? words : many;
}

static void take(struct known *k, struct opt_answer got, const uint8_t *own)
{
    k->taken = 1;
    k->answer = got;
    k->length = WIDTH[asked.call] ? got.length : 0;
    if (k->length > now.room || ((got.reply || got.absent) && got.length)) {
        amiss("a length that cannot be", got);
        k->length = 0;
    }
    k->shown = k->length * WIDTH[asked.call];
    memcpy(k->elements, own, k->shown);
}

/* The part that the header makes of a payload's answer is read, and handed on as if it were written. */
static void read_part(struct known *k, struct opt_answer got)
{
    const uint8_t *bytes = from(0, now.place);
    const uint8_t *part = opt_payload_part(bytes, asked.bytes[0], asked.number[0], asked.number[1]);
    const int right = !part ? got.reply != OPT_DONE : got.reply == OPT_DONE && (!bytes || part == bytes + asked.number[0]);
    if (!right)
        amiss("another part", got);
    else if (part && k->shown == 0)
        memcpy(k->elements, part, k->shown = got.length);
    else if (part && memcmp(k->elements, part, k->shown))
        amiss("another payload", got);
}

static void count(struct known *k, struct opt_answer got)
{
    replies[asked.call][now.tested][got.reply < REPLIES - 1 ? got.reply : REPLIES - 1]++;
    views[now.view][now.place]++;
    if (k->taken && WIDTH[asked.call])
        rooms[!k->length ? 4 : now.room < k->length ? 0 : now.room == k->length ? 1 : now.room == k->length + 1 ? 2 : 3]++;
}

/* Makes a call. The first answer of a form is kept: every other has to be the same, or NoRoom where the room is shorter. */
static void make(struct known *k, int tested, enum view view, enum place place, size_t room)
{
    if (blocks && view == SEALED)
        return;
    now = (struct trial){tested, view, place, room};
    const size_t width = WIDTH[asked.call], bytes = room * width;
    const int watched = width && !blocks;
    const size_t at = view == HALF ? OUT_SIZE / 2 - k->length * width : place == AT_START ? 0 : OUT_SIZE - bytes;
    const size_t low = at < PAGE ? 0 : PAGE, high = at + bytes + PAGE > OUT_SIZE ? 0 : PAGE;
    uint8_t *own = blocks ? malloc(bytes) : lent[OPEN] + at;
    out = bytes == 0 && place == AT_START ? NULL : blocks ? own : lent[view] + at;
    if (watched)
        memset(own - low, FILL[place], low + bytes + high);
    struct opt_answer got = ask(out);
    count(k, got);
    if (!k->taken)
        take(k, got, own);
    else if (memcmp(&got, room < k->length ? &NO_ROOM : &k->answer, sizeof got))
        amiss("another answer", got);
    if (asked.call == PAYLOAD)
        read_part(k, got);
    const size_t written = room < k->length ? 0 : k->length * width;
    if (memcmp(own, k->elements, written))
        amiss("other elements", got);
    if (watched && !all_are(own - low, low, FILL[place]))
        amiss("written before `out`", got);
    if (watched && !all_are(own + written, bytes - written + high, FILL[place]))
        amiss("written past the answer", got);
    if (blocks)
        free(own);
}

/* ---- rooms */
static int chosen(size_t room, size_t length)
{
    const size_t few = blocks ? 4 : 64;
    if (room < few || length - room <= few || (!blocks && (room & (room - 1)) == 0))
        return 1;
    return (uint32_t)room * 2654435761u % (uint32_t)length < 16;
}

/* All calls of a form. */
static void explore(struct known *k, int tested)
{
    const size_t enough = most();
    make(k, tested, OPEN, AT_END, enough);
    make(k, tested, OPEN, AT_START, enough);
    const size_t length = k->length, work = length * (asked.bytes[0] + asked.bytes[1] + asked.bytes[2] + asked.bytes[3]);
    const int every = work <= (blocks ? MOST_IN_BLOCKS : MOST_WORK);
    for (size_t room = 0; room < length; room++)
        for (int place = AT_END; place <= AT_START && (every || chosen(room, length)); place++) {
            make(k, tested, OPEN, place, room);
            make(k, tested, SEALED, place, room);
        }
    whole[!every] += length > 0;
    for (int place = AT_END; WIDTH[asked.call] && place <= AT_START; place++) {
        make(k, tested, OPEN, place, length);
        for (size_t more = 1; more <= 64; more *= 64)
            make(k, tested, HALF, place, length + more);
        for (size_t room = 0; length == 0 && room < 3; room++)
            make(k, tested, SEALED, place, room < 2 ? room : enough);
    }
    make(k, tested, OPEN, AT_END, enough);
}

static void explore_case(struct known *k)
{
    const int has_tested = asked.call >= RESOLVE && asked.call <= QUERY;
    const int fine = has_tested && opt_sheet(from(0, AT_END), asked.bytes[0]).reply == OPT_DONE;
    explore(&k[0], 0);
    if (has_tested)
        explore(&k[1], 1);
    twice[!fine] += (unsigned)has_tested;
    if (fine && (memcmp(&k[0].answer, &k[1].answer, sizeof k[0].answer) || memcmp(k[0].elements, k[1].elements, k[0].shown)))
        amiss("the tested form answers otherwise", k[1].answer);
    for (uint32_t i = 0; i < asked.inputs; i++)
        if (memcmp(from((int)i, AT_END), asked.given[i], asked.bytes[i]))
            amiss("an input was changed", k[0].answer);
}

/* ---- cases */
static int read_case(void)
{
    if (fread(&asked, 1, 24, stdin) != 24)
        return 0;
    if (asked.call >= CALLS || asked.inputs > INPUTS)
        fail("no such call");
    memset(asked.bytes, 0, sizeof asked.bytes);
    for (uint32_t i = 0; i < asked.inputs; i++) {
        if (fread(&asked.bytes[i], 4, 1, stdin) != 1 || asked.bytes[i] > INPUT_SIZE / 2)
            fail("a length that cannot be");
        asked.given[i] = malloc(asked.bytes[i]);
        asked.block[i] = malloc(asked.bytes[i]);
        if (fread(asked.given[i], 1, asked.bytes[i], stdin) != asked.bytes[i])
            fail("a case that is cut");
        memcpy(asked.block[i], asked.given[i], asked.bytes[i]);
        if (!blocks) {
            memcpy(input[i][OPEN], asked.given[i], asked.bytes[i]);
            memcpy(input[i][OPEN] + INPUT_SIZE - asked.bytes[i], asked.given[i], asked.bytes[i]);
        }
    }
    return 1;
}

static void answer_case(const struct known *k)
{
    const uint32_t sizes[2] = {(uint32_t)k->shown, (uint32_t)strlen(wrong)};
    fwrite(&k->answer, sizeof k->answer, 1, stdout);
    fwrite(sizes, sizeof sizes, 1, stdout);
    fwrite(k->elements, 1, sizes[0], stdout);
    fwrite(wrong, 1, sizes[1], stdout);
    for (uint32_t i = 0; i < asked.inputs; i++) {
        free(asked.given[i]);
        free(asked.block[i]);
    }
    wrong[0] = 0;
    cases++;
}

static void print_counts(void)
{
    static const char *const ROOM[5] = {"short", "exact", "one more", "more", "of an answer without elements"};
    for (int call = 0; call < CALLS; call++)
        for (int tested = 0; tested < 2; tested++)
            for (int reply = 0; reply < REPLIES; reply++)
                printf("calls\t%s%s\t%d\t%llu\n", CALL[call], tested ? "_tested" : "", reply, replies[call][tested][reply]);
    for (int view = OPEN; view < VIEWS; view++)
        for (int place = AT_END; place <= AT_START; place++)
            printf("placed\t%s\t%s\t%llu\n", VIEW[view], PLACE[place], views[view][place]);
    for (int i = 0; i < 5; i++)
        printf("rooms\t%s\t\t%llu\n", ROOM[i], rooms[i]);
    for (int i = 0; i < 2; i++) {
        printf("empty inputs\t%s\t\t%llu\n", i ? "NULL" : "at a page that traps", empty[i]);
        printf("answers\t%s\t\t%llu\n", i ? "in some rooms" : "in every room", whole[i]);
        printf("tested forms\t%s\t\t%llu\n", i ? "of a sheet that is not fine" : "answered alike", twice[i]);
    }
}

int main(int many, char **words)
{
    blocks = many > 1 && strcmp(words[1], "blocks") == 0;
    struct known k[2] = {{.elements = malloc(OUT_SIZE)}, {.elements = malloc(OUT_SIZE)}};
    if (!blocks) {
        for (int i = 0; i < INPUTS; i++)
            map(input[i], INPUT_SIZE);
        map(lent, OUT_SIZE);
        watch();
    }
    while (read_case()) {
        k[0].taken = k[1].taken = 0;
        k[0].length = k[1].length = k[0].shown = k[1].shown = 0;
        explore_case(k);
        answer_case(&k[0]);
    }
    print_counts();
    return fflush(stdout) ? 2 : 0;
}
