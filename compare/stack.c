/* How much stack the calls of liboptc.a take: each is made on a stack that was filled before, and what is no longer as it was is counted,
 * less what a call of nothing takes there.
 *
 * usage: stack PROGRAM < cases
 *
 * The cases are an input of that program, as crates/PROGRAM/stdin: of optlower, optfind, optlist, optquery or optevolve. Printed are the
 * most bytes that each call took of them. */
#define _GNU_SOURCE
#include <opt.h>
#include <pthread.h>
#include <stdio.h>
#include <stdlib.h>
#include <string.h>
#include <sys/mman.h>

enum { STACK = 1 << 20, INPUT = 1 << 20, FIELDS = 4, FILL = 0xA7 };
enum call { NOTHING, SHEET, REQUEST, RESOLVE, FIND, LIST, QUERY, CLEAN, CONTAINED, CALLS };

static const char *const NAME[CALLS] = {"nothing", "opt_sheet", "opt_request", "opt_resolve", "opt_find", "opt_list", "opt_query",
                                        "opt_clean", "opt_contained"};

struct field {
    const uint8_t *start;
    size_t count;
};

static uint8_t input[INPUT], out[OPT_MOST_OPTION_BYTES], *stack;
static uint32_t words[OPT_MOST_OPTION_BYTES * OPT_RECORD_WORDS];
static struct field of[FIELDS];
static enum call asked;
static size_t most[CALLS];

static void *make(void *unused)
{
    switch (asked) {
    case SHEET: opt_sheet(of[0].start, of[0].count); break;
    case REQUEST: opt_request(of[1].start, of[1].count); break;
    case RESOLVE: opt_resolve(of[0].start, of[0].count, of[1].start, of[1].count, out, sizeof out); break;
    case FIND: opt_find(of[0].start, of[0].count, of[1].start, of[1].count, of[2].start, of[2].count, words, OPT_FOUND_WORDS); break;
    case LIST: opt_list(of[0].start, of[0].count, of[1].start, of[1].count, of[2].start, of[2].count, words, sizeof words / 4); break;
    case QUERY:
        opt_query(of[0].start, of[0].count, of[1].start, of[1].count, of[2].start, of[2].count, of[3].start, of[3].count, words, 8);
        break;
    case CLEAN: opt_clean(of[0].start, of[0].count); break;
    case CONTAINED: opt_contained(of[0].start, of[0].count, of[1].start, of[1].count); break;
    default: break;
    }
    return unused;
}

static void measure(enum call call)
{
    pthread_attr_t own;
    pthread_t thread;
    asked = call;
    memset(stack, FILL, STACK);
    if (pthread_attr_init(&own) || pthread_attr_setstack(&own, stack, STACK) || pthread_create(&thread, &own, make, NULL) ||
        pthread_join(thread, NULL))
        exit(2);
    size_t left = 0;
    while (left < STACK && stack[left] == FILL)
        left++;
    if (STACK - left > most[call])
        most[call] = STACK - left;
}

/* The fields of a case of that program, from a place on; where the next one starts. */
static size_t take(const char *program, size_t at)
{
    int many = !strcmp(program, "optlower") || !strcmp(program, "optevolve") ? 2 : !strcmp(program, "optquery") ? 4 : 3;
    for (int i = 0; i < many; i++) {
        of[i] = (struct field){input + at + 3, (size_t)input[at + 1] * 256 + input[at + 2]};
        at += 3 + of[i].count;
    }
    /* a request for the newer sheet */
    return !strcmp(program, "optevolve") && input[at] == 0x41 ? at + 3 + (size_t)input[at + 1] * 256 + input[at + 2] : at;
}

static void measure_case(const char *program)
{
    static const struct {
        const char *program;
        enum call call[4];
    } made[] = {{"optlower", {SHEET, REQUEST, RESOLVE, CLEAN}}, {"optfind", {FIND}}, {"optlist", {LIST}}, {"optquery", {QUERY}},
                {"optevolve", {CLEAN, CONTAINED}}};
    for (size_t i = 0; i < sizeof made / sizeof *made; i++)
        for (int k = 0; k < 4 && !strcmp(program, made[i].program) && made[i].call[k] != NOTHING; k++)
            measure(made[i].call[k]);
}

int main(int many, char **given)
{
    size_t count = 0;
    if (many != 2)
        return 2;
    for (unsigned byte; count < INPUT - 3 && scanf("%2x", &byte) == 1; count++)
        input[count] = (uint8_t)byte;
    stack = mmap(NULL, STACK, PROT_READ | PROT_WRITE, MAP_PRIVATE | MAP_ANONYMOUS, -1, 0);
    if (stack == MAP_FAILED)
        return 2;
    measure(NOTHING);
    for (size_t at = 0; at < count;) {
        at = take(given[1], at);
        measure_case(given[1]);
    }
    for (int call = SHEET; call < CALLS; call++)
        if (most[call])
            printf("%s %zu\n", NAME[call], most[call] - most[NOTHING]);
    return 0;
}
