/* The story's option from C: which bytes (order) and (.plant.order) set on a field of plant.Dispatch, and why (order) is refused in a
 * schema with a mistake. examples/lower.hex has the three cases, a sheet and a request each. From the root of the repository:
 *
 *     (cd crates/optc && rt lib)
 *     mkdir -p target
 *     cc -Iinclude -o target/order examples/order.c crates/optc/out/liboptc.a
 *     target/order < examples/lower.hex
 */
#include <opt_words.h>
#include <stdio.h>

struct slice {
    const uint8_t *start;
    size_t count;
};

static uint8_t input[4096];

/* The payload of the field at a place, which is moved behind it: a tag, two bytes of length, the payload. */
static struct slice next_field(size_t *at)
{
    struct slice payload = {input + *at + 3, (size_t)input[*at + 1] * 256 + input[*at + 2]};
    *at += 3 + payload.count;
    return payload;
}

static void resolve(struct slice sheet, struct slice request)
{
    uint8_t out[64];
    struct opt_answer answer = opt_resolve(sheet.start, sheet.count, request.start, request.count, out, sizeof out);
    if (answer.reply != OPT_DONE)
        printf(" refused at option %u, part %u of its name: %s (%u %s)", (unsigned)answer.option, (unsigned)answer.part,
               opt_reply_words(answer), (unsigned)answer.reply, opt_reply_name(answer));
    for (uint32_t i = 0; i < answer.length; i++)
        printf(" %02X", (unsigned)out[i]);
    printf("\n");
}

int main(void)
{
    static const char *const titles[] = {"(order) sets:", "(.plant.order) sets:", "in the mistaken schema, (order) is"};
    size_t count = 0, at = 0;
    for (unsigned byte; count < sizeof input && scanf("%2x", &byte) == 1; count++)
        input[count] = (uint8_t)byte;
    for (int i = 0; i < 3 && at < count; i++) {
        struct slice sheet = next_field(&at), request = next_field(&at);
        printf("%s", titles[i]);
        resolve(sheet, request);
    }
    return 0;
}
