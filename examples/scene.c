/* Reads a scene book from standard input, compiles its first scene into requests
 * to node 1, has such a node handle them, and prints the requests and the lamps.
 * From the repository's root:
 *
 *   make
 *   cc -Iinclude examples/scene.c crates/grelfint/out/libgrelfint.a -o scene
 *   ./scene < examples/evening.book */
#include <stdio.h>

#include "grelfint.h"

static const grelfint_settings settings = {.address = 1, .hwpid = 0x2471, .dpa_value = 7, .lamp_count = 3, .step = 25};
static const bool lp = false; /* an STD network */

static uint8_t book[GRELFINT_BOOK + 1]; /* one more than the longest book, so that a longer input is noticed */
static uint8_t out[GRELFINT_COMPILED];
static uint8_t eeprom[GRELFINT_EEPROM], external[GRELFINT_EXTERNAL], response[GRELFINT_RESPONSE];

/* Says why a call was refused; `step` counts for the four refusals of a step. Returns the exit status. */
static int refused(uint8_t refusal, uint8_t step)
{
    switch (refusal) {
    case GRELFINT_REFUSED_BOOK: fprintf(stderr, "scene: the input is not a scene book\n"); break;
    case GRELFINT_REFUSED_SCENE: fprintf(stderr, "scene: the book has no scenes\n"); break;
    case GRELFINT_REFUSED_STEP_KIND: fprintf(stderr, "scene: step %u: unknown kind\n", step); break;
    case GRELFINT_REFUSED_STEP_TARGET: fprintf(stderr, "scene: step %u: no such lamp or address\n", step); break;
    case GRELFINT_REFUSED_STEP_VALUE: fprintf(stderr, "scene: step %u: level over 100\n", step); break;
    case GRELFINT_REFUSED_STEP_TIME: fprintf(stderr, "scene: step %u: bad time\n", step); break;
    default: fprintf(stderr, "scene: refusal %u\n", refusal); break;
    }
    return 1;
}

static int print_lamps(grelfint_node node)
{
    grelfint_levels_answer actual = grelfint_actual_levels(node);

    if (actual.refusal != GRELFINT_OK)
        return refused(actual.refusal, 0);
    printf("lamp  level  driven  seconds\n");
    for (size_t i = 0; i < settings.lamp_count; i++)
        printf("%4zu %6u %7u %8u\n", i, node.lamps[i].level, actual.levels[i], node.lamps[i].seconds);
    return 0;
}

/* Prints a request and its timeslot; every compiled request has one. */
static void print_request(const uint8_t *request, size_t length)
{
    grelfint_slot_answer timeslot = grelfint_timeslot(length - GRELFINT_FRAME_HEADER, lp);

    printf("timeslot %d ms:", timeslot.slot * GRELFINT_SLOT_MS);
    for (size_t i = 0; i < length; i++)
        printf(" %02X", request[i]);
    printf("\n");
}

/* Has the node handle the requests in `out`, which has their number, the length of each, and the requests. Returns a
 * refusal. */
static uint8_t handle_all(grelfint_node *node)
{
    const uint8_t *lengths = out + 1, *request = lengths + out[0];

    for (size_t i = 0; i < out[0]; i++) {
        grelfint_request_answer answer = grelfint_handle_request(*node, request, lengths[i], eeprom, sizeof eeprom,
                                                                 external, sizeof external, response, sizeof response);

        if (answer.refusal != GRELFINT_OK)
            return answer.refusal;
        *node = answer.node;
        print_request(request, lengths[i]);
        printf("  handled: ErrN %u\n", response[GRELFINT_AT_ERRN]);
        request += lengths[i];
    }
    return GRELFINT_OK;
}

int main(void)
{
    size_t book_length = fread(book, 1, sizeof book, stdin);

    if (ferror(stdin)) {
        perror("scene");
        return 1;
    }
    if (book_length > GRELFINT_BOOK) {
        fprintf(stderr, "scene: the input is longer than the longest book, %d bytes\n", GRELFINT_BOOK);
        return 1;
    }

    grelfint_compile_answer compiled =
        grelfint_compile(book, book_length, 0, settings.address, settings.hwpid, out, sizeof out);
    if (compiled.refusal != GRELFINT_OK)
        return refused(compiled.refusal, compiled.step);

    grelfint_node_answer started = grelfint_start(settings);
    if (started.refusal != GRELFINT_OK)
        return refused(started.refusal, 0);

    grelfint_node node = started.node;
    uint8_t refusal = handle_all(&node);
    if (refusal != GRELFINT_OK)
        return refused(refusal, 0);
    return print_lamps(node);
}
