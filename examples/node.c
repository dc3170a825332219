/* The main loop of a node's firmware: each second it ticks, handles the frames
 * that came, sends the responses and drives the lamps. The clock, the radio and
 * the lamps are simulated. From the repository's root:
 *
 *   make
 *   cc -Iinclude examples/node.c crates/grelfint/out/libgrelfint.a -o node && ./node */
#include <stdio.h>
#include <stdlib.h>

#include "grelfint.h"

#define COMMAND(pnum, pcmd) pnum, pcmd, GRELFINT_HWPID_ANY & 0xFF, GRELFINT_HWPID_ANY >> 8
#define LAMP(i) 1 << (i), 0, 0, 0 /* the bitmap of one lamp, 0 to 7 */

enum { ADDRESS = 1, LAMPS = 3, SECONDS = 6 };

static const uint8_t set[] = {ADDRESS, 0, COMMAND(GRELFINT_PNUM_LIGHTS, GRELFINT_PCMD_LIGHTS_SET),
    LAMP(0), 42 | GRELFINT_POWER_TIMED, 3 | GRELFINT_TIME_SECONDS};
static const uint8_t batch[] = {ADDRESS, 0, COMMAND(GRELFINT_PNUM_OS, GRELFINT_PCMD_OS_BATCH),
    GRELFINT_ENTRY_HEADER + GRELFINT_BITMAP + 1, COMMAND(GRELFINT_PNUM_LIGHTS, GRELFINT_PCMD_LIGHTS_SET), LAMP(1), 70,
    GRELFINT_ENTRY_HEADER + 2, COMMAND(GRELFINT_PNUM_EEPROM, GRELFINT_PCMD_EEPROM_WRITE), 0, 9, 0};
static const uint8_t lower[] = {GRELFINT_NADR_BROADCAST, 0, COMMAND(GRELFINT_PNUM_LIGHTS, GRELFINT_PCMD_LIGHTS_LOWER),
    LAMP(1), 20};
static const uint8_t other[] = {ADDRESS + 1, 0, COMMAND(GRELFINT_PNUM_LIGHTS, GRELFINT_PCMD_LIGHTS_ENUMERATE)};
static const uint8_t bad[] = {ADDRESS, 0, COMMAND(GRELFINT_PNUM_EEPROM, GRELFINT_PCMD_EEPROM_READ), GRELFINT_EEPROM, 1};

/* What the radio receives, and when. */
static const struct { unsigned second; const char *what; const uint8_t *frame; size_t length; } arrivals[] = {
    {1, "set lamp 0 to 42 for 3 seconds", set, sizeof set},
    {2, "batch: set lamp 1 to 70, write to EEPROM", batch, sizeof batch},
    {2, "broadcast: lower lamp 1 by 20", lower, sizeof lower},
    {3, "a request to another node", other, sizeof other},
    {3, "read past the end of EEPROM", bad, sizeof bad},
    {5, "the batch without its last byte", batch, sizeof batch - 1},
    {6, "a frame of 5 bytes", set, 5},
};

static grelfint_node node;
static uint8_t eeprom[GRELFINT_EEPROM], external[GRELFINT_EXTERNAL], response[GRELFINT_RESPONSE];

static void check(uint8_t refusal)
{
    if (refusal != GRELFINT_OK)
        exit(refusal); /* wrong settings, or a corrupted node: firmware would restart */
}

static void drive_lamps(void)
{
    static uint8_t driven[LAMPS];
    grelfint_levels_answer actual = grelfint_actual_levels(node);

    check(actual.refusal);
    for (size_t i = 0; i < LAMPS; i++) {
        if (driven[i] != actual.levels[i])
            printf("    lamp %zu goes to %u\n", i, actual.levels[i]);
        driven[i] = actual.levels[i];
    }
}

static void handle(const uint8_t *frame, size_t length)
{
    static const char *const reasons[] = {"", "short entry", "entry past the end", "no closing zero", "more after it"};
    grelfint_request_answer answer = grelfint_handle_request(
        node, frame, length, eeprom, sizeof eeprom, external, sizeof external, response, sizeof response);

    node = answer.node;
    if (answer.refusal == GRELFINT_REFUSED_FRAME) /* the radio's fault; the node is as it was */
        printf("    refused: not a request\n");
    else
        check(answer.refusal);
    if (answer.reason != GRELFINT_REASON_NONE)
        printf("    broken list: %s, at byte %u of PData\n", reasons[answer.reason], answer.place);
    if (answer.load) /* firmware would write the checked code to its flash */
        printf("    load the code\n");
    if (answer.length > 0) /* firmware would transmit the response */
        printf("    response: %zu bytes, ErrN %u\n", answer.length, response[GRELFINT_AT_ERRN]);
}

/* What comes in one second. */
static void receive(unsigned second)
{
    for (size_t i = 0; i < sizeof arrivals / sizeof arrivals[0]; i++)
        if (arrivals[i].second == second) {
            printf("  %s\n", arrivals[i].what);
            handle(arrivals[i].frame, arrivals[i].length);
            drive_lamps();
        }
}

int main(void)
{
    const grelfint_settings settings = {
        .address = ADDRESS, .hwpid = 0x2471, .dpa_value = 7, .lamp_count = LAMPS, .step = 5};
    grelfint_node_answer started = grelfint_start(settings);

    check(started.refusal);
    node = started.node;
    for (unsigned second = 1; second <= SECONDS; second++) {
        printf("second %u\n", second);
        check(grelfint_tick_in_place(&node));
        drive_lamps();
        receive(second);
    }
    return 0;
}
