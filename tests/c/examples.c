/* Worked examples of document 01, broken lists and bad steps (document 02,
 * change 1/12), keep with a time (change 2/12), selective batches and scenes for
 * chosen nodes (change 3/12), checksums of code images (change 4/12), the serial
 * line (change 5/12), and the gateway (change 6/12), called through
 * include/grelfint.h. To see how one compiled scene reaches chosen nodes, read
 * `one_scene_for_chosen_nodes`; how a request travels over a serial line,
 * `one_request_over_the_serial_line`; how requests wait at a gateway,
 * `two_requests_in_the_queue`.
 * tests/c/run builds and runs it.
 *
 * Prints each failure, then `N passed` (or `N passed, M failed`, exit status 1). */
#include <stdio.h>
#include <string.h>

#include "grelfint.h"

static int passed = 0;
static int failed = 0;

static void check(const char *name, bool holds)
{
    if (holds) {
        passed++;
    } else {
        failed++;
        printf("failed: %s\n", name);
    }
}

/* The fields are at the offsets that the library uses. */
_Static_assert(offsetof(grelfint_settings, address) == 0, "address");
_Static_assert(offsetof(grelfint_settings, hwpid) == 2, "HWPID");
_Static_assert(offsetof(grelfint_settings, dpa_value) == 4, "DpaValue of a node");
_Static_assert(offsetof(grelfint_settings, lamp_count) == 5, "lamp count");
_Static_assert(offsetof(grelfint_settings, step) == 6, "dimming step");
_Static_assert(sizeof(grelfint_settings) == 8, "settings");
_Static_assert(offsetof(grelfint_lamp, level) == 0, "level");
_Static_assert(offsetof(grelfint_lamp, seconds) == 2, "seconds");
_Static_assert(sizeof(grelfint_lamp) == 4, "lamp");
_Static_assert(sizeof(grelfint_node) == 8 + 32 * 4 + 48, "node");
_Static_assert(offsetof(grelfint_node, lamps) == 8, "lamps");
_Static_assert(offsetof(grelfint_node, ram) == 136, "ram");
_Static_assert(offsetof(grelfint_request_answer, load) == 16, "load");
_Static_assert(offsetof(grelfint_request_answer, addressed) == 17, "addressed");
_Static_assert(offsetof(grelfint_request_answer, reason) == 18, "reason");
_Static_assert(offsetof(grelfint_request_answer, place) == 19, "place");
_Static_assert(offsetof(grelfint_request_answer, node) == 20, "node of a request's answer");
_Static_assert(sizeof(grelfint_request_answer) == 208, "a request's answer");
_Static_assert(sizeof(grelfint_levels_answer) == 33, "answer of levels");
_Static_assert(sizeof(grelfint_node_set) == 30, "node set");
_Static_assert(sizeof(grelfint_receiver) == 68, "receiver");
_Static_assert(offsetof(grelfint_receiver, bytes) == 3, "bytes of a receiver");
_Static_assert(offsetof(grelfint_receive_answer, taken) == 8, "taken");
_Static_assert(offsetof(grelfint_receive_answer, length) == 16, "length of a frame");
_Static_assert(offsetof(grelfint_receive_answer, frame) == 24, "frame");
_Static_assert(offsetof(grelfint_receive_answer, receiver) == 88, "receiver of an answer");
_Static_assert(sizeof(grelfint_receive_answer) == 160, "a receiver's answer");
_Static_assert(sizeof(grelfint_waiting) == 68, "waiting request");
_Static_assert(offsetof(grelfint_waiting, length) == 2, "length of a waiting request");
_Static_assert(offsetof(grelfint_waiting, hops) == 3, "hops");
_Static_assert(offsetof(grelfint_waiting, response_hops) == 4, "response hops");
_Static_assert(offsetof(grelfint_waiting, frame) == 5, "frame of a waiting request");
_Static_assert(offsetof(grelfint_send_queue, next) == 8, "next");
_Static_assert(offsetof(grelfint_send_queue, network) == 16, "network");
_Static_assert(offsetof(grelfint_send_queue, dpa_value) == 17, "DpaValue");
_Static_assert(offsetof(grelfint_send_queue, count) == 18, "count");
_Static_assert(offsetof(grelfint_send_queue, places) == 20, "places");
_Static_assert(sizeof(grelfint_send_queue) == 568, "queue");
_Static_assert(offsetof(grelfint_gateway, queue) == 32, "queue of a gateway");
_Static_assert(sizeof(grelfint_gateway) == 600, "gateway");
_Static_assert(offsetof(grelfint_bond_answer, count) == 1, "count of an answer");
_Static_assert(offsetof(grelfint_bond_answer, gateway) == 8, "gateway of a bond's answer");
_Static_assert(sizeof(grelfint_count_answer) == 2, "a count's answer");
_Static_assert(sizeof(grelfint_bitmap_answer) == 33, "a bitmap's answer");
_Static_assert(offsetof(grelfint_gateway_answer, gateway) == 8, "gateway of a send's answer");
_Static_assert(offsetof(grelfint_release_answer, released) == 1, "released");
_Static_assert(offsetof(grelfint_release_answer, length) == 8, "length of a confirmation");
_Static_assert(offsetof(grelfint_release_answer, frame_length) == 16, "length of a released frame");
_Static_assert(offsetof(grelfint_release_answer, frame) == 24, "released frame");
_Static_assert(offsetof(grelfint_release_answer, gateway) == 88, "gateway of a release's answer");
_Static_assert(sizeof(grelfint_release_answer) == 688, "a release's answer");

static grelfint_node node;
static uint8_t eeprom[GRELFINT_EEPROM];
static uint8_t external[GRELFINT_EXTERNAL];
static uint8_t response[GRELFINT_RESPONSE + 8];
static bool load_mark;

/* The settings of document 01's examples. A test changes the fields that matter
 * to it, so that a new field is an edit of this line. */
static const grelfint_settings usual = {.address = 1, .hwpid = 0x2471, .dpa_value = 7, .lamp_count = 3, .step = 1};

static grelfint_lamp lamp(uint8_t level, uint16_t seconds)
{
    return (grelfint_lamp){.level = level, .seconds = seconds};
}

static grelfint_node started(grelfint_settings settings)
{
    grelfint_node_answer answer = grelfint_start(settings);

    check("start", answer.refusal == 0);
    return answer.node;
}

static void fresh(uint8_t lamp_count, uint8_t step)
{
    grelfint_settings settings = usual;

    settings.lamp_count = lamp_count;
    settings.step = step;
    node = started(settings);
    memset(eeprom, 0, sizeof eeprom);
    memset(external, 0, sizeof external);
}

/* Sends one request to node 1 (NADR 1) or to all nodes (NADR 0xFF, which has no
 * response), and compares ErrN and data. */
static void request_to(uint8_t nadr, const char *name, uint8_t pnum, uint8_t pcmd,
                       const uint8_t *pdata, size_t pdata_length,
                       uint8_t error, const uint8_t *data, size_t data_length)
{
    uint8_t frame[62] = {nadr, 0, pnum, pcmd, 0xFF, 0xFF};
    uint8_t want[sizeof response];
    const uint8_t header[8] = {1, 0, pnum, (uint8_t)(pcmd | 0x80), 0x71, 0x24, error, 7};
    size_t length = nadr == 0xFF ? 0 : 8 + data_length;
    grelfint_request_answer answer;

    if (pdata_length > 0)
        memcpy(frame + 6, pdata, pdata_length);
    memset(response, 0xEE, sizeof response);
    memset(want, 0xEE, sizeof want);
    if (length > 0)
        memcpy(want, header, sizeof header);
    if (length > 8)
        memcpy(want + 8, data, data_length);
    answer = grelfint_handle_request(node, frame, 6 + pdata_length, eeprom, sizeof eeprom,
                                     external, sizeof external, response, GRELFINT_RESPONSE);
    check(name, answer.refusal == 0 && answer.addressed && answer.length == length &&
                    answer.reason == 0 && answer.place == 0 && memcmp(response, want, sizeof want) == 0);
    node = answer.node;
    load_mark = answer.load;
}

/* The same to node 1. */
static void request(const char *name, uint8_t pnum, uint8_t pcmd,
                    const uint8_t *pdata, size_t pdata_length,
                    uint8_t error, const uint8_t *data, size_t data_length)
{
    request_to(1, name, pnum, pcmd, pdata, pdata_length, error, data, data_length);
}

#define BYTES(...) (const uint8_t[]){__VA_ARGS__}, sizeof((const uint8_t[]){__VA_ARGS__})
#define NO_BYTES NULL, 0

/* The padding between the fields is not compared. */
static bool same_settings(grelfint_settings a, grelfint_settings b)
{
    return a.address == b.address && a.hwpid == b.hwpid && a.dpa_value == b.dpa_value &&
           a.lamp_count == b.lamp_count && a.step == b.step;
}

static bool same_lamp(grelfint_lamp a, grelfint_lamp b)
{
    return a.level == b.level && a.seconds == b.seconds;
}

static bool same_node(const grelfint_node *a, const grelfint_node *b)
{
    int i;

    for (i = 0; i < GRELFINT_LAMPS; i++)
        if (!same_lamp(a->lamps[i], b->lamps[i]))
            return false;
    return same_settings(a->settings, b->settings) && memcmp(a->ram, b->ram, sizeof a->ram) == 0;
}

static bool lamp_is(int i, uint8_t level, uint16_t seconds)
{
    return same_lamp(node.lamps[i], lamp(level, seconds));
}

/* A node whose fields, lamps and bytes of RAM all differ, and are not 0: no one
 * takes the place of another. */
static void every_field_of_a_node(void)
{
    static const uint8_t enumerate[] = {0xC3, 0, 0x71, 0x3E, 0xFF, 0xFF};
    static const uint8_t enumerated[] = {0xC3, 0, 0x71, 0xBE, 0x34, 0x12, 0, 0x65, 32};
    const grelfint_settings settings = {
        .address = 0xC3, .hwpid = 0x1234, .dpa_value = 0x65, .lamp_count = 32, .step = 5};
    grelfint_node_answer answer = grelfint_start(settings);
    grelfint_node before = answer.node, after;
    grelfint_levels_answer actual;
    grelfint_request_answer handled;
    uint8_t i;

    check("fields: settings", answer.refusal == 0 && same_settings(before.settings, settings));
    for (i = 0; i < GRELFINT_RAM; i++)
        before.ram[i] = 0x81 + i;
    for (i = 0; i < GRELFINT_LAMPS; i++)
        before.lamps[i] = lamp(100 - 2 * i, (uint16_t)(300 + 217 * i));
    after = before;
    for (i = 0; i < GRELFINT_LAMPS; i++)
        after.lamps[i].seconds--;
    answer = grelfint_tick(before);
    check("fields: tick", answer.refusal == 0 && same_node(&answer.node, &after));
    actual = grelfint_actual_levels(before);
    for (i = 0; i < GRELFINT_LAMPS; i++)
        check("fields: levels", actual.levels[i] == (before.lamps[i].level + 4) / 5 * 5);
    handled = grelfint_handle_request(before, enumerate, sizeof enumerate, eeprom, sizeof eeprom, external,
                                      sizeof external, response, GRELFINT_RESPONSE);
    check("fields: response", handled.length == sizeof enumerated && memcmp(response, enumerated, sizeof enumerated) == 0);
    check("fields: node", same_node(&handled.node, &before));
    check("fields: tick in place", grelfint_tick_in_place(&before) == 0 && same_node(&before, &after));
}

static void lamps(void)
{
    static const struct {
        uint8_t pcmd, value, requested, actual, previous;
    } table[] = {
        {0, 15, 15, 20, 0}, {1, 6, 21, 30, 20}, {2, 10, 11, 20, 30},
        {2, 9, 2, 10, 20},  {2, 100, 0, 0, 10}, {1, 0, 0, 0, 0},
    };
    size_t i;

    fresh(3, 1);
    request("enumerate", 0x71, 0x3E, NO_BYTES, 0, BYTES(3));
    request("set", 0x71, 0, BYTES(5, 0, 0, 0, 0x0A, 0xE4, 2), 0, BYTES(0, 0));
    request("raise", 0x71, 1, BYTES(3, 0, 0, 0, 0x8A, 3, 0x32), 0, BYTES(0x0A, 0));
    check("levels and seconds", lamp_is(0, 20, 180) && lamp_is(1, 50, 0) && lamp_is(2, 100, 120));

    fresh(1, 10);
    for (i = 0; i < sizeof table / sizeof table[0]; i++) {
        request("step table", 0x71, table[i].pcmd, BYTES(1, 0, 0, 0, table[i].value), 0,
                BYTES(table[i].previous));
        check("requested level", node.lamps[0].level == table[i].requested);
        request("actual level", 0x71, 0, BYTES(1, 0, 0, 0, 127), 0, BYTES(table[i].actual));
        check("level to drive", grelfint_actual_levels(node).levels[0] == table[i].actual);
    }

    fresh(1, 1);
    request("level 101", 0x71, 0, BYTES(1, 0, 0, 0, 0x65), 6, NO_BYTES);
    check("nothing changed", lamp_is(0, 0, 0));
    request("level 100", 0x71, 0, BYTES(1, 0, 0, 0, 0x64), 0, BYTES(0));
    request("time 80", 0x71, 0, BYTES(1, 0, 0, 0, 0x80, 0x80), 6, NO_BYTES);
    check("level 100 stays", lamp_is(0, 100, 0));
}

/* Sends "set lamp 0 to 10" to a fresh node 1. The length cannot separate a
 * broadcast from a frame for another node, so each case also gives
 * `addressed` and the level that lamp 0 ends at. */
static void send_set(const char *name, uint8_t nadr_low, uint8_t nadr_high, size_t response_length,
                     uint8_t refusal, size_t length, bool addressed, uint8_t level)
{
    const uint8_t frame[11] = {nadr_low, nadr_high, 0x71, 0, 0xFF, 0xFF, 1, 0, 0, 0, 10};
    grelfint_request_answer answer;

    fresh(3, 1);
    answer = grelfint_handle_request(node, frame, sizeof frame, eeprom, sizeof eeprom,
                                     external, sizeof external, response, response_length);
    check(name, answer.refusal == refusal && answer.length == length && answer.addressed == addressed &&
                    !answer.load && answer.node.lamps[0].level == level);
}

static void addresses(void)
{
    send_set("own address", 1, 0, GRELFINT_RESPONSE, 0, 9, true, 10);
    send_set("broadcast", 0xFF, 0, GRELFINT_RESPONSE, 0, 0, true, 10);
    send_set("another node", 2, 0, GRELFINT_RESPONSE, 0, 0, false, 0);
    send_set("own low byte, other high byte", 1, 1, GRELFINT_RESPONSE, 0, 0, false, 0);
    send_set("broadcast with its bytes swapped", 0, 0xFF, GRELFINT_RESPONSE, 0, 0, false, 0);
    send_set("own address, refused", 1, 0, GRELFINT_RESPONSE - 1, 3, 0, false, 0);
    send_set("broadcast, refused", 0xFF, 0, GRELFINT_RESPONSE - 1, 3, 0, false, 0);
}

static void ticks(void)
{
    grelfint_node_answer answer;

    fresh(3, 1);
    request("two seconds", 0x71, 0, BYTES(1, 0, 0, 0, 0x8A, 0x82), 0, BYTES(0));
    answer = grelfint_tick(node);
    node = answer.node;
    check("tick", answer.refusal == 0 && lamp_is(0, 10, 1));
    check("tick in place", grelfint_tick_in_place(&node) == 0 && lamp_is(0, 0, 0));
    node.settings.step = 3;
    check("broken record", grelfint_tick(node).refusal == 1 && grelfint_tick_in_place(&node) == 1);
}

static void memories(void)
{
    fresh(3, 1);
    external[0x3FFF] = 0x5C;
    request("external, length 1", 4, 2, BYTES(0xFF, 0x3F, 1), 0, BYTES(0x5C));
    request("external, length 2", 4, 2, BYTES(0xFF, 0x3F, 2), 4, NO_BYTES);
    request("EEPROM write", 3, 1, BYTES(190, 1, 2), 0, NO_BYTES);
    check("EEPROM bytes", eeprom[190] == 1 && eeprom[191] == 2);
    request("EEPROM read", 3, 0, BYTES(190, 2), 0, BYTES(1, 2));
    request("RAM write", 5, 1, BYTES(47, 9), 0, NO_BYTES);
    check("RAM byte", node.ram[47] == 9);
    check("view", grelfint_view_status(eeprom, sizeof eeprom, external, sizeof external, 4, 0x3FFF, 1) == 0);
    check("view past the end", grelfint_view_status(eeprom, sizeof eeprom, external, sizeof external, 4, 0x3FFF, 2) == 16);
    check("view too long", grelfint_view_status(eeprom, sizeof eeprom, external, sizeof external, 3, 0, 56) == 15);
    check("view of RAM", grelfint_view_status(eeprom, sizeof eeprom, external, sizeof external, 5, 0, 1) == 10);
    check("view of a short memory", grelfint_view_status(eeprom, 191, external, sizeof external, 3, 0, 1) == 4);
}

static void batches(void)
{
    fresh(3, 1);
    request("batch of nothing", 2, 5, BYTES(0), 0, NO_BYTES);
    request("batch", 2, 5,
            BYTES(10, 0x71, 0, 0xFF, 0xFF, 1, 0, 0, 0, 10, 10, 0x71, 1, 0xFF, 0xFF, 2, 0, 0, 0, 20, 0),
            0, NO_BYTES);
    check("both entries", lamp_is(0, 10, 0) && lamp_is(1, 20, 0) && lamp_is(2, 0, 0));
}

/* Flag bit 0 asks to load the code on a match; bit 1 tells the type of the code. */
enum { LOAD = 1, HANDLER = 0, PLUG_IN = 2 };

/* Checks an image without and with LOAD, at node 1 and at all nodes. The load mark
 * is set exactly on a match with LOAD; node and memories stay. */
static void code_check(const char *name, uint8_t type, uint16_t address, uint16_t length, uint16_t sum, bool matches)
{
    static const uint8_t nadrs[] = {1, 0xFF};
    static uint8_t external_before[GRELFINT_EXTERNAL], eeprom_before[GRELFINT_EEPROM];
    const grelfint_node before = node;
    size_t i;
    uint8_t load;

    memcpy(external_before, external, sizeof external);
    memcpy(eeprom_before, eeprom, sizeof eeprom);
    for (i = 0; i < sizeof nadrs; i++) {
        for (load = 0; load <= LOAD; load++) {
            request_to(nadrs[i], name, 2, 0x0A,
                       BYTES((uint8_t)(type | load), (uint8_t)(address & 0xFF), (uint8_t)(address >> 8),
                             (uint8_t)(length & 0xFF), (uint8_t)(length >> 8),
                             (uint8_t)(sum & 0xFF), (uint8_t)(sum >> 8)),
                       0, BYTES(matches));
            check(name, load_mark == (matches && load == LOAD) && same_node(&node, &before) &&
                            memcmp(external, external_before, sizeof external) == 0 &&
                            memcmp(eeprom, eeprom_before, sizeof eeprom) == 0);
        }
    }
}

static void code_checks(void)
{
    fresh(3, 1);
    code_check("64 zeros", HANDLER, 0, 64, 0x4001, true);
    code_check("64 zeros, wrong low sum", HANDLER, 0, 64, 0x4002, false);
    code_check("64 zeros, wrong high sum", HANDLER, 0, 64, 0x4101, false);
    code_check("20 zeros", PLUG_IN, 0, 20, 0x3C03, true);
    code_check("20 zeros, wrong low sum", PLUG_IN, 0, 20, 0x3C01, false);
    code_check("320 zeros as 64s", HANDLER, 0, 320, 0x4101, true); /* 320 = 255 + 65 */
    code_check("320 zeros as 20s", PLUG_IN, 0, 320, 0xC303, true); /* 3 * 65 = 195 */
    code_check("as the other type", PLUG_IN, 0, 320, 0x4101, false);
    code_check("all zeros", HANDLER, 0, GRELFINT_EXTERNAL, 0x4001, true); /* 16,384 = 64 * 255 + 64 */

    /* FE from start value 1 gives 255 and 255, and so it stays over zeros: a
     * remainder modulo 255 would be 0 and 0 */
    external[0] = 0xFE;
    code_check("sums of 255", HANDLER, 0, 64, 0xFFFF, true);
    code_check("sums of 255, both as 0", HANDLER, 0, 64, 0x0000, false);
    code_check("sums of 255, high as 0", HANDLER, 0, 64, 0x00FF, false);
    code_check("sums of 255, low as 0", HANDLER, 0, 64, 0xFF00, false);
    code_check("sums of 255, two blocks", HANDLER, 0, 128, 0xFFFF, true);
    code_check("sums of 255, two blocks, as 0", HANDLER, 0, 128, 0x0000, false);
    code_check("sums of 255, whole memory", HANDLER, 0, GRELFINT_EXTERNAL, 0xFFFF, true);
    external[0] = 0xFC;
    code_check("plug-in, sums of 255", PLUG_IN, 0, 20, 0xFFFF, true);
    code_check("plug-in, sums of 255 as 0", PLUG_IN, 0, 20, 0x0000, false);
    code_check("plug-in, sums of 255, longest", PLUG_IN, 0, 16380, 0xFFFF, true);
    external[0] = 0;

    /* the last byte of the last image: the low sum is 1 and the high sum 63 before it */
    external[0x3FFF] = 0xFE;
    code_check("low sum of 255", HANDLER, 0x3FC0, 64, 0x3FFF, true);
    code_check("low sum of 255 as 0", HANDLER, 0x3FC0, 64, 0x3F00, false);
    external[0x3FFF] = 0xFC; /* 3 + FC = 255; the high sum is 79 * 3 before it */
    code_check("plug-in, low sum of 255", PLUG_IN, 0x3FB0, 80, 0xEDFF, true);
    code_check("plug-in, low sum of 255 as 0", PLUG_IN, 0x3FB0, 80, 0xED00, false);
    external[0x3FFF] = 191;
    code_check("high sum of 255", HANDLER, 0x3FC0, 64, 0xFFC0, true);
    code_check("high sum of 255 as 0", HANDLER, 0x3FC0, 64, 0x00C0, false);
    external[0x3FFF] = 0xFF;
    code_check("FF sums as 00", HANDLER, 0x3FC0, 64, 0x4001, true);
    memset(external, 0xFF, sizeof external);
    code_check("all FF", HANDLER, 0, GRELFINT_EXTERNAL, 0x4001, true);
}

/* Node 1 with a dimming step of 10 and two lamps: lamp 0 as given, lamp 1 at 70
 * for 90 seconds. */
static grelfint_node pair(uint8_t level, uint16_t seconds)
{
    grelfint_settings settings = usual;
    grelfint_node two;

    settings.lamp_count = 2;
    settings.step = 10;
    two = started(settings);
    two.lamps[0] = lamp(level, seconds);
    two.lamps[1] = lamp(70, 90);
    return two;
}

/* Sends lamp entries to that node as set, raise and lower, each by itself and in
 * a batch, to node 1 and to all nodes. Only the seconds of lamp 0 may change. */
static void keep(const char *name, uint8_t level, uint16_t seconds, uint16_t seconds_after,
                 const uint8_t *pdata, size_t pdata_length,
                 uint8_t error, const uint8_t *data, size_t data_length)
{
    static const uint8_t nadrs[] = {1, 0xFF};
    const grelfint_node before = pair(level, seconds), after = pair(level, seconds_after);
    size_t i;
    uint8_t pcmd;

    for (i = 0; i < sizeof nadrs; i++) {
        for (pcmd = 0; pcmd <= 2; pcmd++) {
            uint8_t list[56] = {(uint8_t)(5 + pdata_length), 0x71, pcmd, 0xFF, 0xFF};

            memcpy(list + 5, pdata, pdata_length);
            node = before;
            request_to(nadrs[i], name, 0x71, pcmd, pdata, pdata_length, error, data, data_length);
            check(name, same_node(&node, &after));
            node = before;
            request_to(nadrs[i], name, 2, 5, list, 5 + pdata_length + 1, 0, NO_BYTES);
            check(name, same_node(&node, &after));
        }
    }
}

/* Level and seconds of lamp 0, its seconds afterwards, PData, ErrN, previous power. */
static void keeps(void)
{
    keep("keep: lit, minutes", 15, 0, 120, BYTES(1, 0, 0, 0, 0xFF, 0x02), 0, BYTES(20));
    keep("keep: shorter timer, minutes", 15, 3, 120, BYTES(1, 0, 0, 0, 0xFF, 0x02), 0, BYTES(20));
    keep("keep: longer timer, minutes", 15, 600, 120, BYTES(1, 0, 0, 0, 0xFF, 0x02), 0, BYTES(20));
    keep("keep: off, minutes", 0, 0, 0, BYTES(1, 0, 0, 0, 0xFF, 0x02), 0, BYTES(0));
    keep("keep: lit, seconds", 15, 0, 5, BYTES(1, 0, 0, 0, 0xFF, 0x85), 0, BYTES(20));
    keep("keep: shorter timer, seconds", 15, 3, 5, BYTES(1, 0, 0, 0, 0xFF, 0x85), 0, BYTES(20));
    keep("keep: longer timer, seconds", 15, 600, 5, BYTES(1, 0, 0, 0, 0xFF, 0x85), 0, BYTES(20));
    keep("keep: off, seconds", 0, 0, 0, BYTES(1, 0, 0, 0, 0xFF, 0x85), 0, BYTES(0));
    keep("keep: longest time", 100, 1, 7620, BYTES(1, 0, 0, 0, 0xFF, 0x7F), 0, BYTES(100));
    keep("keep: lit, no time", 15, 0, 0, BYTES(1, 0, 0, 0, 0x7F), 0, BYTES(20));
    keep("keep: timer, no time", 15, 30, 30, BYTES(1, 0, 0, 0, 0x7F), 0, BYTES(20));
    keep("keep: off, no time", 0, 0, 0, BYTES(1, 0, 0, 0, 0x7F), 0, BYTES(0));
    keep("keep: both lamps", 15, 30, 120, BYTES(3, 0, 0, 0, 0xFF, 0x02, 0x7F), 0, BYTES(20, 70));

    keep("keep: lit, time 00", 15, 0, 0, BYTES(1, 0, 0, 0, 0xFF, 0x00), 6, NO_BYTES);
    keep("keep: timer, time 80", 15, 30, 30, BYTES(1, 0, 0, 0, 0xFF, 0x80), 6, NO_BYTES);
    keep("keep: off, time 80", 0, 0, 0, BYTES(1, 0, 0, 0, 0xFF, 0x80), 6, NO_BYTES);
    keep("keep: good, then time 00", 15, 30, 30, BYTES(3, 0, 0, 0, 0xFF, 0x02, 0xFF, 0x00), 6, NO_BYTES);
    keep("keep: level, then time 80", 15, 30, 30, BYTES(3, 0, 0, 0, 0x8A, 0x02, 0xFF, 0x80), 6, NO_BYTES);
    keep("keep: no time byte", 15, 30, 30, BYTES(1, 0, 0, 0, 0xFF), 6, NO_BYTES);
    keep("keep: byte after no time", 15, 30, 30, BYTES(1, 0, 0, 0, 0x7F, 0x02), 6, NO_BYTES);

    keep("keep: unimplemented", 15, 30, 30, BYTES(4, 0, 0, 0, 0xFF, 0x02), 0, BYTES(0));
    keep("keep: unimplemented, no time", 15, 30, 30, BYTES(4, 0, 0, 0, 0x7F), 0, BYTES(0));
    keep("keep: unimplemented, time 00", 15, 30, 30, BYTES(4, 0, 0, 0, 0xFF, 0x00), 6, NO_BYTES);
    keep("keep: lamps 0 and 2", 15, 30, 120, BYTES(5, 0, 0, 0, 0xFF, 0x02, 0xFF, 0x85), 0, BYTES(20, 0));
}

/* Kept for two seconds, a lamp without a timer and one with a longer timer turn
 * off after two ticks. */
static void keep_ticks(void)
{
    static const uint16_t timers[] = {0, 600};
    size_t i;
    uint8_t pcmd;

    for (i = 0; i < sizeof timers / sizeof timers[0]; i++) {
        for (pcmd = 0; pcmd <= 2; pcmd++) {
            node = pair(15, timers[i]);
            request("keep for two seconds", 0x71, pcmd, BYTES(1, 0, 0, 0, 0xFF, 0x82), 0, BYTES(20));
            node = grelfint_tick(node).node;
            check("kept, one second left", lamp_is(0, 15, 1));
            node = grelfint_tick(node).node;
            check("kept, off", lamp_is(0, 0, 0));
        }
    }
}

/* Sends a frame to a fresh node 1 that changes nothing, and compares the whole
 * answer and the response buffer. The response, if there is one, is only a
 * header with this ErrN. */
static void send_frame(const char *name, const uint8_t *frame, size_t frame_length, size_t response_length,
                       uint8_t refusal, bool addressed, size_t length, uint8_t error,
                       uint8_t reason, uint8_t place)
{
    const uint8_t header[8] = {1, 0, frame[2], (uint8_t)(frame[3] | 0x80), 0x71, 0x24, error, 7};
    uint8_t want[sizeof response];
    grelfint_request_answer answer;

    fresh(3, 1);
    memset(response, 0xEE, sizeof response);
    memset(want, 0xEE, sizeof want);
    memcpy(want, header, length);
    answer = grelfint_handle_request(node, frame, frame_length, eeprom, sizeof eeprom,
                                     external, sizeof external, response, response_length);
    check(name, answer.refusal == refusal && answer.length == length && !answer.load &&
                    answer.addressed == addressed && answer.reason == reason && answer.place == place &&
                    same_node(&answer.node, &node) && memcmp(response, want, sizeof want) == 0);
}

/* Sends a request to node 1 and then to all nodes. */
static void send_both(const char *name, uint8_t pnum, uint8_t pcmd, uint16_t hwpid,
                      const uint8_t *pdata, size_t pdata_length, uint8_t error, uint8_t reason, uint8_t place)
{
    uint8_t frame[62] = {1, 0, pnum, pcmd, (uint8_t)(hwpid & 0xFF), (uint8_t)(hwpid >> 8)};

    if (pdata_length > 0)
        memcpy(frame + 6, pdata, pdata_length);
    send_frame(name, frame, 6 + pdata_length, GRELFINT_RESPONSE, 0, true, 8, error, reason, place);
    frame[0] = 0xFF;
    send_frame(name, frame, 6 + pdata_length, GRELFINT_RESPONSE, 0, true, 0, error, reason, place);
}

static void broken_lists(void)
{
    static const uint8_t to_another[] = {2, 0, 2, 5, 0xFF, 0xFF, 4, 0};
    static const uint8_t to_all[] = {0xFF, 0, 2, 5, 0xFF, 0xFF, 4, 0};

    send_both("length under 5", 2, 5, 0xFFFF, BYTES(4, 0), 6, 1, 0);
    send_both("length under 5 and past the end", 2, 5, 0xFFFF, BYTES(3), 6, 1, 0);
    send_both("past the end", 2, 5, 0xFFFF, BYTES(5, 0x71, 0x3E, 0xFF), 6, 2, 0);
    send_both("no closing zero", 2, 5, 0xFFFF, BYTES(5, 0x71, 0x3E, 0xFF, 0xFF), 6, 3, 5);
    send_both("bytes after the zero", 2, 5, 0xFFFF, BYTES(0, 0), 6, 4, 1);

    /* after an entry that sets lamp 0 */
    send_both("entry, then length under 5", 2, 5, 0xFFFF,
              BYTES(10, 0x71, 0, 0xFF, 0xFF, 1, 0, 0, 0, 10, 4, 0), 6, 1, 10);
    send_both("entry, then past the end", 2, 5, 0xFFFF,
              BYTES(10, 0x71, 0, 0xFF, 0xFF, 1, 0, 0, 0, 10, 5, 0x71, 0x3E, 0xFF), 6, 2, 10);
    send_both("entry, then no closing zero", 2, 5, 0xFFFF,
              BYTES(10, 0x71, 0, 0xFF, 0xFF, 1, 0, 0, 0, 10), 6, 3, 10);
    send_both("entry, then bytes after the zero", 2, 5, 0xFFFF,
              BYTES(10, 0x71, 0, 0xFF, 0xFF, 1, 0, 0, 0, 10, 0, 0), 6, 4, 11);

    send_both("entry with an error", 2, 5, 0xFFFF, BYTES(6, 0x71, 0x3E, 0xFF, 0xFF, 0, 0), 0, 0, 0);
    send_both("entry with a broken list", 2, 5, 0xFFFF, BYTES(7, 2, 5, 0xFF, 0xFF, 4, 0, 0), 0, 0, 0);
    send_both("empty PData", 2, 5, 0xFFFF, NO_BYTES, 5, 0, 0);
    send_both("wrong HWPID", 2, 5, 0x1234, BYTES(4, 0), 7, 0, 0);
    send_both("unknown PNUM", 6, 5, 0xFFFF, BYTES(4, 0), 3, 0, 0);
    send_both("unknown PCMD", 2, 6, 0xFFFF, BYTES(4, 0), 2, 0, 0);
    send_both("code check of length 1", 2, 0x0A, 0xFFFF, BYTES(0, 0, 0, 1, 0, 0, 0), 6, 0, 0);
    send_both("lamps", 0x71, 0, 0xFFFF, BYTES(4, 0), 6, 0, 0);
    send_frame("another node's list", to_another, sizeof to_another, GRELFINT_RESPONSE, 0, false, 0, 0, 0, 0);
    send_frame("no room", to_all, sizeof to_all, GRELFINT_RESPONSE - 1, 3, false, 0, 0, 0, 0);
}

/* The set of these addresses, each 1 to 239. */
static grelfint_node_set set_of(const uint8_t *addresses, size_t count)
{
    grelfint_node_set nodes = {{0}};
    size_t i;

    for (i = 0; i < count; i++)
        nodes.bits[addresses[i] / 8] |= (uint8_t)(1u << (addresses[i] % 8));
    return nodes;
}

/* Sends a selective batch that changes nothing to node 1, which responds with
 * this many bytes, and to all nodes. */
static void send_selective(const char *name, grelfint_node_set nodes, const uint8_t *list, size_t list_length,
                           size_t response_length, uint8_t error, uint8_t reason, uint8_t place)
{
    uint8_t frame[62] = {1, 0, 2, 0x0B, 0xFF, 0xFF};
    size_t length = 6 + sizeof nodes.bits + list_length;

    memcpy(frame + 6, nodes.bits, sizeof nodes.bits);
    memcpy(frame + 6 + sizeof nodes.bits, list, list_length);
    send_frame(name, frame, length, GRELFINT_RESPONSE, 0, true, response_length, error, reason, place);
    frame[0] = 0xFF;
    send_frame(name, frame, length, GRELFINT_RESPONSE, 0, true, 0, error, reason, place);
}

/* Nodes 1 and 9 are selected: a response of eight bytes. */
static void selected(const char *name, const uint8_t *list, size_t list_length,
                     uint8_t error, uint8_t reason, uint8_t place)
{
    send_selective(name, set_of(BYTES(1, 9)), list, list_length, 8, error, reason, place);
}

/* Node 1 is not selected: no response, even at its own address. */
static void not_selected(const char *name, grelfint_node_set nodes, const uint8_t *list, size_t list_length)
{
    send_selective(name, nodes, list, list_length, 0, 0, 0, 0);
}

static void selective_batches(void)
{
    static const uint8_t set_lamp[] = {10, 0x71, 0, 0xFF, 0xFF, 1, 0, 0, 0, 10, 0};
    static const uint8_t to_1_and_9[] = {
        2, 2, 0, 0, 0, 0, 0, 0, 0, 0, 0, 0, 0, 0, 0, 0, 0, 0, 0, 0, 0, 0, 0, 0, 0, 0, 0, 0, 0, 0,
        10, 0x71, 0, 0xFF, 0xFF, 1, 0, 0, 0, 10, 0
    };
    const grelfint_node_set none = {{0}}, address_0 = {{1}};
    grelfint_node_set all, all_but_1;

    memset(all.bits, 0xFF, sizeof all.bits);
    all_but_1 = all;
    all_but_1.bits[0] = 0xFD;

    fresh(3, 1);
    request("selective: own address", 2, 0x0B, to_1_and_9, sizeof to_1_and_9, 0, NO_BYTES);
    check("selective: lamp 0", lamp_is(0, 10, 0));
    fresh(3, 1);
    request_to(0xFF, "selective: broadcast", 2, 0x0B, to_1_and_9, sizeof to_1_and_9, 0, NO_BYTES);
    check("selective: lamp 0 at broadcast", lamp_is(0, 10, 0));

    not_selected("selective: other nodes", set_of(BYTES(2, 9)), set_lamp, sizeof set_lamp);
    not_selected("selective: all but node 1", all_but_1, set_lamp, sizeof set_lamp);
    not_selected("selective: address 0 is no node", address_0, set_lamp, sizeof set_lamp);
    not_selected("selective: no node", none, set_lamp, sizeof set_lamp);
    not_selected("selective: other nodes, broken list", set_of(BYTES(2, 9)), BYTES(4, 0));

    /* the thirty bytes before the list count in the place */
    selected("selective: empty list", BYTES(0), 0, 0, 0);
    selected("selective: length under 5", BYTES(4, 0), 6, 1, 30);
    selected("selective: past the end", BYTES(5, 0x71, 0x3E, 0xFF), 6, 2, 30);
    selected("selective: no closing zero", BYTES(5, 0x71, 0x3E, 0xFF, 0xFF), 6, 3, 35);
    selected("selective: bytes after the zero", BYTES(0, 0), 6, 4, 31);
    selected("selective: batch as an entry",
             BYTES(13, 2, 5, 0xFF, 0xFF, 7, 5, 1, 0xFF, 0xFF, 0, 9, 0, 0), 0, 0, 0);

    /* PData is tested before the selection: 30 bytes have no list */
    send_both("selective: no list, selected", 2, 0x0B, 0xFFFF, all.bits, sizeof all.bits, 5, 0, 0);
    send_both("selective: no list, other nodes", 2, 0x0B, 0xFFFF, none.bits, sizeof none.bits, 5, 0, 0);
    send_both("selective: no node set", 2, 0x0B, 0xFFFF, NO_BYTES, 5, 0, 0);
    send_both("selective: wrong HWPID", 2, 0x0B, 0x1234, none.bits, sizeof none.bits, 7, 0, 0);
    send_both("the next PCMD is unknown", 2, 0x0C, 0xFFFF, all.bits, sizeof all.bits, 2, 0, 0);
}

static void frc(void)
{
    const uint8_t second[2] = {0x71, 1};
    grelfint_frc_answer answer;

    fresh(3, 1);
    answer = grelfint_frc(node, 0x10, second, sizeof second, 0, 0);
    check("off", answer.refusal == 0 && answer.value == 2);
    check("stuck", grelfint_frc(node, 0x10, second, sizeof second, 2, 0).value == 3);
    check("alarm", grelfint_frc(node, 0x11, second, sizeof second, 0, 2).value == 3);
    check("not implemented", grelfint_frc(node, 0x12, second, sizeof second, 2, 2).value == 1);
}

static void confirmations(void)
{
    const uint8_t frame[6] = {0x0A, 0, 7, 1, 0xFF, 0xFF};
    const uint8_t want[12] = {0x0A, 0, 7, 1, 0xFF, 0xFF, 0xFF, 7, 6, 4, 6, 0xEE};
    uint8_t out[64];
    grelfint_length_answer answer;
    grelfint_send_answer send;

    memset(out, 0xEE, sizeof out);
    answer = grelfint_confirm(frame, sizeof frame, 7, 6, 6, false, out, sizeof out);
    check("confirmation", answer.refusal == 0 && answer.length == 11 && memcmp(out, want, sizeof want) == 0);
    answer = grelfint_confirm(frame, sizeof frame, 7, 2, 3, false, out, sizeof out);
    check("hops and response hops", answer.refusal == 0 && out[8] == 2 && out[10] == 3);
    check("no room", grelfint_confirm(frame, sizeof frame, 7, 6, 6, false, out, 63).refusal == 3);
    check("short frame", grelfint_confirm(frame, 5, 7, 6, 6, false, out, sizeof out).refusal == 2);
    check("timeslots", grelfint_timeslot(16, false).slot == 4 && grelfint_timeslot(17, false).slot == 5 &&
                           grelfint_timeslot(41, true).slot == 10 && grelfint_timeslot(57, true).refusal == 5);
    send = grelfint_earliest_send(2, 5, 20, 3, 20, false, false);
    check("340 ms", send.refusal == 0 && send.milliseconds == 340);
    check("broadcast", grelfint_earliest_send(2, 5, 20, 3, 20, false, true).milliseconds == 140);
}

static void bad_steps(void)
{
    static const struct {
        const char *name;
        uint8_t step[4], refusal;
    } table[] = {
        {"kind", {5, 0, 0, 0}, 81},
        {"target", {0, 32, 0, 0}, 82},
        {"value", {0, 0, 101, 0}, 83},
        {"time", {0, 0, 0, 0x80}, 84},
        {"everything", {5, 255, 255, 0x80}, 81},
        {"target and value", {0, 32, 101, 0}, 82},
        {"value and time", {0, 0, 101, 0x80}, 83},
        {"good RAM step", {3, 47, 255, 0}, 0},
        {"good EEPROM step", {4, 191, 255, 0}, 0},
        {"RAM target", {3, 48, 255, 0}, 82},
        {"EEPROM target", {4, 192, 255, 0}, 82},
        {"RAM time", {3, 47, 255, 1}, 84},
        {"EEPROM time", {4, 191, 255, 1}, 84},
    };
    static const size_t rooms[] = {GRELFINT_COMPILED, GRELFINT_COMPILED - 1, 0};
    static uint8_t out[GRELFINT_COMPILED], untouched[GRELFINT_COMPILED];
    size_t i, j;

    memset(untouched, 0xEE, sizeof untouched);
    for (i = 0; i < sizeof table / sizeof table[0]; i++) {
        uint8_t book[] = {1, 4, 0, 2, 0, 0, 10, 0, 0, 0, 0, 0};
        memcpy(book + 8, table[i].step, 4);
        for (j = 0; j < sizeof rooms / sizeof rooms[0]; j++) {
            bool bad = table[i].refusal != 0;
            uint8_t refusal = !bad && rooms[j] < GRELFINT_COMPILED ? 9 : table[i].refusal;
            grelfint_compile_answer answer;

            memset(out, 0xEE, sizeof out);
            answer = grelfint_compile_default(book, sizeof book, 0, 1, out, rooms[j]);
            check(table[i].name, answer.refusal == refusal && answer.step == (bad ? 1 : 0) &&
                                     (answer.length == 0) == (refusal != 0) &&
                                     (memcmp(out, untouched, sizeof out) == 0) == (refusal != 0));
        }
    }
}

static void scenes(void)
{
    static const uint8_t book[] = {1, 4, 0, 2, 0, 0, 0x0A, 0, 0, 2, 0x64, 2};
    static const uint8_t want[] = {1, 0x13, 1, 0, 2, 5, 0xFF, 0xFF, 0x0C, 0x71, 0, 0xFF,
                                   0xFF, 5, 0, 0, 0, 0x0A, 0xE4, 2, 0, 0xEE};
    static uint8_t out[GRELFINT_COMPILED];
    grelfint_compile_answer answer;
    grelfint_request_answer taken;

    memset(out, 0xEE, sizeof out);
    answer = grelfint_compile_default(book, sizeof book, 0, 1, out, sizeof out);
    check("compile", answer.refusal == 0 && answer.length == sizeof want - 1 && memcmp(out, want, sizeof want) == 0);
    fresh(3, 1);
    taken = grelfint_handle_request(node, out + 2, out[1], eeprom, sizeof eeprom, external,
                                    sizeof external, response, GRELFINT_RESPONSE);
    node = taken.node;
    check("taken", taken.refusal == 0 && taken.length == 8 && response[6] == 0);
    check("same as the steps", lamp_is(0, 10, 0) && lamp_is(1, 0, 0) && lamp_is(2, 100, 120));
    answer = grelfint_compile(book, sizeof book, 0, 255, 0x2471, out, sizeof out);
    check("broadcast", answer.refusal == 0 && out[2] == 0xFF && out[3] == 0 && out[6] == 0x71 && out[7] == 0x24);
    check("address 240", grelfint_compile_default(book, sizeof book, 0, 240, out, sizeof out).refusal == 1);
    check("cut book", grelfint_compile_default(book, sizeof book - 1, 0, 1, out, sizeof out).refusal == 6);
    check("no such scene", grelfint_compile_default(book, sizeof book, 1, 1, out, sizeof out).refusal == 7);
    check("no room", grelfint_compile_default(book, sizeof book, 0, 1, out, 4095).refusal == 9);
}

/* The levels to drive, for each dimming step: the next multiple from 1 up, and
 * the level itself at 100. Lamps from the lamp count on have none. */
static void levels(void)
{
    static const uint8_t steps[] = {GRELFINT_DIMMING_STEPS};
    size_t i;

    check("nine dimming steps", sizeof steps == 9);
    for (i = 0; i < sizeof steps; i++) {
        grelfint_levels_answer answer;

        fresh(3, steps[i]);
        request("levels 1 and 100", 0x71, 0, BYTES(6, 0, 0, 0, 1, 100), 0, BYTES(0, 0));
        answer = grelfint_actual_levels(node);
        check("levels", answer.refusal == 0 && answer.levels[0] == 0 && answer.levels[1] == steps[i] &&
                            answer.levels[2] == 100 && answer.levels[3] == 0 && answer.levels[31] == 0);
        node.settings.step = 3;
        answer = grelfint_actual_levels(node);
        check("a node with dimming step 3", answer.refusal == 1 && answer.levels[1] == 0 && answer.levels[2] == 0);
    }
}

/* Compiles for these nodes; refused, nothing is written. */
static void chosen_refused(const char *name, const uint8_t *book, size_t book_length, size_t scene,
                           grelfint_node_set nodes, size_t room, uint8_t refusal)
{
    static uint8_t out[GRELFINT_COMPILED], untouched[GRELFINT_COMPILED];
    grelfint_compile_answer answer;

    memset(out, 0xEE, sizeof out);
    memset(untouched, 0xEE, sizeof untouched);
    answer = grelfint_compile_selected(book, book_length, scene, nodes, 0x2471, out, room);
    check(name, answer.refusal == refusal && answer.length == 0 && memcmp(out, untouched, sizeof out) == 0);
    answer = grelfint_compile_selected_default(book, book_length, scene, nodes, out, room);
    check(name, answer.refusal == refusal && answer.length == 0 && memcmp(out, untouched, sizeof out) == 0);
}

static void chosen_scenes(void)
{
    static const uint8_t book[] = {1, 4, 0, 2, 0, 0, 0x0A, 0, 0, 2, 0x64, 2};
    static const uint8_t bad[] = {1, 4, 0, 1, 0, 32, 0, 0};
    static const uint8_t want[] = {
        1, 0x31,                      /* one request of 49 bytes */
        0xFF, 0, 2, 0x0B, 0xFF, 0xFF, /* to all nodes: a selective batch */
        2, 2, 0, 0, 0, 0, 0, 0, 0, 0, /* of nodes 1 and 9 */
        0, 0, 0, 0, 0, 0, 0, 0, 0, 0,
        0, 0, 0, 0, 0, 0, 0, 0, 0, 0,
        0x0C, 0x71, 0, 0xFF, 0xFF, 5, 0, 0, 0, 0x0A, 0xE4, 2, /* set lamps 0 and 2 */
        0,
        0xEE /* not written */
    };
    static uint8_t out[GRELFINT_COMPILED];
    const grelfint_node_set nodes = set_of(BYTES(1, 9)), none = {{0}}, address_0_too = {{3}};
    grelfint_compile_answer answer;

    memset(out, 0xEE, sizeof out);
    answer = grelfint_compile_selected_default(book, sizeof book, 0, nodes, out, sizeof out);
    check("chosen: nodes 1 and 9", answer.refusal == 0 && answer.length == sizeof want - 1 &&
                                       memcmp(out, want, sizeof want) == 0);
    answer = grelfint_compile_selected(book, sizeof book, 0, set_of(BYTES(239)), 0x2471, out, sizeof out);
    check("chosen: node 239", answer.refusal == 0 && out[8] == 0 && out[9] == 0 && out[37] == 0x80);
    check("chosen: HWPID", out[6] == 0x71 && out[7] == 0x24 && out[41] == 0x71 && out[42] == 0x24);

    chosen_refused("chosen: no node", book, sizeof book - 1, 1, none, 0, 1);
    chosen_refused("chosen: address 0", book, sizeof book - 1, 1, address_0_too, 0, 1);
    chosen_refused("chosen: cut book", book, sizeof book - 1, 1, nodes, 0, 6);
    chosen_refused("chosen: no such scene", bad, sizeof bad, 1, nodes, 0, 7);
    chosen_refused("chosen: bad step", bad, sizeof bad, 0, nodes, 0, 82);
    chosen_refused("chosen: no room", book, sizeof book, 0, nodes, GRELFINT_COMPILED - 1, 9);
}

/* A fresh node with three lamps at this address. */
static grelfint_node node_at(uint16_t address)
{
    grelfint_settings settings = usual;

    settings.address = address;
    return started(settings);
}

/* The node after it has handled every request of a compiled scene, in order. The
 * requests are broadcasts, so there is no response to send. */
static grelfint_node handle_all(grelfint_node before, const uint8_t *compiled)
{
    const uint8_t requests = compiled[0];
    const uint8_t *lengths = compiled + 1;
    const uint8_t *frame = lengths + requests;
    grelfint_node after = before;
    size_t i;

    for (i = 0; i < requests; i++) {
        grelfint_request_answer answer =
            grelfint_handle_request(after, frame, lengths[i], eeprom, sizeof eeprom, external, sizeof external,
                                    response, GRELFINT_RESPONSE);

        check("broadcast: no response", answer.refusal == 0 && answer.length == 0);
        after = answer.node;
        frame += lengths[i];
    }
    return after;
}

/* A gateway compiles a scene once, for nodes 1 and 9, and sends its requests to
 * all nodes. Nodes 1 and 9 end as if they had executed the steps one by one;
 * node 2, which receives the same requests, stays as it was. */
static void one_scene_for_chosen_nodes(void)
{
    static const uint8_t book[] = {
        1, 4, 0, 4,   /* one scene of four steps, which start at offset 4 */
        0, 0, 10, 0,  /* set lamp 0 to 10 */
        0, 2, 100, 2, /* set lamp 2 to 100 for two minutes */
        1, 0, 5, 0,   /* raise lamp 0 by 5 */
        2, 2, 40, 1   /* lower lamp 2 by 40, for one minute from then */
    };
    static uint8_t compiled[GRELFINT_COMPILED];
    const grelfint_node first = node_at(1), second = node_at(2), ninth = node_at(9);
    grelfint_node_set chosen = {{0}};
    grelfint_compile_answer answer;
    grelfint_node after;

    chosen.bits[1 / 8] |= 1u << (1 % 8);
    chosen.bits[9 / 8] |= 1u << (9 % 8);
    answer = grelfint_compile_selected_default(book, sizeof book, 0, chosen, compiled, sizeof compiled);
    check("broadcast: compiled to two requests", answer.refusal == 0 && compiled[0] == 2);

    node = handle_all(first, compiled);
    check("broadcast: node 1", lamp_is(0, 15, 0) && lamp_is(1, 0, 0) && lamp_is(2, 60, 60));
    node = handle_all(ninth, compiled);
    check("broadcast: node 9", lamp_is(0, 15, 0) && lamp_is(1, 0, 0) && lamp_is(2, 60, 60));
    after = handle_all(second, compiled);
    check("broadcast: node 2", same_node(&after, &second));
}

/* The guide's example (document 000, 2.3.2): write 7E and 7D at RAM address 0 of
 * node 2F. */
static const uint8_t guide_message[9] = {0x2F, 0, 5, 1, 0xFF, 0xFF, 0, 0x7E, 0x7D};
static const uint8_t guide_line[15] = {0x7E, 0x2F, 0, 5, 1, 0xFF, 0xFF, 0, 0x7D, 0x5E, 0x7D, 0x5D, 0x7D, 0x5E, 0x7E};

static bool same_receiver(const grelfint_receiver *a, const grelfint_receiver *b)
{
    return a->limit == b->limit && a->phase == b->phase && a->count == b->count &&
           memcmp(a->bytes, b->bytes, sizeof a->bytes) == 0;
}

/* Nothing but what the arguments say; `frame` is followed by zeros. */
static bool received(const grelfint_receive_answer *answer, uint8_t event, uint8_t cause, size_t taken,
                     const uint8_t *frame, size_t length)
{
    uint8_t want[GRELFINT_UART_FRAME] = {0};

    if (length > 0)
        memcpy(want, frame, length);
    return answer->refusal == 0 && answer->event == event && answer->cause == cause && answer->taken == taken &&
           answer->length == length && memcmp(answer->frame, want, sizeof want) == 0;
}

static void serial_sender(void)
{
    static const uint8_t message[GRELFINT_UART_FRAME + 1] = {1, 2, 3, 4, 5, 6};
    uint8_t out[GRELFINT_UART_FRAMED], untouched[GRELFINT_UART_FRAMED];
    grelfint_length_answer answer;
    size_t room;

    memset(untouched, 0xEE, sizeof untouched);
    memset(out, 0xEE, sizeof out);
    answer = grelfint_uart_frame(guide_message, sizeof guide_message, out, sizeof out);
    check("framed", answer.refusal == 0 && answer.length == sizeof guide_line &&
                        memcmp(out, guide_line, sizeof guide_line) == 0 &&
                        memcmp(out + sizeof guide_line, untouched, sizeof out - sizeof guide_line) == 0);

    memset(out, 0xEE, sizeof out);
    for (room = 0; room < sizeof guide_line; room++) {
        answer = grelfint_uart_frame(guide_message, sizeof guide_message, out, room);
        check("no room", answer.refusal == 11 && answer.length == 0 && memcmp(out, untouched, sizeof out) == 0);
    }
    answer = grelfint_uart_frame(guide_message, sizeof guide_message, out, sizeof guide_line);
    check("just enough room", answer.refusal == 0 && answer.length == sizeof guide_line);

    memset(out, 0xEE, sizeof out);
    answer = grelfint_uart_frame(message, 5, out, 0);
    check("5 bytes", answer.refusal == 2 && answer.length == 0);
    answer = grelfint_uart_frame(message, 65, out, sizeof out);
    check("65 bytes", answer.refusal == 2 && answer.length == 0 && memcmp(out, untouched, sizeof out) == 0);
    check("6 bytes", grelfint_uart_frame(message, 6, out, sizeof out).length == 9);
    check("64 bytes", grelfint_uart_frame(message, 64, out, sizeof out).length == 67);
}

/* Receives these bytes in one part after the first flag, at a node. */
static grelfint_receive_answer receive(const uint8_t *bytes, size_t length)
{
    grelfint_receiver receiver = grelfint_uart_receiver(false);

    receiver.phase = 1;
    return grelfint_uart_receive(receiver, bytes, length);
}

static void dropped(const char *name, const uint8_t *bytes, size_t length, uint8_t cause)
{
    grelfint_receive_answer answer = receive(bytes, length);

    check(name, received(&answer, 2, cause, length, NO_BYTES));
}

static void serial_receiver(void)
{
    const grelfint_receiver fresh_node = grelfint_uart_receiver(false);
    uint8_t line[62 + 2 + 1]; /* one byte over the limit, a check byte and a flag */
    grelfint_receive_answer answer;

    check("node's limit", fresh_node.limit == 62 && fresh_node.phase == 0 && fresh_node.count == 0);
    check("gateway's limit", grelfint_uart_receiver(true).limit == 64);

    answer = grelfint_uart_receive(fresh_node, guide_line, sizeof guide_line);
    check("received", received(&answer, 1, 0, sizeof guide_line, guide_message, sizeof guide_message));
    answer = grelfint_uart_receive(fresh_node, BYTES(0, 0x7D, 0x5E));
    check("before the first flag",
          received(&answer, 0, 0, 3, NO_BYTES) && same_receiver(&answer.receiver, &fresh_node));
    answer = receive(BYTES(0x7E, 0x7E));
    check("flags alone", received(&answer, 0, 0, 2, NO_BYTES));

    memset(line, 1, sizeof line);
    line[sizeof line - 1] = 0x7E;
    dropped("too long", line, sizeof line, 1);
    dropped("cut", BYTES(0x7D, 0x7E), 2);
    dropped("short", BYTES(1, 2, 3, 0x7E), 3);
    dropped("check byte", BYTES(0x2F, 0, 5, 1, 0xFF, 0xFF, 0, 1, 0x7E), 4);

    /* escapes do not count, not even the one that waits for its byte */
    line[sizeof line - 2] = 0x7D;
    dropped("cut at the limit", line, sizeof line, 2);
    dropped("cut and short", BYTES(1, 2, 3, 0x7D, 0x7E), 2);
}

/* Each clause of the rule about receivers, on no bytes and on a frame. */
static void serial_records(void)
{
    static const struct {
        uint8_t limit, phase, count;
        bool sound;
    } table[] = {
        {62, 0, 0, true},  {62, 1, 64, true},  {64, 2, 66, true},  {64, 2, 0, true},  {61, 1, 0, false},
        {63, 1, 0, false}, {65, 1, 0, false},  {64, 3, 0, false},  {62, 1, 65, false}, {64, 2, 67, false},
        {62, 0, 1, false}, {64, 0, 66, false},
    };
    size_t i;

    for (i = 0; i < sizeof table / sizeof table[0]; i++) {
        const uint8_t refusal = table[i].sound ? 0 : 1;
        grelfint_receiver receiver = grelfint_uart_receiver(true);
        grelfint_receive_answer answer;

        receiver.limit = table[i].limit;
        receiver.phase = table[i].phase;
        receiver.count = table[i].count;
        answer = grelfint_uart_receive(receiver, guide_line, 0);
        check("record, no bytes", answer.refusal == refusal && answer.event == 0 && answer.taken == 0 &&
                                      same_receiver(&answer.receiver, &receiver));
        answer = grelfint_uart_receive(receiver, guide_line, sizeof guide_line);
        check("record, a frame", answer.refusal == refusal && (answer.taken > 0) == table[i].sound &&
                                     same_receiver(&answer.receiver, &receiver) != table[i].sound);
    }
}

/* Framed and received, a message of 6 bytes up to the limit comes back. */
static void serial_lengths(void)
{
    uint8_t message[GRELFINT_UART_FRAME], line[GRELFINT_UART_FRAMED];
    size_t length;

    memset(message, 0x7D, sizeof message);
    for (length = 6; length <= sizeof message; length++) {
        size_t framed = grelfint_uart_frame(message, length, line, sizeof line).length;
        grelfint_receive_answer answer = grelfint_uart_receive(grelfint_uart_receiver(true), line, framed);

        check("at a gateway", received(&answer, 1, 0, framed, message, length));
        answer = grelfint_uart_receive(grelfint_uart_receiver(false), line, framed);
        check("at a node", length <= 62 ? received(&answer, 1, 0, framed, message, length)
                                        : received(&answer, 2, 1, framed, NO_BYTES));
    }
}

/* A gateway frames a request; the node's UART gives one byte at a time. Only the
 * last one completes the frame. */
static void one_request_over_the_serial_line(void)
{
    grelfint_receiver receiver = grelfint_uart_receiver(false);
    uint8_t line[GRELFINT_UART_FRAMED];
    grelfint_length_answer framed =
        grelfint_uart_frame(guide_message, sizeof guide_message, line, sizeof line);
    grelfint_receive_answer answer;
    size_t i;

    check("on the line", framed.refusal == 0);
    for (i = 0; i < framed.length; i++) {
        answer = grelfint_uart_receive(receiver, line + i, 1);
        receiver = answer.receiver;
        if (i + 1 < framed.length)
            check("not yet", received(&answer, 0, 0, 1, NO_BYTES));
        else
            check("arrived", received(&answer, 1, 0, 1, guide_message, sizeof guide_message));
    }
}

/* A gateway and the output buffer of its releases. Each call below starts from
 * the gateway that the last one left. */
static grelfint_gateway gateway;
static uint8_t confirmation[GRELFINT_RESPONSE + 8];

/* A gateway in an STD network with node 5 bonded. */
static void start_with_node_5(void)
{
    gateway = grelfint_bond(grelfint_gateway_start(false, 7), 5).gateway;
}

/* Fields, not bytes: a record has padding. */
static bool same_place(const grelfint_waiting *a, const grelfint_waiting *b)
{
    return a->delay == b->delay && a->length == b->length && a->hops == b->hops &&
           a->response_hops == b->response_hops && memcmp(a->frame, b->frame, sizeof a->frame) == 0;
}

static bool same_gateway(const grelfint_gateway *a, const grelfint_gateway *b)
{
    size_t i;

    for (i = 0; i < GRELFINT_QUEUE; i++)
        if (!same_place(&a->queue.places[i], &b->queue.places[i]))
            return false;
    return memcmp(a->bonds, b->bonds, sizeof a->bonds) == 0 && a->queue.last == b->queue.last &&
           a->queue.next == b->queue.next && a->queue.network == b->queue.network &&
           a->queue.dpa_value == b->queue.dpa_value && a->queue.count == b->queue.count;
}

/* Adds or removes a bond; refused, the gateway stays as it was. */
static void bond(const char *name, bool add, uint16_t address, uint8_t refusal, uint8_t count)
{
    grelfint_bond_answer answer = add ? grelfint_bond(gateway, address) : grelfint_unbond(gateway, address);

    check(name, answer.refusal == refusal && answer.count == count &&
                    (refusal == 0 || same_gateway(&answer.gateway, &gateway)));
    gateway = answer.gateway;
}

/* The bonds and their number; each byte of the bitmap that is not one of the
 * three is 0. */
static void bonds_are(const char *name, uint8_t count, uint8_t byte_0, uint8_t byte_1, uint8_t byte_29)
{
    uint8_t want[GRELFINT_BONDS] = {byte_0, byte_1};
    grelfint_count_answer counted = grelfint_bond_count(gateway);
    grelfint_bitmap_answer answer = grelfint_bond_bitmap(gateway);

    want[29] = byte_29;
    check(name, counted.refusal == 0 && counted.count == count);
    check(name, answer.refusal == 0 && memcmp(answer.bitmap, want, sizeof want) == 0);
}

static void gateway_bonds(void)
{
    static const uint16_t none[] = {0, 240, 254, 255, 256, 257, 0x01EF, 0xFFFF};
    grelfint_bond_answer cleared;
    size_t i;

    gateway = grelfint_gateway_start(true, 9);
    check("started", gateway.queue.network == 1 && gateway.queue.dpa_value == 9 && gateway.queue.count == 0 &&
                         gateway.queue.last == 0 && gateway.queue.next == 0);
    bonds_are("no bonds", 0, 0, 0, 0);
    for (i = 0; i < sizeof none / sizeof none[0]; i++) {
        bond("cannot be bonded", true, none[i], 12, 0);
        bond("cannot be removed", false, none[i], 12, 0);
    }
    bond("lowest", true, 1, 0, 1);
    bond("highest", true, 239, 0, 2);
    bond("between", true, 12, 0, 3);
    bonds_are("bitmap", 3, 0x02, 0x10, 0x80);
    bond("bonded already", true, 12, 12, 0);
    bond("removed", false, 12, 0, 2);
    bond("removed already", false, 12, 12, 0);
    bonds_are("after removing", 2, 0x02, 0, 0x80);
    cleared = grelfint_clear_bonds(gateway);
    gateway = cleared.gateway;
    check("cleared", cleared.refusal == 0 && cleared.count == 0);
    bonds_are("after clearing", 0, 0, 0, 0);
}

/* Puts a frame into the queue; refused, the gateway stays as it was. */
static void to_queue(const char *name, const uint8_t *frame, size_t length, uint8_t hops, uint8_t response_hops,
                    uint16_t delay, uint64_t time, uint8_t refusal)
{
    grelfint_gateway_answer answer = grelfint_send(gateway, frame, length, hops, response_hops, delay, time);

    check(name, answer.refusal == refusal && (refusal == 0 || same_gateway(&answer.gateway, &gateway)));
    gateway = answer.gateway;
}

/* Releases at this time: this frame with this confirmation, or with a length of
 * 0 nothing, and then nothing is written. */
static void release(const char *name, uint64_t time, const uint8_t *frame, size_t length, const uint8_t *confirmed,
                    size_t confirmed_length)
{
    uint8_t want[sizeof confirmation], want_frame[GRELFINT_FRAME] = {0};
    grelfint_release_answer answer;

    memset(confirmation, 0xEE, sizeof confirmation);
    memset(want, 0xEE, sizeof want);
    if (length > 0) {
        memcpy(want_frame, frame, length);
        memcpy(want, confirmed, confirmed_length);
    }
    answer = grelfint_release(gateway, time, confirmation, GRELFINT_RESPONSE);
    check(name, answer.refusal == 0 && answer.released == (length > 0) && answer.length == confirmed_length &&
                    answer.frame_length == length && memcmp(answer.frame, want_frame, sizeof want_frame) == 0 &&
                    answer.gateway.queue.last == time && memcmp(confirmation, want, sizeof want) == 0);
    gateway = answer.gateway;
}

static void release_refused(const char *name, uint64_t time, size_t room, uint8_t refusal)
{
    static const uint8_t zeros[GRELFINT_FRAME];
    uint8_t untouched[sizeof confirmation];
    grelfint_release_answer answer;

    memset(untouched, 0xEE, sizeof untouched);
    memset(confirmation, 0xEE, sizeof confirmation);
    answer = grelfint_release(gateway, time, confirmation, room);
    check(name, answer.refusal == refusal && !answer.released && answer.length == 0 && answer.frame_length == 0 &&
                    memcmp(answer.frame, zeros, sizeof zeros) == 0 && same_gateway(&answer.gateway, &gateway) &&
                    memcmp(confirmation, untouched, sizeof untouched) == 0);
}

/* Document 01's hops and delay, with the longest response: (2 + 1) x 40 + 20 +
 * (3 + 1) x 60 = 380 ms. Then a broadcast, which waits for no response:
 * (2 + 1) x 50 + 20 = 170 ms. */
static void two_requests_in_the_queue(void)
{
    static const uint8_t to_node[] = {5, 0, 0x71, 0, 0xFF, 0xFF, 1, 0, 0, 0, 10};
    static const uint8_t to_all[6 + 17] = {0xFF, 0, 2, 5, 0xFF, 0xFF};

    start_with_node_5();
    to_queue("to node 5", to_node, sizeof to_node, 2, 3, 20, 1000, 0);
    to_queue("to all nodes", to_all, sizeof to_all, 2, 3, 20, 1000, 0);
    check("two waiting", gateway.queue.count == 2 && gateway.queue.places[0].length == sizeof to_node &&
                             gateway.queue.places[1].length == sizeof to_all);
    release("the first at any time", 1000, to_node, sizeof to_node,
            BYTES(5, 0, 0x71, 0, 0xFF, 0xFF, 0xFF, 7, 2, 4, 3));
    release("too early", 1379, NO_BYTES, NO_BYTES);
    release("in time", 1380, to_all, sizeof to_all, BYTES(0xFF, 0, 2, 5, 0xFF, 0xFF, 0xFF, 7, 2, 5, 0));
    check("next", gateway.queue.next == 1380 + 170);
    release("none waiting", 5000, NO_BYTES, NO_BYTES);
}

/* Nine requests of different lengths: the ninth has to wait for a place. */
static void full_queue(void)
{
    uint8_t frame[GRELFINT_FRAME] = {5, 0, 5, 1, 0xFF, 0xFF, 0};
    uint8_t i;

    start_with_node_5();
    for (i = 0; i < 8; i++)
        to_queue("one of eight", frame, 8u + i, 0, 0, 0, 0, 0);
    to_queue("the ninth", frame, 8 + 8, 0, 0, 0, 0, 13);
    gateway = grelfint_clear_bonds(gateway).gateway; /* withdraws nothing */
    for (i = 0; i < 8; i++) {
        release("in order", 100u * i, frame, 8u + i, BYTES(5, 0, 5, 1, 0xFF, 0xFF, 0xFF, 7, 0, 4, 0));
        if (i == 0) {
            to_queue("no bond", frame, 8 + 8, 0, 0, 0, 0, 12);
            gateway = grelfint_bond(gateway, 5).gateway;
            to_queue("a place again", frame, 8 + 8, 0, 0, 0, 0, 0);
        }
    }
    release("the ninth, released", 800, frame, 8 + 8, BYTES(5, 0, 5, 1, 0xFF, 0xFF, 0xFF, 7, 0, 4, 0));
}

static void gateway_refusals(void)
{
    static const uint8_t frame[63] = {5, 0, 0x71, 0, 0xFF, 0xFF}, other[6] = {6}, all[6] = {0xFF};
    static const uint8_t high_byte[6] = {5, 1}, all_with_high_byte[6] = {0xFF, 0xFF};
    const uint64_t latest = (uint64_t)1 << 40;
    size_t i;

    start_with_node_5();
    to_queue("5 bytes", frame, 5, 0, 0, 0, 0, 2);
    to_queue("63 bytes", frame, 63, 0, 0, 0, 0, 2);
    to_queue("not bonded", other, 6, 0, 0, 0, 0, 12);
    to_queue("high byte", high_byte, 6, 0, 0, 0, 0, 12);
    to_queue("high byte of all", all_with_high_byte, 6, 0, 0, 0, 0, 12);
    to_queue("above 2^40", frame, 6, 0, 0, 0, latest + 1, 14);
    to_queue("6 bytes", frame, 6, 0, 0, 0, 100, 0);
    to_queue("before the last time", frame, 6, 0, 0, 0, 99, 14);
    to_queue("62 bytes", frame, 62, 0, 0, 0, 100, 0);
    release_refused("no room", 100, 63, 3);
    release_refused("no room, before the last time", 99, 0, 3);
    release_refused("release before the last time", 99, 64, 14);
    release_refused("release above 2^40", latest + 1, 64, 14);
    for (i = 2; i < 8; i++)
        to_queue("no bond needed", all, 6, 0, 0, 0, 100, 0);
    to_queue("length before bond", other, 5, 0, 0, 0, 99, 2);
    to_queue("bond before room", other, 6, 0, 0, 0, 99, 12);
    to_queue("room before time", all, 6, 0, 0, 0, 99, 13);

    /* at 2^40 the next release would be later */
    release("at 2^40", latest, frame, 6, BYTES(5, 0, 0x71, 0, 0xFF, 0xFF, 0xFF, 7, 0, 4, 0));
    check("next above 2^40", gateway.queue.next == latest + 100);
    release("never again", latest, NO_BYTES, NO_BYTES);
}

/* No call accepts this record; each returns it unchanged. */
static void refused_by_all(const char *name, grelfint_gateway broken)
{
    static const uint8_t frame[6] = {5, 0, 0x71, 0x3E, 0xFF, 0xFF}, zeros[GRELFINT_BONDS];
    const grelfint_gateway before = gateway;
    grelfint_bond_answer cleared = grelfint_clear_bonds(broken);
    grelfint_count_answer counted = grelfint_bond_count(broken);
    grelfint_bitmap_answer bitmap = grelfint_bond_bitmap(broken);

    gateway = broken;
    bond(name, true, 6, 1, 0);
    bond(name, false, 5, 1, 0);
    check(name, cleared.refusal == 1 && cleared.count == 0 && same_gateway(&cleared.gateway, &broken));
    check(name, counted.refusal == 1 && counted.count == 0);
    check(name, bitmap.refusal == 1 && memcmp(bitmap.bitmap, zeros, sizeof zeros) == 0);
    to_queue(name, frame, sizeof frame, 0, 0, 0, 500, 1);
    release_refused(name, 500, GRELFINT_RESPONSE, 1);
    gateway = before;
}

/* Each clause of the rule about gateways, broken alone. */
static void gateway_records(void)
{
    static const uint8_t frame[GRELFINT_FRAME] = {5, 0, 0x71, 0, 0x71};
    grelfint_gateway full, sound;
    size_t i;

    start_with_node_5();
    to_queue("first", frame, 10, 0, 0, 0, 500, 0);
    to_queue("second", frame, 62, 0, 0, 0, 500, 0);
    sound = full = gateway;
    for (i = 2; i < 8; i++)
        full.queue.places[i] = full.queue.places[0];
    full.queue.count = 8;

#define BROKEN(record, field, value)               \
    do {                                           \
        grelfint_gateway broken = (record);        \
        broken.field = (value);                    \
        refused_by_all("broken: " #field, broken); \
    } while (0)

    BROKEN(sound, bonds[0], 1);
    BROKEN(sound, bonds[30], 1);
    BROKEN(sound, bonds[31], 0x80);
    BROKEN(sound, queue.network, 2);
    BROKEN(full, queue.count, 9);
    BROKEN(sound, queue.places[0].length, 5);
    BROKEN(sound, queue.places[1].length, 63);
    BROKEN(sound, queue.places[0].frame[0], 0);
    BROKEN(sound, queue.places[0].frame[0], 240);
    BROKEN(sound, queue.places[1].frame[1], 1);
    BROKEN(sound, queue.places[0].frame[10], 1);
    BROKEN(sound, queue.places[0].frame[61], 1);
    BROKEN(sound, queue.places[2].delay, 1);
    BROKEN(sound, queue.places[3].length, 6);
    BROKEN(sound, queue.places[5].hops, 1);
    BROKEN(sound, queue.places[6].response_hops, 1);
    BROKEN(sound, queue.places[7].frame[61], 1);
    BROKEN(sound, queue.last, ((uint64_t)1 << 40) + 1);
    BROKEN(sound, queue.next, 500 + 116736);
#undef BROKEN
    gateway.queue.next = 500 + 116735;
    release("the longest wait", 116734 + 500, NO_BYTES, NO_BYTES);
    release("the longest wait is over", 116735 + 500, frame, 10, BYTES(5, 0, 0x71, 0, 0x71, 0, 0xFF, 7, 0, 4, 0));
}

int main(void)
{
    every_field_of_a_node();
    lamps();
    addresses();
    ticks();
    memories();
    code_checks();
    batches();
    keeps();
    keep_ticks();
    broken_lists();
    selective_batches();
    frc();
    confirmations();
    levels();
    scenes();
    bad_steps();
    chosen_scenes();
    one_scene_for_chosen_nodes();
    serial_sender();
    serial_receiver();
    serial_records();
    serial_lengths();
    one_request_over_the_serial_line();
    gateway_bonds();
    two_requests_in_the_queue();
    full_queue();
    gateway_refusals();
    gateway_records();
    if (failed > 0) {
        printf("%d passed, %d failed\n", passed, failed);
        return 1;
    }
    printf("%d passed\n", passed);
    return 0;
}
