/* Requests as firmware written by hand in C would handle them: document 01 with
 * changes 1/12 to 4/12 of document 02. */
#include "in_place.h"

#include <string.h>

enum { HEADER = 6, LONGEST_FRAME = 62, ENTRY_HEADER = 5, RESPONSE_HEADER = 8, BROADCAST = 0x00FF, ANY_HWPID = 0xFFFF };
enum { OS = 0x02, EEPROM = 0x03, EXTERNAL = 0x04, RAM = 0x05, LIGHT = 0x71 }; /* PNUM */
enum { SET = 0x00, RAISE = 0x01, LOWER = 0x02, ENUMERATE = 0x3E };            /* PCMD of LIGHT */
enum { BATCH = 0x05, CODE_CHECK = 0x0A, SELECTIVE_BATCH = 0x0B };             /* PCMD of OS */
enum { LOAD = 0x01, PLUG_IN = 0x02, OTHER_FLAGS = 0xFC };                     /* flags of CODE_CHECK */
enum { SHORT_ENTRY = 1, PAST_THE_END = 2, NO_ZERO = 3, AFTER_ZERO = 4 };      /* reasons */
enum { FULL = 100, LONGEST_TIME = 7620, KEEP = 127, LOW_BITS = 0x7F, TIMED = 0x80 };

/* A request ends with the number of its data bytes, or with one of these: minus
 * its ErrN, or no answer because it selects other nodes. */
enum { FAIL = -1, BAD_PCMD = -2, BAD_PNUM = -3, BAD_ADDR = -4, BAD_LENGTH = -5, BAD_DATA = -6, BAD_HWPID = -7 };
enum { NOT_SELECTED = -8 };

/* What a call is lent, and what it reports beside the response. */
typedef struct {
    grelfint_node *node;
    uint8_t *eeprom, *external;
    bool load;
    uint8_t reason, place;
} call;

/* A request without NADR, or an entry of a list. */
typedef struct {
    uint8_t pnum, pcmd;
    uint16_t hwpid;
    const uint8_t *pdata;
    size_t length;
    uint8_t *data; /* of its answer; null if none is sent */
} request;

static uint16_t word(const uint8_t *bytes)
{
    return (uint16_t)(bytes[0] | bytes[1] << 8);
}

/* For a multiplication in place of a division by the step; 0 for a bad step. */
#define INVERSE(step) [step] = 65536 / (step) + 1
static const uint32_t inverses[FULL + 1] = {
    INVERSE(1), INVERSE(2), INVERSE(4), INVERSE(5), INVERSE(10), INVERSE(20), INVERSE(25), INVERSE(50), INVERSE(100)
};

/* The smallest multiple of the step not below the level. */
static uint8_t actual_level(uint8_t level, uint8_t step)
{
    return (uint8_t)(((level + step - 1u) * inverses[step] >> 16) * step);
}

/* Lamps are read as words and all of them tested, so that gcc uses vectors (from version 12 on). */
static bool is_sound(const grelfint_node *node)
{
    _Static_assert(sizeof(grelfint_lamp) == 4 && __BYTE_ORDER__ == __ORDER_LITTLE_ENDIAN__, "level, padding, seconds");
    const grelfint_settings *s = &node->settings;
    const int count = s->lamp_count;
    uint32_t lamps[GRELFINT_LAMPS];
    int sound = 1;

    memcpy(lamps, node->lamps, sizeof lamps);
    for (int i = 0; i < GRELFINT_LAMPS; i++) {
        const int level = (uint8_t)lamps[i], seconds = (uint16_t)(lamps[i] >> 16);
        sound &= (level <= (i < count ? FULL : 0)) & (seconds <= (level > 0 ? LONGEST_TIME : 0));
    }
    return sound && s->address >= 1 && s->address <= 239 && count >= 1 && count <= GRELFINT_LAMPS &&
           s->step <= FULL && inverses[s->step] != 0;
}

/* `seconds` is 0 exactly for an entry without a time. */
static void change_lamp(grelfint_lamp *lamp, uint8_t pcmd, int power, uint16_t seconds)
{
    const int before = lamp->level;
    const int wanted = (pcmd == SET ? 0 : before) + (pcmd == LOWER ? -power : power);

    if (power != KEEP) {
        lamp->level = (uint8_t)(wanted < 0 ? 0 : wanted > FULL ? FULL : wanted);
        lamp->seconds = lamp->level > 0 ? seconds : 0;
    } else if (seconds > 0 && before > 0) {
        lamp->seconds = seconds;
    }
}

/* Whether the bytes up to `end` are exactly `count` valid entries. */
static bool entries_valid(const uint8_t *at, const uint8_t *end, int count)
{
    for (; count > 0; count--) {
        if (at == end)
            return false;
        const uint8_t power = *at++;
        if ((power & LOW_BITS) > FULL && (power & LOW_BITS) != KEEP)
            return false;
        if (power & TIMED && (at == end || (*at++ & LOW_BITS) == 0))
            return false;
    }
    return at == end;
}

static int change_lamps(grelfint_node *node, const request *r)
{
    if (r->length < 4)
        return BAD_DATA;
    const uint8_t *at = r->pdata + 4;
    uint32_t bitmap = word(r->pdata) | (uint32_t)word(r->pdata + 2) << 16;
    const int count = __builtin_popcount(bitmap);
    if (!entries_valid(at, r->pdata + r->length, count))
        return BAD_DATA;

    /* no lamp changes before this: every entry is known to be valid */
    uint8_t *previous = r->data;
    for (; bitmap != 0; bitmap &= bitmap - 1) {
        const int i = __builtin_ctz(bitmap);
        const uint8_t power = *at++;
        const uint8_t time = power & TIMED ? *at++ : 0;
        const uint16_t seconds = (uint16_t)(time & TIMED ? time & LOW_BITS : 60 * time);

        if (previous != NULL) /* an unimplemented lamp has level 0 */
            *previous++ = actual_level(node->lamps[i].level, node->settings.step);
        if (i < node->settings.lamp_count)
            change_lamp(&node->lamps[i], r->pcmd, power & LOW_BITS, seconds);
    }
    return count;
}

static int handle_light(grelfint_node *node, const request *r)
{
    if (r->pcmd <= LOWER)
        return change_lamps(node, r);
    if (r->pcmd != ENUMERATE)
        return BAD_PCMD;
    if (r->length != 0)
        return BAD_LENGTH;
    if (r->data != NULL)
        *r->data = node->settings.lamp_count;
    return 1;
}

/* The PCMD after `read` writes. */
static int handle_memory(const request *r, uint8_t read, size_t address_size, uint8_t *bytes, size_t size, size_t longest)
{
    const bool reads = r->pcmd == read;
    if (!reads && r->pcmd != read + 1)
        return BAD_PCMD;
    if (reads ? r->length != address_size + 1 : r->length <= address_size)
        return BAD_LENGTH;
    const uint8_t *rest = r->pdata + address_size; /* the length to read, or the bytes to write */
    const size_t start = address_size == 1 ? r->pdata[0] : word(r->pdata);
    const size_t length = reads ? *rest : r->length - address_size;
    if (length > longest)
        return BAD_LENGTH;
    if (start >= size || start + length > size)
        return BAD_ADDR;
    if (!reads)
        memcpy(bytes + start, rest, length);
    else if (r->data != NULL)
        memcpy(r->data, bytes + start, length);
    return reads ? (int)length : 0;
}

/* What a request and an entry of a list can both ask for. */
static int handle_peripheral(const call *c, const request *r)
{
    switch (r->pnum) {
    case EEPROM:
        return handle_memory(r, 0x00, 1, c->eeprom, GRELFINT_EEPROM, 55);
    case EXTERNAL:
        return handle_memory(r, 0x02, 2, c->external, GRELFINT_EXTERNAL, 54);
    case RAM:
        return handle_memory(r, 0x00, 1, c->node->ram, GRELFINT_RAM, 48);
    case LIGHT:
        return handle_light(c->node, r);
    default:
        return BAD_PNUM;
    }
}

static bool accepts(const grelfint_node *node, uint16_t hwpid)
{
    return hwpid == node->settings.hwpid || hwpid == ANY_HWPID;
}

/* Why the list from *at on cannot be read, or 0; *at moves to the fault. */
static uint8_t list_fault(const uint8_t *pdata, size_t length, size_t *at)
{
    for (; *at < length; *at += pdata[*at]) {
        if (pdata[*at] == 0)
            return ++*at == length ? 0 : AFTER_ZERO;
        if (pdata[*at] < ENTRY_HEADER)
            return SHORT_ENTRY;
        if (pdata[*at] > length - *at)
            return PAST_THE_END;
    }
    return NO_ZERO;
}

/* No entry runs before the whole list is known to be sound. */
static int handle_list(call *c, const request *r, size_t start)
{
    size_t at = start;
    c->reason = list_fault(r->pdata, r->length, &at);
    if (c->reason != 0) {
        c->place = (uint8_t)at;
        return BAD_DATA;
    }
    for (const uint8_t *e = r->pdata + start; *e != 0; e += *e) {
        const request entry = {e[1], e[2], word(e + 3), e + ENTRY_HEADER, (size_t)*e - ENTRY_HEADER, NULL};
        if (accepts(c->node, entry.hwpid))
            handle_peripheral(c, &entry); /* an entry's error is not reported */
    }
    return 0;
}

/* Each of 16 columns has sums of its own, so that gcc uses vectors; those of
 * 1,024 rows fit in 32 bits. The high sum has a byte once for each byte from it
 * to the end: 16 times for each row from its own on, less the columns before it.
 * Carries keep a sum's remainder modulo 255, and never lead back to 0. */
static uint16_t checksum(uint64_t low, const uint8_t *image, size_t length)
{
    uint32_t lows[16] = {0}, highs[16] = {0};
    size_t at = 0;

    for (; at + 16 <= length; at += 16)
        for (size_t i = 0; i < 16; i++)
            highs[i] += lows[i] += image[at + i];
    uint64_t high = at * low;
    for (uint32_t i = 0; i < 16; i++) {
        low += lows[i];
        high += 16 * (uint64_t)highs[i] - i * lows[i];
    }
    for (; at < length; at++)
        high += low += image[at];
    return (uint16_t)(((low - 1) % 255 + 1) | ((high - 1) % 255 + 1) << 8);
}

static int check_code(call *c, const request *r)
{
    if (r->length != 7)
        return BAD_LENGTH;
    const uint8_t flags = r->pdata[0];
    const size_t address = word(r->pdata + 1), length = word(r->pdata + 3);
    if (flags & OTHER_FLAGS)
        return FAIL;
    if (length == 0 || (flags & PLUG_IN ? length % 20 : length % 64) != 0)
        return BAD_DATA;
    if (address + length > GRELFINT_EXTERNAL)
        return BAD_ADDR;
    const bool matches = checksum(flags & PLUG_IN ? 3 : 1, c->external + address, length) == word(r->pdata + 5);
    c->load = matches && flags & LOAD;
    if (r->data != NULL)
        *r->data = matches;
    return 1;
}

static int handle_os(call *c, const request *r)
{
    const uint16_t own = c->node->settings.address;
    const size_t list_start = r->pcmd == SELECTIVE_BATCH ? GRELFINT_NODE_SET : 0;

    if (r->pcmd == CODE_CHECK)
        return check_code(c, r);
    if (r->pcmd != BATCH && r->pcmd != SELECTIVE_BATCH)
        return BAD_PCMD;
    if (r->length <= list_start)
        return BAD_LENGTH;
    if (r->pcmd == SELECTIVE_BATCH && (r->pdata[own / 8] >> own % 8 & 1) == 0)
        return NOT_SELECTED;
    return handle_list(c, r, list_start);
}

/* Writes the header in front of the data; returns the length of both. */
static size_t respond(uint8_t *response, const grelfint_settings *s, const request *r, int outcome)
{
    const uint8_t header[RESPONSE_HEADER] = {
        (uint8_t)s->address, (uint8_t)(s->address >> 8), r->pnum, r->pcmd | 0x80,
        (uint8_t)s->hwpid, (uint8_t)(s->hwpid >> 8), (uint8_t)(outcome < 0 ? -outcome : 0), s->dpa_value
    };
    memcpy(response, header, sizeof header);
    return RESPONSE_HEADER + (size_t)(outcome < 0 ? 0 : outcome);
}

in_place_answer in_place_request(
    grelfint_node *node,
    const uint8_t *frame, size_t frame_length,
    uint8_t *eeprom, size_t eeprom_length,
    uint8_t *external, size_t external_length,
    uint8_t *response, size_t response_length)
{
    if (!is_sound(node))
        return (in_place_answer){.refusal = 1};
    if (frame_length < HEADER || frame_length > LONGEST_FRAME)
        return (in_place_answer){.refusal = 2};
    if (response_length < GRELFINT_RESPONSE)
        return (in_place_answer){.refusal = 3};
    if (eeprom_length != GRELFINT_EEPROM || external_length != GRELFINT_EXTERNAL)
        return (in_place_answer){.refusal = 4};
    const bool broadcast = word(frame) == BROADCAST;
    if (!broadcast && word(frame) != node->settings.address)
        return (in_place_answer){0};

    uint8_t *data = broadcast ? NULL : response + RESPONSE_HEADER;
    const request r = {frame[2], frame[3], word(frame + 4), frame + HEADER, frame_length - HEADER, data};
    call c = {node, eeprom, external, false, 0, 0};
    const int outcome = !accepts(node, r.hwpid) ? BAD_HWPID : r.pnum == OS ? handle_os(&c, &r) : handle_peripheral(&c, &r);
    const bool silent = broadcast || outcome == NOT_SELECTED;
    const size_t length = silent ? 0 : respond(response, &node->settings, &r, outcome);
    return (in_place_answer){0, length, c.load, true, c.reason, c.place};
}
