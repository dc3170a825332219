/* A gateway that sends requests to its network: the seven steps of document 003
 * as a loop. The clock, the serial line and node 1 are simulated. From the
 * repository's root:
 *
 *   make
 *   cc -Iinclude examples/gateway.c crates/grelfint/out/libgrelfint.a -o gateway && ./gateway */
#include <stdio.h>

#include "grelfint.h"

enum { HOPS = 2, RESPONSE_HOPS = 3, DELAY = 20 }; /* to node 1, back, and its own delay in ms */

static const bool lp = false; /* an STD network */
static uint64_t now;          /* in ms; a real gateway reads its clock */
static grelfint_gateway gateway;
static uint8_t confirmation[GRELFINT_RESPONSE];
static grelfint_node node;
static uint8_t eeprom[GRELFINT_EEPROM], external[GRELFINT_EXTERNAL], response[GRELFINT_RESPONSE];

static void print(const char *what, const uint8_t *bytes, size_t length)
{
    printf("%4u ms  %-12s", (unsigned)now, what);
    for (size_t i = 0; i < length; i++)
        printf(" %02X", bytes[i]);
    printf("\n");
}

/* Writes to the serial line. Here node 1 receives it at once; the length of its response is returned, 0 for none. */
static size_t write_line(const uint8_t *line, size_t length)
{
    grelfint_receive_answer received = grelfint_uart_receive(grelfint_uart_receiver(false), line, length);
    grelfint_request_answer answer =
        grelfint_handle_request(node, received.frame, received.length, eeprom, sizeof eeprom,
                                external, sizeof external, response, sizeof response);

    node = answer.node;
    return answer.length;
}

/* Hands the requests to the gateway and returns a refusal. At GRELFINT_REFUSED_FULL a real gateway releases one and
 * tries again. */
static uint8_t hand_in(void)
{
    static const uint8_t requests[3][11] = {
        {1, 0, GRELFINT_PNUM_LIGHTS, GRELFINT_PCMD_LIGHTS_SET, 0xFF, 0xFF, 1, 0, 0, 0, 50},
        {GRELFINT_NADR_BROADCAST, 0, GRELFINT_PNUM_LIGHTS, GRELFINT_PCMD_LIGHTS_RAISE, 0xFF, 0xFF, 1, 0, 0, 0, 25},
        {1, 0, GRELFINT_PNUM_LIGHTS, GRELFINT_PCMD_LIGHTS_LOWER, 0xFF, 0xFF, 1, 0, 0, 0, 5},
    };

    for (size_t i = 0; i < 3; i++) {
        grelfint_gateway_answer sent =
            grelfint_send(gateway, requests[i], sizeof requests[i], HOPS, RESPONSE_HOPS, DELAY, now);

        if (sent.refusal != GRELFINT_OK)
            return sent.refusal;
        gateway = sent.gateway;
    }
    return GRELFINT_OK;
}

/* Steps 3 to 6 for a request that was released. */
static void send_request(const grelfint_release_answer *released)
{
    uint8_t line[GRELFINT_UART_FRAMED];
    /* 3. Send the request. Framing is not refused: the line has room for every message. */
    size_t length = grelfint_uart_frame(released->frame, released->frame_length, line, sizeof line).length;

    print("request", released->frame, released->frame_length);
    length = write_line(line, length);
    /* 4. The confirmation; its time is that of the release. */
    print("confirmation", confirmation, released->length);
    /* 5. Wait till the request has reached the node, and the node has prepared its response. */
    now += (confirmation[GRELFINT_AT_HOPS] + 1u) * confirmation[GRELFINT_AT_TIMESLOT] * GRELFINT_SLOT_MS + DELAY;
    /* 6. Read the response, which has travelled back. A broadcast has none. Every response has a timeslot. */
    if (length > 0) {
        uint8_t slot = grelfint_timeslot(length - GRELFINT_RESPONSE_HEADER, lp).slot;

        now += (confirmation[GRELFINT_AT_RESPONSE_HOPS] + 1u) * slot * GRELFINT_SLOT_MS;
        print("response", response, length);
    }
}

int main(void)
{
    const grelfint_settings settings = {.address = 1, .hwpid = 0x2471, .dpa_value = 7, .lamp_count = 3, .step = 1};
    grelfint_bond_answer bonded = grelfint_bond(grelfint_gateway_start(lp, 7), 1);
    grelfint_node_answer started = grelfint_start(settings);

    if (bonded.refusal != GRELFINT_OK || started.refusal != GRELFINT_OK)
        return 1;
    gateway = bonded.gateway;
    node = started.node;
    if (hand_in() != GRELFINT_OK)
        return 1;
    while (gateway.queue.count > 0) {
        grelfint_release_answer released = grelfint_release(gateway, now, confirmation, sizeof confirmation);

        if (released.refusal != GRELFINT_OK)
            return 1;
        gateway = released.gateway;
        /* 1. Wait till the routing of the previous request is finished. */
        if (!released.released) {
            now = gateway.queue.next; /* a real gateway sleeps until then */
            continue;
        }
        /* 2. The interface is ready, and nothing is left to read: step 6 has read the last response. */
        send_request(&released);
        /* 7. The earliest time for the next request is gateway.queue.next; it allows for the longest response. */
    }
    printf("lamp 0 of node 1: %u\n", node.lamps[0].level);
    return 0;
}
