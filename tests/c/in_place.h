/* A request handled in place: as grelfint_handle_request, but the node is
 * changed through a pointer. Not part of the library: a yardstick for its speed. */
#ifndef IN_PLACE_H
#define IN_PLACE_H

#include "grelfint.h"

/* grelfint_request_answer without the node. */
typedef struct {
    uint8_t refusal;
    size_t length;
    bool load;
    bool addressed;
    uint8_t reason;
    uint8_t place;
} in_place_answer;

/* Inputs, answer and refusals: as for grelfint_handle_request.
 * Written: *node, `eeprom` and `external` as the request asks; the first
 * `length` bytes of `response`. If refused, nothing. */
in_place_answer in_place_request(
    grelfint_node *node,
    const uint8_t *frame, size_t frame_length,
    uint8_t *eeprom, size_t eeprom_length,
    uint8_t *external, size_t external_length,
    uint8_t *response, size_t response_length);

#endif
