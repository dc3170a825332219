/* grelfint: a lamp node on an IQRF mesh, a scene compiler, a gateway, and the
 * serial line between a gateway and its module. For x86-64 Linux.
 *
 * A call takes records by value and returns its answer by value. The first
 * field of an answer is its refusal. GRELFINT_OK (0) says that the call did its
 * work. Any other number says that it did nothing: no buffer is written, the
 * node, receiver or gateway is the one that was given, and every other field is
 * zero. So the node of an answer is always the one to go on with:
 *
 *     grelfint_request_answer answer = grelfint_handle_request(node, ..);
 *     node = answer.node;
 *     if (answer.refusal != GRELFINT_OK)
 *         ..
 *
 * Four calls differ. grelfint_tick_in_place and grelfint_view_status return the
 * refusal itself, and the first of them changes a node in place.
 * grelfint_uart_receiver and grelfint_gateway_start cannot be refused and
 * return a record alone. A refused grelfint_start returns a node of zeros, and
 * a scene that is refused for a step comes with the number of that step.
 *
 * A call accepts every value of its parameters. Only pointers have rules, which
 * nothing checks:
 *
 * - A pointer to bytes is followed by their number, and has to point to that
 *   many. It must not be null, even if the number is 0; the address of any byte
 *   will do. Neither may the node of grelfint_tick_in_place be null.
 * - A buffer that a call writes must not overlap another one of the same call:
 *   a request and its response need two buffers.
 *
 * No call allocates, blocks, keeps a pointer or uses global data. Calls may run
 * at the same time in several threads, as long as they share no buffer that one
 * of them writes. Of the C library they need only memcpy, memmove and memset.
 *
 * The stack that a call takes, in bytes, counted in the machine code of this
 * version and not rounded: with its return address and all that it calls,
 * except for these three. The arguments and the answer are the caller's: a node
 * has 184 bytes, a gateway 600, and the largest answer 688 (grelfint_release).
 *
 *     start                       192      confirm            24
 *     tick                        272      uart_receiver       8
 *     tick_in_place               150      uart_receive      480
 *     actual_levels               144      uart_frame         80
 *     handle_request            1,600      gateway_start      16
 *     frc                         245      bond            2,056
 *     view_status                   8      unbond          2,056
 *     compile                     368      clear_bonds       744
 *     compile_default             368      bond_count         72
 *     compile_selected            464      bond_bitmap       120
 *     compile_selected_default    464      send              888
 *     timeslot                      8      release         1,400
 *     earliest_send                 8
 *
 * Two-byte numbers in frames and books have their low byte first.
 *
 * Programs to start from: node.c, scene.c, gateway.c and serial.c in examples/.
 */
#ifndef GRELFINT_H
#define GRELFINT_H

#include <stdbool.h>
#include <stddef.h>
#include <stdint.h>

/* The second number grows with every change of the interface or of an answer,
 * the third with every other change. Until the first number is 1, a change may
 * add fields to records. */
#define GRELFINT_VERSION "0.7.0"
#define GRELFINT_VERSION_MAJOR 0
#define GRELFINT_VERSION_MINOR 7
#define GRELFINT_VERSION_PATCH 0

/* A dropped answer is a lost node, or a refusal that goes unnoticed. */
#if defined __cplusplus && __cplusplus >= 201703L
#define GRELFINT_MUST_USE [[nodiscard]]
#elif defined __GNUC__
#define GRELFINT_MUST_USE __attribute__((warn_unused_result))
#else
#define GRELFINT_MUST_USE
#endif

/* A null pointer that the compiler can see is a warning. */
#if defined __GNUC__
#define GRELFINT_NONNULL __attribute__((nonnull))
#else
#define GRELFINT_NONNULL
#endif

#ifdef __cplusplus
extern "C" {
#endif

/* ==== Refusals ====
 *
 * If several apply, a call returns the first in this order. The comment of a
 * call lists those that it can return, without GRELFINT_REFUSED_, and what it
 * writes, if anything. */
#define GRELFINT_OK 0
#define GRELFINT_REFUSED_NODE 1     /* the record of a node, receiver or gateway
                                     * is not sound; settings or an address out
                                     * of range; a node set that names address 0
                                     * or no node */
#define GRELFINT_REFUSED_FRAME 2    /* a request that is not 6 to 62 bytes long,
                                     * or a message for the serial line that is
                                     * not 6 to 64 */
#define GRELFINT_REFUSED_RESPONSE 3 /* fewer than 64 bytes for a response or a
                                     * confirmation */
#define GRELFINT_REFUSED_MEMORY 4   /* EEPROM is not 192 bytes, or external
                                     * memory not 16,384 */
#define GRELFINT_REFUSED_PDATA 5    /* more than 56 bytes of PData */
#define GRELFINT_REFUSED_BOOK 6     /* the bytes are not a scene book */
#define GRELFINT_REFUSED_SCENE 7    /* the book has no scene of that number */

/* 81 to 84: the first bad step of the scene, whose number, from 0, is in the
 * answer. If several of its fields are bad, it is the first of them. */
#define GRELFINT_REFUSED_STEP_KIND 81   /* over 4 */
#define GRELFINT_REFUSED_STEP_TARGET 82 /* over 31 for a lamp, 47 for RAM, 191
                                         * for EEPROM */
#define GRELFINT_REFUSED_STEP_VALUE 83  /* a level over 100 */
#define GRELFINT_REFUSED_STEP_TIME 84   /* 0x80 for a lamp; for a memory any but
                                         * 0 */

#define GRELFINT_REFUSED_OUTPUT 9   /* fewer than 4,096 bytes for a compiled
                                     * scene */
#define GRELFINT_REFUSED_VIEW 10    /* a PNUM of neither EEPROM nor external
                                     * memory */
#define GRELFINT_REFUSED_FRAMED 11  /* the framed message does not fit */
#define GRELFINT_REFUSED_ADDRESS 12 /* at a gateway: an address that is not 1 to
                                     * 239; already bonded, to add; not bonded,
                                     * to remove or to send to (a broadcast
                                     * needs no bond) */
#define GRELFINT_REFUSED_FULL 13    /* eight requests wait */
#define GRELFINT_REFUSED_TIME 14    /* a time before the last one given, or over
                                     * GRELFINT_TIME_MAX */
#define GRELFINT_REFUSED_BLOCK 15   /* more bytes than one request can read */
#define GRELFINT_REFUSED_RANGE 16   /* a start or an end outside the memory */

/* ==== Frames ====
 *
 * A request is NADR (2 bytes), PNUM, PCMD, HWPID (2 bytes) and PData.
 * A response has the same header, with the node's address and HWPID and with
 * GRELFINT_PCMD_RESPONSE set, then ErrN, DpaValue and data. With an error it
 * has no data.
 * A confirmation is the first six bytes of a request, then 0xFF (where a
 * response has ErrN), DpaValue, hops, timeslot and response hops.
 *
 * Sizes are in bytes; PDATA, FRAME and RESPONSE are the longest ones. */
#define GRELFINT_FRAME_HEADER 6
#define GRELFINT_PDATA 56
#define GRELFINT_FRAME 62
#define GRELFINT_RESPONSE_HEADER 8
#define GRELFINT_RESPONSE 64
#define GRELFINT_CONFIRMATION 11

/* Offsets of the fields. */
#define GRELFINT_AT_NADR 0
#define GRELFINT_AT_PNUM 2
#define GRELFINT_AT_PCMD 3
#define GRELFINT_AT_HWPID 4
#define GRELFINT_AT_PDATA 6 /* in a request */
#define GRELFINT_AT_ERRN 6  /* in a response */
#define GRELFINT_AT_DPA_VALUE 7
#define GRELFINT_AT_DATA 8
#define GRELFINT_AT_HOPS 8  /* in a confirmation */
#define GRELFINT_AT_TIMESLOT 9
#define GRELFINT_AT_RESPONSE_HOPS 10

#define GRELFINT_NADR_BROADCAST 0x00FF /* all nodes; none of them answers */
#define GRELFINT_ADDRESS_MAX 239       /* nodes have the addresses 1 to 239 */
#define GRELFINT_HWPID_ANY 0xFFFF      /* nodes of every profile accept it */

#define GRELFINT_PNUM_OS 0x02
#define GRELFINT_PNUM_EEPROM 0x03
#define GRELFINT_PNUM_EXTERNAL 0x04
#define GRELFINT_PNUM_RAM 0x05
#define GRELFINT_PNUM_LIGHTS 0x71

/* The requests, with their PData and the data of the response. */
#define GRELFINT_PCMD_LIGHTS_SET 0x00   /* lamps and powers, see below; the
                                         * actual level of each of these lamps
                                         * before, 0 if there is no such lamp */
#define GRELFINT_PCMD_LIGHTS_RAISE 0x01 /* the same */
#define GRELFINT_PCMD_LIGHTS_LOWER 0x02 /* the same */
#define GRELFINT_PCMD_LIGHTS_ENUMERATE 0x3E /* none; the number of lamps */
#define GRELFINT_PCMD_EEPROM_READ 0x00  /* address, number (0 too); the bytes */
#define GRELFINT_PCMD_EEPROM_WRITE 0x01 /* address, at least 1 byte; none */
#define GRELFINT_PCMD_RAM_READ 0x00     /* as for EEPROM */
#define GRELFINT_PCMD_RAM_WRITE 0x01
#define GRELFINT_PCMD_EXTERNAL_READ 0x02 /* the same; the address has 2 bytes */
#define GRELFINT_PCMD_EXTERNAL_WRITE 0x03
#define GRELFINT_PCMD_OS_BATCH 0x05      /* a list, see below; none */
#define GRELFINT_PCMD_OS_SELECTIVE_BATCH 0x0B /* a node set, a list; none */
#define GRELFINT_PCMD_OS_CODE_CHECK 0x0A /* flags (bit 0 to load the code, bit 1
                                          * for a plug-in), then 2 bytes each:
                                          * address in external memory; length,
                                          * a multiple of 64, or of 20 for a
                                          * plug-in; checksum, see below. 1 if
                                          * it matches, else 0 */
#define GRELFINT_PCMD_RESPONSE 0x80      /* set in the PCMD of a response */

/* The checksum of a code check: two sums over the bytes, of which `low` starts
 * at 1, or at 3 for a plug-in, and `high` at 0. A sum of 255 stays 255, so that
 * `% 255` is wrong:
 *     low += byte;
 *     if (low > 255)
 *         low -= 255;
 *     high += low;
 *     if (high > 255)
 *         high -= 255;
 * The checksum is high << 8 | low. */

/* ErrN: HWPID is tested first, then PNUM, PCMD and what the peripheral tests. A
 * request with an error has changed nothing. */
#define GRELFINT_ERRN_NONE 0
#define GRELFINT_ERRN_FAIL 1     /* a code check with a flag over bit 1 */
#define GRELFINT_ERRN_PCMD 2     /* unknown PCMD */
#define GRELFINT_ERRN_PNUM 3     /* unknown PNUM */
#define GRELFINT_ERRN_ADDR 4     /* outside the memory */
#define GRELFINT_ERRN_DATA_LEN 5 /* length of PData, or too long a block */
#define GRELFINT_ERRN_DATA 6     /* content; for lamps also length of PData */
#define GRELFINT_ERRN_HWPID 7    /* another profile */

/* The list of a batch: entries and a closing zero byte. An entry is its length
 * (which counts itself), PNUM, PCMD, HWPID (2 bytes) and PData. If the list can
 * be read, the batch has ErrN 0 and its entries run in order. An entry with an
 * error changes nothing and does not stop the others; every OS request in a
 * list is such an error. */
#define GRELFINT_ENTRY_HEADER 5

/* Why a list cannot be read: the first fault from its start. Nothing runs. (A
 * list without any byte is ErrN 5, without a reason.) */
#define GRELFINT_REASON_NONE 0
#define GRELFINT_REASON_SHORT 1    /* a length of 1 to 4 */
#define GRELFINT_REASON_PAST_END 2 /* an entry that reaches past the end */
#define GRELFINT_REASON_UNCLOSED 3 /* no closing zero */
#define GRELFINT_REASON_TRAILING 4 /* bytes after the closing zero */

/* ==== The node ==== */

#define GRELFINT_LAMPS 32 /* the most lamps of a node */
#define GRELFINT_RAM 48   /* sizes of the memories, in bytes */
#define GRELFINT_EEPROM 192
#define GRELFINT_EXTERNAL 16384
#define GRELFINT_RAM_BLOCK 48 /* the most bytes of one read or write */
#define GRELFINT_EEPROM_BLOCK 55
#define GRELFINT_EXTERNAL_BLOCK 54

/* PData of set, raise and lower: a bitmap of lamps (lamp 0 is bit 0 of byte 0),
 * and for each of them, the lowest first, a power, followed by a time if
 * POWER_TIMED is set. Raise and lower count from the requested level, up to 100
 * and down to 0. A level without a time ends a running timer, and at level 0
 * none runs. KEEP leaves level and timer, or with a time starts it anew. Powers
 * of lamps that the node does not have are tested, but change nothing. */
#define GRELFINT_BITMAP 4
#define GRELFINT_LEVEL_MAX 100     /* powers are 0 to 100, */
#define GRELFINT_POWER_KEEP 127    /* or this; others are errors */
#define GRELFINT_POWER_TIMED 0x80  /* a time follows: 1 to 127 minutes, */
#define GRELFINT_TIME_SECONDS 0x80 /* or seconds, if this is set */
#define GRELFINT_SECONDS_MAX 7620  /* the longest time, 127 minutes */

/* The dimming steps: const uint8_t steps[] = {GRELFINT_DIMMING_STEPS}; */
#define GRELFINT_DIMMING_STEPS 1, 2, 4, 5, 10, 20, 25, 50, 100

/* FRC commands, and the two-bit values. */
#define GRELFINT_FRC_ON 0x10
#define GRELFINT_FRC_ALARM 0x11
#define GRELFINT_FRC_NOT_IMPLEMENTED 1
#define GRELFINT_FRC_NO 2
#define GRELFINT_FRC_YES 3

/* address 1 to 239; lamp_count 1 to 32; step one of GRELFINT_DIMMING_STEPS;
 * hwpid, the hardware profile, and dpa_value are any. */
typedef struct grelfint_settings {
    uint16_t address;
    uint16_t hwpid;
    uint8_t dpa_value; /* sent in every response */
    uint8_t lamp_count;
    uint8_t step; /* levels that the lamps can take are its multiples */
} grelfint_settings;

typedef struct grelfint_lamp {
    uint8_t level;    /* as requested, 0 to 100; see grelfint_actual_levels */
    uint16_t seconds; /* until the lamp goes off, 0 for no timer */
} grelfint_lamp;

/* A node, from grelfint_start. It is sound if its settings are in range, no
 * level is over 100, no timer over 7,620 seconds or running at level 0, and all
 * lamps from the lamp count on are zero. A sound node stays sound, so one that
 * is stored and loaded again only has to come back as it was. */
typedef struct grelfint_node {
    grelfint_settings settings;
    grelfint_lamp lamps[GRELFINT_LAMPS];
    uint8_t ram[GRELFINT_RAM];
} grelfint_node;

typedef struct grelfint_node_answer {
    uint8_t refusal;
    grelfint_node node;
} grelfint_node_answer;

typedef struct grelfint_levels_answer {
    uint8_t refusal;
    uint8_t levels[GRELFINT_LAMPS];
} grelfint_levels_answer;

typedef struct grelfint_frc_answer {
    uint8_t refusal;
    uint8_t value; /* GRELFINT_FRC_NOT_IMPLEMENTED, _NO or _YES */
} grelfint_frc_answer;

typedef struct grelfint_request_answer {
    uint8_t refusal;
    size_t length;  /* bytes of the response; 0 if there is none to send */
    bool load;      /* a code check matched and asked to load the code */
    bool addressed; /* NADR is this node's address or the broadcast address. It
                     * separates a broadcast from a frame for another node; both
                     * have length 0. The request may still have an error, or be
                     * a selective batch that does not name this node. */
    uint8_t reason; /* GRELFINT_REASON_..: why the list of a batch, or of a
                     * selective batch for this node, cannot be read (ErrN 6);
                     * given for a broadcast too. NONE for every other request
                     * and error, and for a list of which an entry fails. */
    uint8_t place;  /* offset of the fault in PData: of the length byte for
                     * SHORT and PAST_END, of the first byte after the zero for
                     * TRAILING, the length of PData for UNCLOSED */
    grelfint_node node; /* to go on with */
} grelfint_request_answer;

/* Starts a node: every lamp and RAM byte is 0.
 *
 * Answer:   node (zeros if refused).
 * Refusals: NODE (settings out of range). */
GRELFINT_MUST_USE
grelfint_node_answer grelfint_start(grelfint_settings settings);

/* Lets one second pass: every running timer drops by 1, and a lamp whose timer
 * gets to 0 goes to level 0.
 *
 * Answer:   node afterwards.
 * Refusals: NODE. */
GRELFINT_MUST_USE
grelfint_node_answer grelfint_tick(grelfint_node node);

/* grelfint_tick on a record in place.
 *
 * Answer:   the refusal itself.
 * Refusals: NODE (*node is then unchanged).
 * Written:  *node. */
GRELFINT_MUST_USE GRELFINT_NONNULL
uint8_t grelfint_tick_in_place(grelfint_node *node);

/* The levels to drive the lamps with: for each lamp the smallest multiple of
 * the dimming step that is not below the requested level, and 0 from the lamp
 * count on. Ask after every request and every tick.
 *
 * Answer:   levels, lamp 0 first.
 * Refusals: NODE. */
GRELFINT_MUST_USE
grelfint_levels_answer grelfint_actual_levels(grelfint_node node);

/* Handles one request.
 *
 * frame     the request, as it came from the mesh
 * eeprom, external
 *           the memories of the node: 192 and 16,384 bytes
 * response  room for the response, at least GRELFINT_RESPONSE bytes
 *
 * Answer:   length of the response; load; addressed; reason and place; node
 *           afterwards. An error of the request is no refusal: the response
 *           has it in response[GRELFINT_AT_ERRN], and nothing is changed.
 *           There is no response (length 0) to a broadcast, to a frame for
 *           another node, and to a selective batch whose set does not name this
 *           node (its HWPID and the length of its PData are tested first).
 * Refusals: NODE, FRAME, RESPONSE, MEMORY.
 * Written:  `eeprom` and `external` as the request asks; the first `length`
 *           bytes of `response`.
 *
 *     node = answer.node;
 *     if (answer.length > 0)
 *         transmit(response, answer.length);
 *     if (answer.load)
 *         load_code(); */
GRELFINT_MUST_USE GRELFINT_NONNULL
grelfint_request_answer grelfint_handle_request(
    grelfint_node node,
    const uint8_t *frame, size_t frame_length,
    uint8_t *eeprom, size_t eeprom_length,
    uint8_t *external, size_t external_length,
    uint8_t *response, size_t response_length);

/* The two bits that a node answers in an FRC collection.
 *
 * command    GRELFINT_FRC_ON: is the lamp's actual level not 0, or its bit in
 *            `stuck` set? GRELFINT_FRC_ALARM: is its bit in `alarm` set?
 * user_data  GRELFINT_PNUM_LIGHTS, then the lamp in the low five bits of a byte
 *            (further bytes are ignored)
 * stuck, alarm
 *            of the hardware: bit i belongs to lamp i
 *
 * Answer:   value; NOT_IMPLEMENTED for other commands or user data, and for a
 *           lamp from the lamp count on.
 * Refusals: NODE (value is then 0). */
GRELFINT_MUST_USE GRELFINT_NONNULL
grelfint_frc_answer grelfint_frc(
    grelfint_node node, uint8_t command,
    const uint8_t *user_data, size_t user_data_length,
    uint32_t stuck, uint32_t alarm);

/* Tests whether a read request for a part of EEPROM or external memory would
 * succeed, so that the part can be read without a frame. No byte is read.
 *
 * eeprom, external
 *           both memories, whichever is asked for
 * pnum      GRELFINT_PNUM_EEPROM or GRELFINT_PNUM_EXTERNAL
 * start, count
 *           the part: `count` bytes from memory[start] on
 *
 * Answer:   the refusal itself; GRELFINT_OK if the part may be read.
 * Refusals: MEMORY, VIEW, BLOCK, RANGE. */
GRELFINT_MUST_USE GRELFINT_NONNULL
uint8_t grelfint_view_status(
    const uint8_t *eeprom, size_t eeprom_length,
    const uint8_t *external, size_t external_length,
    uint8_t pnum, size_t start, size_t count);

/* ==== Scenes ====
 *
 * A book is the number of its scenes (1 byte), a location for each, and the
 * steps of all scenes in order, with nothing between or after them. A location
 * is the offset of the first step in the book (2 bytes) and the number of steps
 * (1 byte). A step is kind, target (a lamp, or an address in a memory), value,
 * and a time byte or 0. A lamp's step without a time ends its timer, and a step
 * for a lamp that the node does not have changes nothing. */
#define GRELFINT_SCENES 16 /* the most scenes of a book */
#define GRELFINT_STEPS 64  /* the most steps of a scene */
#define GRELFINT_BOOK 4145 /* the longest book */
#define GRELFINT_BOOK_LOCATION 3
#define GRELFINT_BOOK_STEP 4
#define GRELFINT_COMPILED 4096 /* enough for every compiled scene */
#define GRELFINT_NODE_SET 30   /* bytes of a set of nodes */

#define GRELFINT_KIND_SET 0    /* a lamp's level becomes the value */
#define GRELFINT_KIND_RAISE 1  /* it goes up by the value, to 100 at most */
#define GRELFINT_KIND_LOWER 2  /* it goes down by the value, to 0 at least */
#define GRELFINT_KIND_RAM 3    /* a byte of RAM becomes the value */
#define GRELFINT_KIND_EEPROM 4 /* a byte of EEPROM becomes the value */

typedef struct grelfint_compile_answer {
    uint8_t refusal;
    uint8_t step;  /* number of the bad step, with GRELFINT_REFUSED_STEP_.. */
    size_t length; /* bytes of the output */
} grelfint_compile_answer;

/* A set of nodes, 1 to 239. To name node a in a set that starts as zeros:
 *     set.bits[a / 8] |= 1 << a % 8; */
typedef struct grelfint_node_set {
    uint8_t bits[GRELFINT_NODE_SET];
} grelfint_node_set;

/* Compiles a scene into requests to one node or to all nodes. A node that
 * handles them in order, with no tick and no other request between them, ends
 * as if it had done the steps one by one.
 *
 * book      the scene book
 * scene     number of the scene, from 0
 * address   of a node, 1 to 239, or GRELFINT_NADR_BROADCAST
 * hwpid     of the nodes that are to accept it, or GRELFINT_HWPID_ANY
 * out       room for the output, at least GRELFINT_COMPILED bytes
 *
 * Answer:   length of the output; step if refused for a step.
 * Refusals: NODE (address), BOOK, SCENE, STEP_KIND, STEP_TARGET, STEP_VALUE,
 *           STEP_TIME, OUTPUT.
 * Written:  the first `length` bytes of `out`: the number of requests, a byte
 *           with the length of each, and the requests. A scene without steps
 *           has none.
 *
 *     const uint8_t *request = out + 1 + out[0];
 *     for (size_t i = 0; i < out[0]; i++) {
 *         transmit(request, out[1 + i]);
 *         request += out[1 + i];
 *     } */
GRELFINT_MUST_USE GRELFINT_NONNULL
grelfint_compile_answer grelfint_compile(
    const uint8_t *book, size_t book_length, size_t scene,
    uint16_t address, uint16_t hwpid,
    uint8_t *out, size_t out_length);

/* grelfint_compile with GRELFINT_HWPID_ANY. */
GRELFINT_MUST_USE GRELFINT_NONNULL
grelfint_compile_answer grelfint_compile_default(
    const uint8_t *book, size_t book_length, size_t scene,
    uint16_t address,
    uint8_t *out, size_t out_length);

/* Compiles a scene for a set of nodes: broadcasts (selective batches) that all
 * other nodes ignore. In all else as grelfint_compile.
 *
 * Refusals: NODE (the set names address 0, or no node), and from BOOK on as
 *           grelfint_compile. */
GRELFINT_MUST_USE GRELFINT_NONNULL
grelfint_compile_answer grelfint_compile_selected(
    const uint8_t *book, size_t book_length, size_t scene,
    grelfint_node_set nodes, uint16_t hwpid,
    uint8_t *out, size_t out_length);

/* grelfint_compile_selected with GRELFINT_HWPID_ANY. */
GRELFINT_MUST_USE GRELFINT_NONNULL
grelfint_compile_answer grelfint_compile_selected_default(
    const uint8_t *book, size_t book_length, size_t scene,
    grelfint_node_set nodes,
    uint8_t *out, size_t out_length);

/* ==== Timing ====
 *
 * `lp` is true in a network of type STD+LP, which battery-powered nodes can
 * join and whose slots are 40 ms longer, and false in one of type STD. */
#define GRELFINT_SLOT_MS 10 /* the unit of timeslots, in ms */

typedef struct grelfint_length_answer {
    uint8_t refusal;
    size_t length; /* bytes written */
} grelfint_length_answer;

typedef struct grelfint_slot_answer {
    uint8_t refusal;
    uint8_t slot; /* in units of GRELFINT_SLOT_MS */
} grelfint_slot_answer;

/* Of grelfint_earliest_send; grelfint_send returns grelfint_gateway_answer. */
typedef struct grelfint_send_answer {
    uint8_t refusal;
    uint32_t milliseconds;
} grelfint_send_answer;

/* The timeslot of a packet with up to 16, 40 or 56 bytes of PData. For a
 * response, these are the bytes after its header.
 *
 * Answer:   slot: 4, 5 or 6, and 4 more if `lp`.
 * Refusals: PDATA. */
GRELFINT_MUST_USE
grelfint_slot_answer grelfint_timeslot(size_t pdata_length, bool lp);

/* The time from the confirmation of a request to the earliest next send.
 *
 * hops, response_hops
 *            from the gateway to the node, and back
 * request_length, response_length
 *            bytes after the header of the request and of the response
 * delay      what the node needs to prepare its response, in ms
 * broadcast  the response adds no time, but its length is still tested
 *
 * Answer:   milliseconds: (hops + 1) slots of the request, the delay, and
 *           (response_hops + 1) slots of the response.
 * Refusals: PDATA (either length). */
GRELFINT_MUST_USE
grelfint_send_answer grelfint_earliest_send(
    uint8_t hops, size_t request_length, uint16_t delay,
    uint8_t response_hops, size_t response_length, bool lp, bool broadcast);

/* Writes the confirmation that a gateway gives for a request.
 *
 * frame     the request; NADR is not tested
 * dpa_value, hops, response_hops
 *           written as they are; for a broadcast 0 response hops
 * out       room of at least GRELFINT_RESPONSE bytes, as for a response
 *
 * Answer:   length: GRELFINT_CONFIRMATION.
 * Refusals: FRAME, RESPONSE.
 * Written:  the first `length` bytes of `out`. The timeslot is that of the
 *           request's PData. */
GRELFINT_MUST_USE GRELFINT_NONNULL
grelfint_length_answer grelfint_confirm(
    const uint8_t *frame, size_t frame_length,
    uint8_t dpa_value, uint8_t hops, uint8_t response_hops, bool lp,
    uint8_t *out, size_t out_length);

/* ==== The serial line ====
 *
 * A message is sent as a flag, its bytes, a check byte and a flag. */
#define GRELFINT_UART_FRAME 64
#define GRELFINT_UART_FRAMED 132 /* 2 flags, and 65 bytes that may be escaped */

#define GRELFINT_EVENT_NONE 0    /* all bytes taken, and no frame yet */
#define GRELFINT_EVENT_FRAME 1
#define GRELFINT_EVENT_DROPPED 2 /* a frame that is lost, with its cause */

/* Why a frame was dropped: the first that applies. */
#define GRELFINT_CAUSE_NONE 0
#define GRELFINT_CAUSE_TOO_LONG 1   /* over the limit without its check byte */
#define GRELFINT_CAUSE_CUT 2        /* a flag right after an escape */
#define GRELFINT_CAUSE_SHORT 3      /* under 6 bytes without its check byte */
#define GRELFINT_CAUSE_CHECK_BYTE 4 /* wrong check byte */

/* A receiver, from grelfint_uart_receiver; store it between calls. It is sound
 * if its limit is 62 or 64, its phase at most 2, its count at most limit + 2,
 * and 0 in phase 0. A sound receiver stays sound. */
typedef struct grelfint_receiver {
    uint8_t limit; /* the longest message: 64 at a gateway, 62 at a node */
    uint8_t phase; /* 0 before the first flag, 1 in a frame, 2 after escape */
    uint8_t count; /* bytes of this frame so far, with its check byte; it stops
                    * at limit + 2 */
    uint8_t bytes[GRELFINT_UART_FRAME + 1]; /* byte k of the frame is bytes[k],
                                             * for k up to the limit */
} grelfint_receiver;

typedef struct grelfint_receive_answer {
    uint8_t refusal;
    uint8_t event; /* GRELFINT_EVENT_.. */
    uint8_t cause; /* GRELFINT_CAUSE_.., with GRELFINT_EVENT_DROPPED */
    size_t taken;  /* bytes that were used; at least 1 of a part that is not
                    * empty, and 0 if the call is refused */
    size_t length; /* bytes of the frame, without its check byte */
    uint8_t frame[GRELFINT_UART_FRAME]; /* the frame, then zeros */
    grelfint_receiver receiver;         /* to go on with */
} grelfint_receive_answer;

/* A receiver that waits for its first flag.
 *
 * gateway   true: it receives responses, of up to 64 bytes; false: at a node,
 *           requests of up to 62
 *
 * Answer:   the receiver itself.
 * Refusals: none. */
GRELFINT_MUST_USE
grelfint_receiver grelfint_uart_receiver(bool gateway);

/* Receives the next bytes of the line, any number of them, up to the first flag
 * that completes or drops a frame. Bytes before the first flag, and flags with
 * nothing between them, are skipped. However the stream is cut into calls, the
 * same frames and drops come out.
 *
 * Answer:   event; cause; bytes taken; frame and its length; receiver.
 * Refusals: NODE (the receiver is not sound; a loop has to end then, because
 *           nothing is taken).
 *
 *     while (length > 0) {
 *         grelfint_receive_answer answer =
 *             grelfint_uart_receive(receiver, bytes, length);
 *         if (answer.refusal != GRELFINT_OK)
 *             break;
 *         receiver = answer.receiver;
 *         bytes += answer.taken;
 *         length -= answer.taken;
 *         if (answer.event == GRELFINT_EVENT_FRAME)
 *             use(answer.frame, answer.length);
 *     } */
GRELFINT_MUST_USE GRELFINT_NONNULL
grelfint_receive_answer grelfint_uart_receive(
    grelfint_receiver receiver,
    const uint8_t *bytes, size_t bytes_length);

/* Frames a message for the line; the check byte is computed here.
 *
 * frame     the message, 6 to 64 bytes. A node's receiver drops more than 62.
 * out       room for it: GRELFINT_UART_FRAMED bytes are always enough
 *
 * Answer:   length of the framed message.
 * Refusals: FRAME, FRAMED.
 * Written:  the first `length` bytes of `out`. */
GRELFINT_MUST_USE GRELFINT_NONNULL
grelfint_length_answer grelfint_uart_frame(
    const uint8_t *frame, size_t frame_length,
    uint8_t *out, size_t out_length);

/* ==== The gateway ====
 *
 * A gateway keeps the bonds of its nodes, and a send queue: the requests on
 * their way to the network. Times are in ms from any moment that the caller
 * chooses, and never go back. */
#define GRELFINT_BONDS 32 /* bytes of the bitmap of bonds */
#define GRELFINT_QUEUE 8  /* the most requests that wait */
#define GRELFINT_NETWORK_STD 0
#define GRELFINT_NETWORK_STD_LP 1
#define GRELFINT_TIME_MAX UINT64_C(0x10000000000) /* 2^40 ms, almost 35 years */
#define GRELFINT_WAIT_MAX 116735 /* from a release to `next`, at most, in ms */

/* A request that waits. */
typedef struct grelfint_waiting {
    uint16_t delay;        /* the node's own, in ms */
    uint8_t length;        /* bytes of the request */
    uint8_t hops;          /* of the request */
    uint8_t response_hops; /* of the response */
    uint8_t frame[GRELFINT_FRAME]; /* the request, then zeros */
} grelfint_waiting;

typedef struct grelfint_send_queue {
    uint64_t last;     /* the time of the last send or release, refused ones not
                        * counted */
    uint64_t next;     /* the earliest time of the next release */
    uint8_t network;   /* GRELFINT_NETWORK_STD or GRELFINT_NETWORK_STD_LP */
    uint8_t dpa_value; /* for the confirmations */
    uint8_t count;     /* requests that wait */
    grelfint_waiting places[GRELFINT_QUEUE]; /* these requests, the oldest
                                              * first; then zeros */
} grelfint_send_queue;

/* A gateway, from grelfint_gateway_start; store it between calls, and read
 * queue.count and queue.next. It is sound if neither address 0 nor 240 to 255
 * is bonded; its network is 0 or 1 and its count at most 8; each of the first
 * `count` places has a length of 6 to 62, NADR 1 to 239 or 255 in its frame,
 * and zeros after the frame; all later places are zero; `last` is at most
 * GRELFINT_TIME_MAX, and `next` at most last + GRELFINT_WAIT_MAX. A sound
 * gateway stays sound. */
typedef struct grelfint_gateway {
    uint8_t bonds[GRELFINT_BONDS]; /* bit a % 8 of byte a / 8 is set if node a
                                    * is bonded */
    grelfint_send_queue queue;
} grelfint_gateway;

typedef struct grelfint_bond_answer {
    uint8_t refusal;
    uint8_t count; /* bonded nodes after the call */
    grelfint_gateway gateway; /* to go on with */
} grelfint_bond_answer;

typedef struct grelfint_count_answer {
    uint8_t refusal;
    uint8_t count; /* bonded nodes */
} grelfint_count_answer;

typedef struct grelfint_bitmap_answer {
    uint8_t refusal;
    uint8_t bitmap[GRELFINT_BONDS]; /* as in grelfint_gateway */
} grelfint_bitmap_answer;

typedef struct grelfint_gateway_answer {
    uint8_t refusal;
    grelfint_gateway gateway; /* to go on with */
} grelfint_gateway_answer;

typedef struct grelfint_release_answer {
    uint8_t refusal;
    bool released;       /* false if it is too early, or if no request waits;
                          * the next three fields are then zeros */
    size_t length;       /* bytes of the confirmation */
    size_t frame_length; /* bytes of the request */
    uint8_t frame[GRELFINT_FRAME]; /* the request, then zeros */
    grelfint_gateway gateway;      /* to go on with */
} grelfint_release_answer;

/* Starts a gateway without bonds or requests, and with both times 0.
 *
 * lp        true for a network of type STD+LP, false for STD
 * dpa_value goes into the confirmations
 *
 * Answer:   the gateway itself.
 * Refusals: none. */
GRELFINT_MUST_USE
grelfint_gateway grelfint_gateway_start(bool lp, uint8_t dpa_value);

/* Adds the bond of a node.
 *
 * Answer:   number of bonded nodes; gateway.
 * Refusals: NODE (the gateway), ADDRESS (not 1 to 239, or already bonded). */
GRELFINT_MUST_USE
grelfint_bond_answer grelfint_bond(grelfint_gateway gateway, uint16_t address);

/* Removes the bond of a node. Requests to it that already wait stay.
 *
 * Answer:   number of bonded nodes; gateway.
 * Refusals: NODE, ADDRESS (not bonded). */
GRELFINT_MUST_USE
grelfint_bond_answer grelfint_unbond(
    grelfint_gateway gateway, uint16_t address);

/* Removes all bonds. Requests that wait stay.
 *
 * Answer:   number of bonded nodes, 0; gateway.
 * Refusals: NODE. */
GRELFINT_MUST_USE
grelfint_bond_answer grelfint_clear_bonds(grelfint_gateway gateway);

/* The number of bonded nodes.
 *
 * Answer:   count.
 * Refusals: NODE. */
GRELFINT_MUST_USE
grelfint_count_answer grelfint_bond_count(grelfint_gateway gateway);

/* The bonded nodes, a bit for each address.
 *
 * Answer:   bitmap.
 * Refusals: NODE. */
GRELFINT_MUST_USE
grelfint_bitmap_answer grelfint_bond_bitmap(grelfint_gateway gateway);

/* Hands a request to a gateway, which keeps it until it is released, in the
 * order of arrival.
 *
 * frame     the request, to a bonded node or to all nodes
 * hops, response_hops, delay
 *           as for grelfint_earliest_send
 * time      the present, in ms
 *
 * Answer:   gateway.
 * Refusals: NODE, FRAME, ADDRESS (NADR is neither that of a bonded node nor
 *           the broadcast address), FULL (release one first), TIME. */
GRELFINT_MUST_USE GRELFINT_NONNULL
grelfint_gateway_answer grelfint_send(
    grelfint_gateway gateway,
    const uint8_t *frame, size_t frame_length,
    uint8_t hops, uint8_t response_hops, uint16_t delay, uint64_t time);

/* Releases the oldest request that waits, if the mesh is free: if the time that
 * grelfint_earliest_send gives for the request released last, with a response
 * of 56 bytes of data, has passed since its release. The first request of a
 * gateway may be released at any time.
 *
 * time      the present, in ms
 * out       room for the confirmation, at least GRELFINT_RESPONSE bytes, even
 *           if nothing is released
 *
 * Answer:   released; the request and its length; length of the confirmation;
 *           gateway. Too early or with none waiting, `released` is false and
 *           only the time is recorded; gateway.queue.next is the earliest time.
 * Refusals: NODE, RESPONSE, TIME.
 * Written:  the first `length` bytes of `out`, as by grelfint_confirm.
 *
 *     gateway = answer.gateway;
 *     if (answer.released)
 *         transmit(answer.frame, answer.frame_length); */
GRELFINT_MUST_USE GRELFINT_NONNULL
grelfint_release_answer grelfint_release(
    grelfint_gateway gateway, uint64_t time,
    uint8_t *out, size_t out_length);

#ifdef __cplusplus
}
#endif

#endif
