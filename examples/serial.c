/* Reads a serial line from standard input, as a gateway reads its UART, and
 * prints each frame and each drop. From the repository's root:
 *
 *   make
 *   cc -Iinclude examples/serial.c crates/grelfint/out/libgrelfint.a -o serial
 *   ./serial < examples/serial.bytes */
#include <errno.h>
#include <stdio.h>
#include <unistd.h>

#include "grelfint.h"

static void print(const grelfint_receive_answer *answer)
{
    static const char *const causes[] = {"", "too long", "cut after an escape", "too short", "wrong check byte"};
    size_t i;

    if (answer->event == GRELFINT_EVENT_FRAME) {
        printf("frame:");
        for (i = 0; i < answer->length; i++)
            printf(" %02X", answer->frame[i]);
        printf("\n");
    } else if (answer->event == GRELFINT_EVENT_DROPPED) {
        printf("dropped: %s\n", causes[answer->cause]);
    }
}

/* A call stops after each frame and each drop, so a part is handed in until it
 * is used up. False if the record is broken (a refused call takes nothing) or if
 * the output cannot be written. */
static bool receive(grelfint_receiver *receiver, const uint8_t *part, size_t length)
{
    while (length > 0) {
        grelfint_receive_answer answer = grelfint_uart_receive(*receiver, part, length);

        if (answer.refusal != GRELFINT_OK) {
            errno = EINVAL;
            return false;
        }
        print(&answer);
        *receiver = answer.receiver;
        part += answer.taken;
        length -= answer.taken;
    }
    return fflush(stdout) == 0;
}

int main(void)
{
    grelfint_receiver receiver = grelfint_uart_receiver(true);
    uint8_t part[7]; /* any length leads to the same frames and drops */

    for (;;) {
        ssize_t got = read(STDIN_FILENO, part, sizeof part);

        if (got == 0)
            return 0;
        if (got < 0 && errno == EINTR)
            continue;
        if (got < 0 || !receive(&receiver, part, (size_t)got)) {
            perror("serial");
            return 1;
        }
    }
}
