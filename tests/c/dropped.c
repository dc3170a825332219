/* Every call with its answer dropped. A compiler has to warn about each of them;
 * tests/c/run counts the warnings. */
#include "grelfint.h"

static grelfint_settings settings;
static grelfint_node node;
static grelfint_node_set set;
static grelfint_gateway gateway;
static grelfint_receiver receiver;
static uint8_t in[1], out[1], more[1], most[1];

void drop_every_answer(void);

void drop_every_answer(void)
{
    grelfint_start(settings);
    grelfint_tick(node);
    grelfint_tick_in_place(&node);
    grelfint_actual_levels(node);
    grelfint_handle_request(node, in, 1, out, 1, more, 1, most, 1);
    grelfint_frc(node, 0, in, 1, 0, 0);
    grelfint_view_status(in, 1, out, 1, 0, 0, 0);
    grelfint_compile(in, 1, 0, 1, 0, out, 1);
    grelfint_compile_default(in, 1, 0, 1, out, 1);
    grelfint_compile_selected(in, 1, 0, set, 0, out, 1);
    grelfint_compile_selected_default(in, 1, 0, set, out, 1);
    grelfint_timeslot(0, false);
    grelfint_earliest_send(0, 0, 0, 0, 0, false, false);
    grelfint_confirm(in, 1, 0, 0, 0, false, out, 1);
    grelfint_uart_receiver(true);
    grelfint_uart_receive(receiver, in, 1);
    grelfint_uart_frame(in, 1, out, 1);
    grelfint_gateway_start(false, 0);
    grelfint_bond(gateway, 1);
    grelfint_unbond(gateway, 1);
    grelfint_clear_bonds(gateway);
    grelfint_bond_count(gateway);
    grelfint_bond_bitmap(gateway);
    grelfint_send(gateway, in, 1, 0, 0, 0, 0);
    grelfint_release(gateway, 0, out, 1);
}
