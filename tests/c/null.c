/* A null pointer in every place. A compiler has to warn about each of them, even
 * where the length is 0; tests/c/run counts the warnings. */
#include "grelfint.h"

static grelfint_node node;
static grelfint_node_set set;
static grelfint_gateway gateway;
static grelfint_receiver receiver;

bool pass_null_everywhere(void);

bool pass_null_everywhere(void)
{
    return grelfint_tick_in_place(NULL) +
           grelfint_handle_request(node, NULL, 0, NULL, 0, NULL, 0, NULL, 0).refusal +
           grelfint_frc(node, 0, NULL, 0, 0, 0).refusal +
           grelfint_view_status(NULL, 0, NULL, 0, 0, 0, 0) +
           grelfint_compile(NULL, 0, 0, 1, 0, NULL, 0).refusal +
           grelfint_compile_default(NULL, 0, 0, 1, NULL, 0).refusal +
           grelfint_compile_selected(NULL, 0, 0, set, 0, NULL, 0).refusal +
           grelfint_compile_selected_default(NULL, 0, 0, set, NULL, 0).refusal +
           grelfint_confirm(NULL, 0, 0, 0, 0, false, NULL, 0).refusal +
           grelfint_uart_receive(receiver, NULL, 0).refusal +
           grelfint_uart_frame(NULL, 0, NULL, 0).refusal +
           grelfint_send(gateway, NULL, 0, 0, 0, 0, 0).refusal +
           grelfint_release(gateway, 0, NULL, 0).refusal;
}
