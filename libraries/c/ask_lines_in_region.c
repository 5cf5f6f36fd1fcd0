/* Answers each line of standard input as it comes, as ask_lines does, in a session over 16 megabytes that
 * are handed over. It calls no malloc. A reply may have a megabyte.
 *
 *     printf 'put 0100 z 0000\ngo 0100\n' | ./ask_lines_in_region
 */
#include "lgp30.h"
#include "lines.h"

static _Alignas(16) uint8_t memory[16 << 20];
static uint8_t reply[1 << 20];

/* Writes the reply that stands in the room. The status is that of the reply, or why there is none. */
static uint32_t give_reply(uint32_t status, const struct lgp_outcome *outcome)
{
    if (status < LGP_UNREAD
        && (outcome->length > sizeof reply || !write_reply(reply, outcome->length))) {
        return LGP_UNREAD;
    }
    return status;
}

int main(void)
{
    struct lgp_memory given = {memory, sizeof memory};
    struct lgp_session session = {0};
    struct lgp_outcome outcome;
    uint8_t line[LINE_ROOM];
    size_t length;
    uint32_t worst = lgp_open_in(given, &session);
    while (worst < LGP_UNREAD && read_line(line, &length)) {
        uint32_t status = lgp_answer_in(&session, line, length, reply, sizeof reply, &outcome);
        status = give_reply(status, &outcome);
        worst = status > worst ? status : worst;
    }
    if (worst < LGP_UNREAD) {
        uint32_t status = give_reply(lgp_close_in(&session, reply, sizeof reply, &outcome), &outcome);
        worst = status > worst ? status : worst;
    }
    return (int)worst;
}
