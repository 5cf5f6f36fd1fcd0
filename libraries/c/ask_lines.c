/* Answers each line of standard input as it comes, as the monitor's program does, and writes its reply.
 * Ends with 1 where some reply begins with a question mark, with 2 where one could not be written, and
 * with 3 where there was not enough memory.
 *
 *     printf 'put 0100 z 0000\ngo 0100\n' | ./ask_lines
 */
#include "lgp30.h"
#include "lines.h"

#include <stdlib.h>

/* A room for replies, which grows where one does not fit. */
struct room {
    uint8_t *at;
    size_t size;
};

/* Writes the last reply. The status is that of the reply, or why there is none. */
static uint32_t give_reply(struct lgp_session *session, struct room *room, struct lgp_outcome *outcome,
                           uint32_t status)
{
    if (status < LGP_UNREAD && outcome->length > room->size) {
        uint8_t *larger = realloc(room->at, outcome->length);
        if (larger == NULL) {
            return LGP_NO_MEMORY;
        }
        room->at = larger;
        room->size = outcome->length;
        status = lgp_reply(session, room->at, room->size, outcome);
    }
    if (status < LGP_UNREAD && !write_reply(room->at, outcome->length)) {
        return LGP_UNREAD;
    }
    return status;
}

int main(void)
{
    struct lgp_session session = {0};
    struct lgp_outcome outcome;
    struct room room = {malloc(1), 1};
    uint8_t line[LINE_ROOM];
    size_t length;
    uint32_t status = room.at == NULL ? LGP_NO_MEMORY : lgp_open(&session);
    uint32_t worst = status;
    while (worst < LGP_UNREAD && read_line(line, &length)) {
        status = lgp_answer(&session, line, length, room.at, room.size, &outcome);
        status = give_reply(&session, &room, &outcome, status);
        worst = status > worst ? status : worst;
    }
    if (worst < LGP_UNREAD) {
        /* the last reply cannot be asked for once more: a source's reply to its end has few bytes */
        uint8_t end[256];
        status = lgp_close(&session, end, sizeof end, &outcome);
        if (status < LGP_UNREAD && !write_reply(end, outcome.length)) {
            status = LGP_UNREAD;
        }
        worst = status > worst ? status : worst;
    } else {
        lgp_close(&session, line, sizeof line, &outcome);
    }
    free(room.at);
    return (int)worst;
}
