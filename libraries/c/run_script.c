/* Runs the script on standard input, writes the replies and ends with the status, as the program does.
 *
 *     ./run_script < ../../examples/first-run.txt
 */
#include "lgp30.h"

#include <stdio.h>
#include <stdlib.h>

/* Bytes that grow as they are read. */
struct bytes {
    uint8_t *at;
    size_t length;
};

/* All of standard input, or a null pointer where there is no memory or reading fails. */
static struct bytes read_input(void)
{
    struct bytes input = {malloc(1), 0};
    size_t room = 1;
    while (input.at != NULL && !ferror(stdin) && !feof(stdin)) {
        if (input.length == room) {
            uint8_t *larger = realloc(input.at, 2 * room);
            if (larger == NULL) {
                break;
            }
            input.at = larger;
            room *= 2;
        }
        input.length += fread(input.at + input.length, 1, room - input.length, stdin);
    }
    if (input.at != NULL && !feof(stdin)) {
        free(input.at);
        input.at = NULL;
    }
    return input;
}

int main(void)
{
    struct bytes script = read_input();
    if (script.at == NULL) {
        return LGP_UNREAD;
    }
    /* with a room of one byte the outcome tells how much is needed */
    uint8_t small;
    struct lgp_outcome outcome;
    uint32_t status = lgp_run_script(script.at, script.length, &small, 1, &outcome);
    size_t length = outcome.length;
    uint8_t *replies = malloc(length + 1);
    if (replies == NULL) {
        status = LGP_NO_MEMORY;
    } else if (status < LGP_UNREAD) {
        status = lgp_run_script(script.at, script.length, replies, length + 1, &outcome);
    }
    if (status < LGP_UNREAD && (fwrite(replies, 1, length, stdout) != length || fflush(stdout) != 0)) {
        status = LGP_UNREAD;
    }
    free(replies);
    free(script.at);
    return (int)status;
}
