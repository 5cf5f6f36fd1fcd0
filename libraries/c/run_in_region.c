/* Runs the script on standard input over 16 megabytes that are handed over, writes the replies and ends
 * with the status. It calls no malloc. A script and its replies may have a megabyte each. */
#include "lgp30.h"

#include <stdio.h>

static _Alignas(16) uint8_t memory[16 << 20];
static uint8_t script[1 << 20];
static uint8_t replies[1 << 20];

int main(void)
{
    size_t length = fread(script, 1, sizeof script, stdin);
    struct lgp_memory given = {memory, sizeof memory};
    struct lgp_outcome outcome;
    uint32_t status = lgp_run_script_in(given, script, length, replies, sizeof replies, &outcome);
    if (outcome.length > sizeof replies || fwrite(replies, 1, outcome.length, stdout) != outcome.length
        || fflush(stdout) != 0) {
        return LGP_UNREAD;
    }
    return (int)status;
}
