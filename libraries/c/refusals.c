/* Tries what the header promises beside the replies themselves: rooms of each kind, empty scripts, any
 * bytes, and memory that is refused at each growth in turn. Ends with 0 where all is as promised. */
#include "lgp30.h"
#include "trial.h"

#include <stdio.h>
#include <string.h>

/* The replies to a script in a room of 32 bytes, of which so many may be used. */
struct run {
    uint32_t status;
    struct lgp_outcome outcome;
    char room[33];
};

static struct run run(const char *script, size_t script_length, size_t room_length)
{
    struct run run = {0, {77, 77}, "................................"};
    run.status = lgp_run_script((const uint8_t *)script, script_length, (uint8_t *)run.room, room_length, &run.outcome);
    return run;
}

static void rooms(void)
{
    const char *script = "words 0000 1\n"; /* its reply has 14 bytes */
    const char *reply = "0000 00000000\n";
    for (size_t room = 0; room <= 32; room++) {
        struct run got = run(script, strlen(script), room);
        size_t written = room < 14 ? room : 14;
        expect(got.status == LGP_WELL, "a script is well in any room");
        expect(got.outcome.length == 14 && got.outcome.questions == 0, "the full length is told");
        expect(memcmp(got.room, reply, written) == 0, "the front of the replies is written");
        expect(strspn(got.room + written, ".") == 32 - written, "what lies behind is as it was");
    }
}

static void scripts(void)
{
    struct run got = run("", 0, 32);
    expect(got.status == LGP_WELL && got.outcome.length == 0, "an empty script has no replies");
    got = run("x", 1, 32);
    expect(got.status == LGP_QUESTIONS && got.outcome.questions == 1 && memcmp(got.room, "? 1 Form\n", 9) == 0, "a line in no form is refused");
    got = run("source\n", 7, 32);
    expect(got.outcome.length > 0, "an open source is answered at the end");
    char bytes[256];
    for (int byte = 0; byte < 256; byte++) {
        bytes[byte] = (char)byte;
    }
    got = run(bytes, 256, 32);
    expect(got.status == LGP_QUESTIONS && got.outcome.questions == 2, "all bytes make two lines in no form");
}

static void memory(void)
{
    const char *script = "source\n z\n end\n.\nload\npanel\nlist\n";
    size_t growths = 0;
    int was_refused;
    struct run got;
    do {
        refuse_growth(++growths);
        got = run(script, strlen(script), 32);
        was_refused = !grown_freely();
        if (was_refused) {
            expect(got.status == LGP_NO_MEMORY, "a refused growth is told");
            expect(got.outcome.length == 0 && got.outcome.questions == 0, "nothing is counted then");
            expect(strspn(got.room, ".") == 32, "nothing is written then");
        }
    } while (was_refused && growths < 100000);
    expect(got.status == LGP_WELL, "with all its memory the script is well");
    printf("refused in turn: %zu growths\n", growths - 1);
}

int main(void)
{
    rooms();
    scripts();
    memory();
    return failures() == 0 ? 0 : 1;
}
