/* Tries what the header promises of sessions: that they stay between lines, each kind of room, what is
 * told of one that is open or closed already, and memory that is refused at each growth in turn. Ends
 * with 0 where all is as promised. */
#include "lgp30.h"
#include "trial.h"

#include <stdio.h>

static const struct calls over_malloc = {
    lgp_source, lgp_open, lgp_answer, lgp_reply, lgp_close, lgp_tell, lgp_show, lgp_wish, lgp_manner, lgp_leave};

static void memory(void)
{
    size_t growths = 0;
    int was_refused;
    do {
        struct lgp_session session = {0};
        uint32_t status;
        refuse_growth(++growths);
        work(&over_malloc, &session, &status);
        was_refused = !grown_freely();
        expect((status == LGP_NO_MEMORY) == was_refused, "a refused growth is told");
        expect(is_untold(end(&over_malloc, &session, 32), LGP_NOT_OPEN) == was_refused,
               "and the session is closed then");
    } while (was_refused && growths < 100000);
    printf("sessions: refused in turn: %zu growths\n", growths - 1);
}

int main(void)
{
    try_lines(&over_malloc);
    try_long_lines(&over_malloc);
    try_sources(&over_malloc);
    try_desk(&over_malloc);
    memory();
    return failures() == 0 ? 0 : 1;
}
