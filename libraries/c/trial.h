/* What the programs share that try the headers' promises: expectations, sessions over any memory, and
 * malloc that is refused at a growth of one's choice. They are linked with -Wl,--wrap=malloc and
 * -Wl,--wrap=realloc. */
#ifndef TRIAL_H
#define TRIAL_H

#include "lgp30.h"

/* Says on standard error what is not so, unless it holds. */
void expect(int holds, const char *what);

/* The number of expectations that did not hold. */
int failures(void);

/* From now on the growth of this number is refused, counted from 1; none for 0. */
void refuse_growth(size_t number);

/* Refuses no more growths, and whether one was refused since refuse_growth. */
int grown_freely(void);

/* The calls over one kind of memory: for a source, and of a session. */
struct calls {
    uint32_t (*source)(uint32_t wanted, uint64_t limit, const uint8_t *source, size_t source_length,
                       uint8_t *room, size_t room_length, struct lgp_outcome *outcome);
    uint32_t (*open)(struct lgp_session *session);
    uint32_t (*answer)(struct lgp_session *session, const uint8_t *line, size_t line_length,
                       uint8_t *room, size_t room_length, struct lgp_outcome *outcome);
    uint32_t (*reply)(struct lgp_session *session,
                      uint8_t *room, size_t room_length, struct lgp_outcome *outcome);
    uint32_t (*close)(struct lgp_session *session,
                      uint8_t *room, size_t room_length, struct lgp_outcome *outcome);
    uint32_t (*tell)(struct lgp_session *session, uint32_t told, const uint8_t *text, size_t text_length,
                     uint8_t *room, size_t room_length, struct lgp_outcome *outcome);
    uint32_t (*show)(struct lgp_session *session, uint32_t shown,
                     uint8_t *room, size_t room_length, struct lgp_outcome *outcome);
    uint32_t (*wish)(struct lgp_session *session);
    uint32_t (*manner)(struct lgp_session *session, uint32_t manner);
    uint32_t (*leave)(struct lgp_session *session,
                      uint8_t *room, size_t room_length, struct lgp_outcome *outcome);
};

/* A reply in a room of 32 bytes; those that were not written are dots. */
struct told {
    uint32_t status;
    struct lgp_outcome outcome;
    char room[33];
};

/* What a line is answered, the last reply once more, and what the end is answered, in a room of so many
 * bytes. */
struct told ask(const struct calls *calls, struct lgp_session *session, const char *line, size_t room);
struct told again(const struct calls *calls, struct lgp_session *session, size_t room);
struct told end(const struct calls *calls, struct lgp_session *session, size_t room);

/* That this reply was told, with this status, and nothing behind it was written. */
int is_reply(struct told told, uint32_t status, const char *reply);

/* That nothing is told but the status. */
int is_untold(struct told told, uint32_t status);

/* Tries that a session stays between lines, each kind of room, and what is told of one that is open or
 * closed already. */
void try_lines(const struct calls *calls);

/* Tries lines of more than 4096 bytes, in a source and outside, and a line of any bytes. */
void try_long_lines(const struct calls *calls);

/* Tries what is wanted of sources. */
void try_sources(const struct calls *calls);

/* Tries a session as a desk: what it is told, wishes for and shows, and what is told of one that is not open. */
void try_desk(const struct calls *calls);

/* Opens a session and asks it fifteen lines, up to one for which there is no memory. How many were
 * answered, none if the session was not opened; the status is the last one. The session is open
 * afterwards unless that is LGP_NO_MEMORY. */
enum { WORK_LINES = 15 };
size_t work(const struct calls *calls, struct lgp_session *session, uint32_t *status);

#endif
