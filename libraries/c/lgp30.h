/* Condugwa, a laboratory for the Royal McBee LGP-30, for programs in C and C++.
 *
 * SPDX-License-Identifier: MIT OR Apache-2.0
 *
 * The library is proved: each function does what is said of it here, provided that its caller meets the
 * conditions below. Nothing checks them; if they are not met, the behaviour is undefined.
 *
 * - Pointers must not be null, even when the length is 0. A pointer must give access to as many bytes as
 *   its length says, writable ones if it is not const. The pointers of one call must not overlap.
 * - malloc, realloc and free belong to one allocator. It aligns blocks to 16 bytes, or to each smaller
 *   power of two that divides their size.
 * - Calls may run in several threads at once, as long as none of them writes what another one uses. They
 *   must not be made from a signal handler, nor in the forked child of a process with threads.
 *
 * Text is bytes. docs/FORMATS.md describes scripts and their replies.
 */
#ifndef LGP30_H
#define LGP30_H

#include <stdbool.h>
#include <stddef.h>
#include <stdint.h>

/* The version of this header. */
#define LGP_VERSION "0.1.0"

#ifdef __cplusplus
extern "C" {
#endif

/* The version of the library, such as "0.1.0". The text is never freed. */
const char *lgp_version(void);

/* The statuses are those of the program. */
enum {
    LGP_WELL = 0,      /* everything went well */
    LGP_QUESTIONS = 1, /* a line is refused; of a script, a reply begins with a question mark */
    LGP_UNREAD = 2,    /* the script could not be read; this cannot happen below 2^32 bytes */
    LGP_NO_MEMORY = 3, /* there was not enough memory */
    LGP_IS_OPEN = 4,   /* a session is already open there */
    LGP_NOT_OPEN = 5   /* no session is open there */
};

/* The outcome of a call. */
struct lgp_outcome {
    uint64_t questions; /* of a line, 1 if it is refused; of a script, how many replies begin with a question mark */
    uint64_t length;    /* the length of all replies in bytes */
};

/* Runs a script from a machine in its opening state: a blank drum, the clock at 0, no tape, at rest.
 *
 * With LGP_WELL and LGP_QUESTIONS the room holds the replies to all lines, one after another, as far as
 * they fit; the bytes of the room after them are unchanged, and the outcome is filled in. If
 * outcome->length is greater than room_length, the rest of the replies is lost; the same call with enough
 * room gives all of them, because a script always has the same replies.
 *
 * With LGP_UNREAD and LGP_NO_MEMORY the room is unchanged, and both numbers of the outcome are 0.
 *
 * The call returns all memory that it takes before it ends. A script that asks for a long run takes as
 * long as that: a call cannot be interrupted.
 */
uint32_t lgp_run_script(const uint8_t *script, size_t script_length,
                        uint8_t *room, size_t room_length,
                        struct lgp_outcome *outcome);

/* What is wanted of a source. */
enum lgp_wanted {
    LGP_LISTING = 0, /* its listing */
    LGP_TAPE = 1,    /* the text of the paper tape that loads it, and a line feed */
    LGP_RUN = 2      /* what it prints, and the panel, when it has run in a new machine until it stops or has
                        performed `limit` orders more than the loader */
};

/* Assembles a source, and gives what is wanted of it by its number; of another number the text is empty.
 * The limit counts for LGP_RUN alone.
 *
 * LGP_QUESTIONS says that the source has faults, which are given instead, one in each line, or that the run
 * meets the clock's end, which is given as a refusal; outcome->questions is 1 then. Everything else is as
 * with lgp_run_script. */
uint32_t lgp_source(uint32_t wanted, uint64_t limit,
                    const uint8_t *source, size_t source_length,
                    uint8_t *room, size_t room_length,
                    struct lgp_outcome *outcome);

/* A session: a laboratory that answers one line after another, over memory from malloc.
 *
 * It takes the lines of the monitor, which are those of scripts and some more (docs/USING.md), each
 * without its line feed. All bytes are zero while no session is open: `struct lgp_session session = {0};`.
 * Do not read or write its members, use only the copy after copying it, and close it before its memory
 * goes away. Only one thread may use it at a time. */
struct lgp_session {
    bool is_open;
    void *laboratory;
};

/* Opens a session: a machine in its opening state, an empty transcript, and an empty last reply.
 * LGP_WELL; LGP_NO_MEMORY if no session could be opened; LGP_IS_OPEN if nothing has changed. */
uint32_t lgp_open(struct lgp_session *session);

/* Answers a line, which may have any bytes except a line feed. Bytes with a line feed are several lines:
 * they are refused, and nothing is done. A line of more than 4096 bytes is refused as too long, unless it
 * is blank or a comment, which have no reply. In an open source such a line has no reply: it makes the
 * source too long, and the source is refused at its end.
 *
 * With LGP_WELL and LGP_QUESTIONS the room holds the reply as far as it fits; the bytes of the room after
 * it are unchanged. outcome->length is the length of the whole reply, and outcome->questions is 1 if the
 * line is refused. If the room was too small, lgp_reply gives the reply again.
 *
 * With LGP_NO_MEMORY the session has been closed and its memory returned. With LGP_NOT_OPEN no session is
 * open there. In both cases the room is unchanged, and both numbers of the outcome are 0. */
uint32_t lgp_answer(struct lgp_session *session,
                    const uint8_t *line, size_t line_length,
                    uint8_t *room, size_t room_length,
                    struct lgp_outcome *outcome);

/* Gives the last reply again, with the same status; the line is not carried out again. Takes no memory.
 * LGP_NOT_OPEN as with lgp_answer. */
uint32_t lgp_reply(struct lgp_session *session,
                   uint8_t *room, size_t room_length,
                   struct lgp_outcome *outcome);

/* Closes a session and returns its memory. An open source is closed with its reply, as at the end of a
 * script; otherwise the reply is empty. The room and the outcome are filled as by lgp_answer; what does
 * not fit is lost. With LGP_NO_MEMORY the reply is lost, but the session is closed. LGP_NOT_OPEN as with
 * lgp_answer. */
uint32_t lgp_close(struct lgp_session *session,
                   uint8_t *room, size_t room_length,
                   struct lgp_outcome *outcome);

/* ---- A session as a desk
 *
 * The program of the monitor is a desk: lines are typed there, some of them name files, and it writes
 * replies, prompts and notes (docs/USING.md). A session is a desk without input and output. It wishes for
 * one thing at a time; its caller does that, tells what came of it, and writes the text that the call
 * gives. Telling it what it did not wish for changes nothing and gives an empty text.
 *
 * The calls above may come in between: they ask the monitor alone, and the desk's files stay as they are.
 */

/* What a desk wishes for. */
enum lgp_wish {
    LGP_WISHES_LINE = 0,   /* LGP_TYPED or LGP_FIRST, or lgp_leave */
    LGP_WISHES_ONWARD = 1, /* LGP_ONWARD */
    LGP_WISHES_FILE = 2,   /* LGP_FOUND, or why the file of LGP_NAME is refused */
    LGP_WISHES_KEPT = 3,   /* LGP_KEPT, after the text of LGP_MADE is in the file of LGP_NAME; or LGP_NOT_KEPT */
    LGP_WISHES_NOTHING = 4 /* nothing more: `quit` was typed */
};

/* What a desk is told, with the bytes that belong to it, where there are any. */
enum lgp_told {
    LGP_TYPED = 0,      /* a line that is typed, without its line feed */
    LGP_FIRST = 1,      /* the name of a file whose lines come before those that are typed */
    LGP_ONWARD = 2,     /* to go on with the lines of a file */
    LGP_FOUND = 3,      /* the bytes of the file */
    LGP_NOT_OPENED = 4, /* the file cannot be opened, */
    LGP_NOT_READ = 5,   /* or not be read, */
    LGP_TOO_LONG = 6,   /* or has more bytes than its reader takes, */
    LGP_NOT_NAMED = 7,  /* or its name is no text */
    LGP_KEPT = 8,       /* the text is in the file, */
    LGP_NOT_KEPT = 9    /* or could not be written there */
};

/* What a desk shows. */
enum lgp_shown {
    LGP_PROMPT = 0, /* the prompt in front of the next line; empty unless LGP_PROMPTING is set */
    LGP_NAME = 1,   /* the name of the file that it wishes for */
    LGP_MADE = 2    /* the text that is to be kept there */
};

/* How the replies of a desk are written: LGP_BARE after lgp_open. */
enum lgp_manner {
    LGP_BARE = 0,      /* the replies alone */
    LGP_PROMPTING = 1, /* with prompts */
    LGP_ECHOING = 2,   /* each line above its reply */
    LGP_JSON = 3       /* an object of JSON for each line */
};

/* Tells a desk something by its number, and gives the text that is to be written. Everything else is as
 * with lgp_answer; a number that is none of these changes nothing. */
uint32_t lgp_tell(struct lgp_session *session, uint32_t told,
                  const uint8_t *text, size_t text_length,
                  uint8_t *room, size_t room_length,
                  struct lgp_outcome *outcome);

/* Gives what a desk shows by its number; of another number the text is empty. Everything else is as with
 * lgp_answer. */
uint32_t lgp_show(struct lgp_session *session, uint32_t shown,
                  uint8_t *room, size_t room_length,
                  struct lgp_outcome *outcome);

/* What a desk wishes for, as enum lgp_wish; LGP_NOT_OPEN if no session is open there. */
uint32_t lgp_wish(struct lgp_session *session);

/* Sets how the replies of a desk are written; a number that is none of enum lgp_manner changes nothing.
 * LGP_WELL; LGP_NOT_OPEN. */
uint32_t lgp_manner(struct lgp_session *session, uint32_t manner);

/* Tells a desk that no line is typed any more, and closes the session as lgp_close does, with the text
 * that is to be written then. */
uint32_t lgp_leave(struct lgp_session *session,
                   uint8_t *room, size_t room_length,
                   struct lgp_outcome *outcome);

/* ---- The laboratory for programs without malloc
 *
 * The same calls in memory that the caller gives up for good. The conditions above apply here too, except
 * the one on malloc, realloc and free, which these calls do not use. They are in a separate library,
 * liblgp30_region.a.
 */

/* Memory that is given up for good: size bytes from a place that is aligned to 16 bytes and not null.
 * After the call its former owner must not read, write or free it. */
struct lgp_memory {
    void *start;
    size_t size;
};

/* Like lgp_run_script, in the memory that it is given and never returns. Each script of examples/ takes
 * less than 750 kilobytes, and the replies of a script about four times their length in addition; if the
 * memory is too small, the status is LGP_NO_MEMORY. */
uint32_t lgp_run_script_in(struct lgp_memory memory,
                           const uint8_t *script, size_t script_length,
                           uint8_t *room, size_t room_length,
                           struct lgp_outcome *outcome);
uint32_t lgp_source_in(struct lgp_memory memory, uint32_t wanted, uint64_t limit,
                       const uint8_t *source, size_t source_length,
                       uint8_t *room, size_t room_length,
                       struct lgp_outcome *outcome);

/* A session in memory that is given up: the calls above, with the same statuses and promises. Use a struct
 * lgp_session of its own for them. All its bytes are zero while no session is open. */

/* Opens a session. The memory is given up for good whatever the status is, even with LGP_IS_OPEN.
 * LGP_WELL; LGP_NO_MEMORY if no session could be opened; LGP_IS_OPEN if nothing has changed.
 *
 * The region itself uses 4,096 of these bytes, and an open session about 650 kilobytes. No block that was
 * returned is lost: it serves a later request of its size, so lines that leave nothing behind do not need
 * more and more memory. What a session keeps does: the transcript, the steps to go back, a source and the
 * words that a program reads. The line `new` makes a new laboratory before it gives up the old one: after
 * a small source that takes at most 1,310,720 bytes in all. */
uint32_t lgp_open_in(struct lgp_memory memory, struct lgp_session *session);

/* Answers a line, as lgp_answer does. With LGP_NO_MEMORY the session is closed. */
uint32_t lgp_answer_in(struct lgp_session *session,
                       const uint8_t *line, size_t line_length,
                       uint8_t *room, size_t room_length,
                       struct lgp_outcome *outcome);

/* Gives the last reply again, as lgp_reply does. */
uint32_t lgp_reply_in(struct lgp_session *session,
                      uint8_t *room, size_t room_length,
                      struct lgp_outcome *outcome);

/* Closes a session as lgp_close does, with the reply to an open source. Its memory is not returned. */
uint32_t lgp_close_in(struct lgp_session *session,
                      uint8_t *room, size_t room_length,
                      struct lgp_outcome *outcome);

/* The calls of a desk, as above. */
uint32_t lgp_tell_in(struct lgp_session *session, uint32_t told,
                     const uint8_t *text, size_t text_length,
                     uint8_t *room, size_t room_length,
                     struct lgp_outcome *outcome);
uint32_t lgp_show_in(struct lgp_session *session, uint32_t shown,
                     uint8_t *room, size_t room_length,
                     struct lgp_outcome *outcome);
uint32_t lgp_wish_in(struct lgp_session *session);
uint32_t lgp_manner_in(struct lgp_session *session, uint32_t manner);
uint32_t lgp_leave_in(struct lgp_session *session,
                      uint8_t *room, size_t room_length,
                      struct lgp_outcome *outcome);

#ifdef __cplusplus
}
#endif

#endif
