#include "trial.h"

#include <stdio.h>
#include <string.h>

void *__real_malloc(size_t size);
void *__real_realloc(void *at, size_t size);

static size_t refused_growth = 0;
static int was_refused = 0;
static int failed = 0;

static int is_refused(void)
{
    if (refused_growth == 0 || --refused_growth > 0) {
        return 0;
    }
    was_refused = 1;
    return 1;
}

void *__wrap_malloc(size_t size)
{
    return is_refused() ? NULL : __real_malloc(size);
}

void *__wrap_realloc(void *at, size_t size)
{
    return is_refused() ? NULL : __real_realloc(at, size);
}

void refuse_growth(size_t number)
{
    refused_growth = number;
    was_refused = 0;
}

int grown_freely(void)
{
    refused_growth = 0;
    return !was_refused;
}

void expect(int holds, const char *what)
{
    if (!holds) {
        fprintf(stderr, "not so: %s\n", what);
        failed++;
    }
}

int failures(void)
{
    return failed;
}

static const struct told untold = {77, {77, 77}, "................................"};

struct told ask(const struct calls *calls, struct lgp_session *session, const char *line, size_t room)
{
    struct told told = untold;
    told.status = calls->answer(session, (const uint8_t *)line, strlen(line), (uint8_t *)told.room, room,
                                &told.outcome);
    return told;
}

struct told again(const struct calls *calls, struct lgp_session *session, size_t room)
{
    struct told told = untold;
    told.status = calls->reply(session, (uint8_t *)told.room, room, &told.outcome);
    return told;
}

struct told end(const struct calls *calls, struct lgp_session *session, size_t room)
{
    struct told told = untold;
    told.status = calls->close(session, (uint8_t *)told.room, room, &told.outcome);
    return told;
}

int is_reply(struct told told, uint32_t status, const char *reply)
{
    size_t length = strlen(reply);
    return told.status == status && told.outcome.length == length && told.outcome.questions == status
        && memcmp(told.room, reply, length) == 0 && strspn(told.room + length, ".") == 32 - length;
}

int is_untold(struct told told, uint32_t status)
{
    return told.status == status && told.outcome.length == 0 && told.outcome.questions == 0
        && strspn(told.room, ".") == 32;
}

/* That nothing is open there, whatever is asked. */
static int is_closed(const struct calls *calls, struct lgp_session *session)
{
    return is_untold(ask(calls, session, "panel", 32), LGP_NOT_OPEN)
        && is_untold(again(calls, session, 32), LGP_NOT_OPEN)
        && is_untold(end(calls, session, 32), LGP_NOT_OPEN);
}

/* A reply of 14 bytes in rooms of each size. */
static void try_rooms(const struct calls *calls, struct lgp_session *session)
{
    for (size_t room = 0; room <= 32; room++) {
        struct told told = ask(calls, session, "words 0050 1", room);
        size_t written = room < 14 ? room : 14;
        expect(told.status == LGP_WELL && told.outcome.length == 14, "the whole length is told");
        expect(memcmp(told.room, "0050 00000006\n", written) == 0, "the front of the reply is written");
        expect(strspn(told.room + written, ".") == 32 - written, "what lies behind is as it was");
        expect(is_reply(again(calls, session, 32), LGP_WELL, "0050 00000006\n"), "the reply is given again");
    }
}

void try_lines(const struct calls *calls)
{
    struct lgp_session session = {0};
    expect(is_closed(calls, &session), "nothing is answered before a session is open");
    expect(calls->open(&session) == LGP_WELL, "a session is opened");
    expect(is_reply(again(calls, &session, 32), LGP_WELL, ""), "its last reply is empty");
    expect(is_reply(ask(calls, &session, "put 0050 = 3", 32), LGP_WELL, "ok\n"), "a line is answered");
    expect(calls->open(&session) == LGP_IS_OPEN, "an open session is not opened");
    expect(is_reply(ask(calls, &session, "words 0050 1", 32), LGP_WELL, "0050 00000006\n"),
           "a session stays between lines");
    expect(is_reply(ask(calls, &session, "", 32), LGP_WELL, ""), "an empty line has no reply");
    expect(is_reply(ask(calls, &session, "go", 32), LGP_QUESTIONS, "? 1 Form: go ttss\n"), "a refusal is told");
    expect(is_reply(again(calls, &session, 32), LGP_QUESTIONS, "? 1 Form: go ttss\n"), "and told again");
    try_rooms(calls, &session);
    expect(is_reply(ask(calls, &session, "source", 32), LGP_WELL, ""), "a source is begun");
    struct told told = end(calls, &session, 32);
    expect(told.status == LGP_QUESTIONS && told.outcome.length > 0 && told.outcome.questions == 1
               && memcmp(told.room, "? ", 2) == 0,
           "an open source is answered at the end");
    expect(is_closed(calls, &session), "a closed session answers nothing, and is not closed twice");
    expect(calls->open(&session) == LGP_WELL, "it is opened again");
    expect(is_reply(ask(calls, &session, "words 0050 1", 32), LGP_WELL, "0050 00000000\n"),
           "with a new laboratory");
    expect(is_reply(end(calls, &session, 32), LGP_WELL, ""), "and closed again");
}

static int begins(struct told told, uint32_t status, const char *front)
{
    return told.status == status && strncmp(told.room, front, strlen(front)) == 0;
}

static int is_too_long(struct told told)
{
    return begins(told, LGP_QUESTIONS, "? 11 TooLong: ");
}

static int is_panel(struct told told)
{
    return begins(told, LGP_WELL, "counter 0000 ");
}

void try_long_lines(const struct calls *calls)
{
    static char line[5002];
    struct lgp_session session = {0};
    calls->open(&session);
    memset(line, ' ', 5000);
    memcpy(line, "panel", 5);
    expect(is_too_long(ask(calls, &session, line, 32)), "a long line is refused");
    line[4097] = 0;
    expect(is_too_long(ask(calls, &session, line, 32)), "so is one of 4097 bytes");
    line[4096] = 0;
    expect(is_panel(ask(calls, &session, line, 32)), "and one of 4096 bytes is answered");
    memset(line, ' ', 5000);
    expect(is_reply(ask(calls, &session, line, 32), LGP_WELL, ""), "a long line that is blank has no reply");
    line[0] = ';';
    expect(is_reply(ask(calls, &session, line, 32), LGP_WELL, ""), "nor has a long comment");
    expect(is_reply(ask(calls, &session, "source", 32), LGP_WELL, ""), "a source is begun");
    expect(is_reply(ask(calls, &session, line, 32), LGP_WELL, ""), "a long line of it has no reply");
    expect(is_too_long(ask(calls, &session, ".", 32)), "at its end it is refused");
    expect(is_panel(ask(calls, &session, "panel", 32)), "and lines after it are answered");
    for (int byte = 0; byte < 256; byte++) {
        line[byte] = (char)byte;
    }
    struct told told = untold;
    told.status = calls->answer(&session, (const uint8_t *)line, 256, (uint8_t *)told.room, 32, &told.outcome);
    expect(told.status == LGP_QUESTIONS, "any bytes are a line");
    end(calls, &session, 32);
}

static struct told wanted_of(const struct calls *calls, uint32_t wanted, const char *source)
{
    struct told told = untold;
    told.status = calls->source(wanted, 5, (const uint8_t *)source, strlen(source), (uint8_t *)told.room, 32,
                                &told.outcome);
    return told;
}

void try_sources(const struct calls *calls)
{
    expect(is_reply(wanted_of(calls, LGP_LISTING, " end"), LGP_WELL, "               end\n"), "a source is listed");
    struct told tape = wanted_of(calls, LGP_TAPE, " z\n end 0000\n");
    expect(begins(tape, LGP_WELL, "000k0000'wwwwwwwj'00000000'") && tape.outcome.length > 32, "its tape is given");
    expect(begins(wanted_of(calls, LGP_RUN, " z\n end 0000\n"), LGP_WELL, "printed 0\ncounter 0001 "), "it is run");
    for (uint32_t wanted = LGP_LISTING; wanted <= LGP_RUN; wanted++) {
        expect(is_reply(wanted_of(calls, wanted, " b none"), LGP_QUESTIONS, "line 1 UnknownName\nline 2 NoEnd\n"),
               "its faults are given");
    }
    expect(is_reply(wanted_of(calls, LGP_RUN + 1, " end"), LGP_WELL, ""), "nothing else is wanted");
}

static struct told tell(const struct calls *calls, struct lgp_session *session, uint32_t what, const char *text)
{
    struct told told = untold;
    told.status = calls->tell(session, what, (const uint8_t *)text, strlen(text), (uint8_t *)told.room, 32,
                              &told.outcome);
    return told;
}

static struct told show(const struct calls *calls, struct lgp_session *session, uint32_t what)
{
    struct told told = untold;
    told.status = calls->show(session, what, (uint8_t *)told.room, 32, &told.outcome);
    return told;
}

static struct told leave(const struct calls *calls, struct lgp_session *session)
{
    struct told told = untold;
    told.status = calls->leave(session, (uint8_t *)told.room, 32, &told.outcome);
    return told;
}

/* That no desk is there. */
static int is_no_desk(const struct calls *calls, struct lgp_session *session)
{
    return is_untold(tell(calls, session, LGP_TYPED, "panel"), LGP_NOT_OPEN)
        && is_untold(show(calls, session, LGP_PROMPT), LGP_NOT_OPEN)
        && is_untold(leave(calls, session), LGP_NOT_OPEN)
        && calls->wish(session) == LGP_NOT_OPEN && calls->manner(session, LGP_JSON) == LGP_NOT_OPEN;
}

/* That a desk that is told this says that, and then wishes for something. */
static int says(const struct calls *calls, struct lgp_session *session, uint32_t what, const char *text,
                const char *said, uint32_t wish)
{
    return is_reply(tell(calls, session, what, text), LGP_WELL, said) && calls->wish(session) == wish;
}

void try_desk(const struct calls *calls)
{
    struct lgp_session session = {0};
    expect(is_no_desk(calls, &session), "no desk is there before a session is open");
    calls->open(&session);
    expect(calls->wish(&session) == LGP_WISHES_LINE, "a desk wishes for a line");
    expect(says(calls, &session, LGP_TYPED, "put 0050 = 3", "ok\n", LGP_WISHES_LINE), "and says its reply");
    expect(says(calls, &session, LGP_KEPT, "", "", LGP_WISHES_LINE), "what it does not wish for changes nothing");
    expect(says(calls, &session, LGP_NOT_KEPT + 1, "panel", "", LGP_WISHES_LINE), "nor does another number");
    expect(says(calls, &session, LGP_TYPED, "save drum", "", LGP_WISHES_KEPT), "a line may name a file");
    expect(is_reply(show(calls, &session, LGP_NAME), LGP_WELL, "drum"), "whose name it shows,");
    expect(is_reply(show(calls, &session, LGP_MADE), LGP_WELL, "0050 00000006\n"), "and what is to be kept there");
    expect(says(calls, &session, LGP_KEPT, "", "saved drum\n", LGP_WISHES_LINE), "it is told that this was done");
    expect(says(calls, &session, LGP_TYPED, "do lines", "", LGP_WISHES_FILE), "it wishes for a file");
    expect(says(calls, &session, LGP_FOUND, "words 0050 1\nquit", "", LGP_WISHES_ONWARD), "and for its lines");
    expect(says(calls, &session, LGP_ONWARD, "", "0050 00000006\n", LGP_WISHES_ONWARD), "one after another");
    expect(is_reply(ask(calls, &session, "go", 32), LGP_QUESTIONS, "? 1 Form: go ttss\n"), "the monitor is asked in between");
    expect(is_reply(show(calls, &session, LGP_PROMPT), LGP_WELL, ""), "no prompt is shown");
    expect(calls->manner(&session, LGP_PROMPTING) == LGP_WELL, "unless that is set");
    expect(is_reply(show(calls, &session, LGP_PROMPT), LGP_WELL, "0000 halted operator> "), "and then it is");
    expect(calls->manner(&session, LGP_JSON + 1) == LGP_WELL
               && is_reply(show(calls, &session, LGP_NAME + 9), LGP_WELL, ""), "another number changes and shows nothing");
    expect(says(calls, &session, LGP_ONWARD, "", "", LGP_WISHES_NOTHING), "after quit it wishes for nothing");
    expect(is_reply(leave(calls, &session), LGP_WELL, ""), "and is left");
    expect(is_no_desk(calls, &session), "which closes the session");
}

size_t work(const struct calls *calls, struct lgp_session *session, uint32_t *status)
{
    /* lines, and the front of the reply to each */
    static const char *const lines[WORK_LINES][2] = {
        {"source", ""},
        {" b 0002", ""},
        {" z", ""},
        {" word 00000006", ""},
        {" end 0000", ""},
        {".", "cells 3 start 0000\n"},
        {"load", "loaded 43\n"},
        {"run 9", "ran 2 rest\n"},
        {"put 0050 .5", "ok\n"},
        {"go 0100", "live\nlive 8 dead 0\n"},
        {"run 3", "ran 1 rest\n"},
        {"panel", "counter 0101 "},
        {"transcript", "source\n b 0002\n z\n"},
        {"new", "new\n"},
        {"dump", "dump 0\n"},
    };
    *status = calls->open(session);
    for (size_t line = 0; line < WORK_LINES; line++) {
        if (*status >= LGP_UNREAD) {
            return line == 0 ? 0 : line - 1;
        }
        struct told told = ask(calls, session, lines[line][0], 32);
        *status = told.status;
        expect(begins(told, LGP_WELL, lines[line][1]) || is_untold(told, LGP_NO_MEMORY),
               "a line is answered, or want of memory is all that is told");
    }
    return *status < LGP_UNREAD ? WORK_LINES : WORK_LINES - 1;
}
