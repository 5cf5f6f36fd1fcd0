/* Tries what the header promises of sessions over memory that is handed over: all that is tried of those
 * over malloc, want of memory by memory of many sizes, and a hundred thousand lines in 3 megabytes. All
 * of the memory is one array, of which each session has a part of its own, since what was handed over
 * does not come back. With a word on the command line it does a hundredth of the rounds, for whoever
 * watches it by a slow tool. Ends with 0 where all is as promised. */
#include "lgp30.h"
#include "trial.h"

#include <stdio.h>
#include <string.h>

/* What lies between two parts is handed over to nobody, and stays as it is. With so many bytes the header
 * promises a source and a new laboratory. */
enum { BETWEEN = 64, ROUND_ROOM = 1310720 };

static _Alignas(16) uint8_t memory[256 << 20];
static size_t handed_over = BETWEEN;
static size_t size_of_next;

static struct lgp_memory next_part(void)
{
    struct lgp_memory part = {memory + handed_over, size_of_next};
    if (sizeof memory - handed_over < size_of_next + BETWEEN) {
        expect(0, "there is enough memory for all trials");
        part.size = 0;
    }
    handed_over += (part.size + 15) / 16 * 16;
    memset(memory + handed_over, '.', BETWEEN);
    handed_over += BETWEEN;
    return part;
}

/* Of what lies behind the last part. */
static int is_untouched_behind(void)
{
    static const char dots[BETWEEN + 1] = "................................................................";
    return memcmp(memory + handed_over - BETWEEN, dots, BETWEEN) == 0;
}

static uint32_t open_in_part(struct lgp_session *session)
{
    return lgp_open_in(next_part(), session);
}

static uint32_t source_in_part(uint32_t wanted, uint64_t limit, const uint8_t *source, size_t source_length,
                               uint8_t *room, size_t room_length, struct lgp_outcome *outcome)
{
    return lgp_source_in(next_part(), wanted, limit, source, source_length, room, room_length, outcome);
}

static const struct calls in_region = {
    source_in_part, open_in_part, lgp_answer_in, lgp_reply_in, lgp_close_in,
    lgp_tell_in, lgp_show_in, lgp_wish_in, lgp_manner_in, lgp_leave_in};

/* How many lines are answered in so many bytes. */
static size_t answered_in(size_t size)
{
    struct lgp_session session = {0};
    uint32_t status;
    size_of_next = size;
    size_t answered = work(&in_region, &session, &status);
    expect((status == LGP_NO_MEMORY) == (answered < WORK_LINES), "want of memory is told, and nothing else");
    expect(is_untold(end(&in_region, &session, 32), LGP_NOT_OPEN) == (answered < WORK_LINES),
           "the session is closed then, and only then");
    expect(is_untouched_behind(), "nothing is written behind the memory");
    return answered;
}

/* Tries sizes between two whose numbers of answered lines differ, until only 16 bytes lie between them.
 * How many sizes were tried. */
static size_t between(size_t less, size_t answered_in_less, size_t more, size_t answered_in_more)
{
    expect(answered_in_less <= answered_in_more, "in more memory no fewer lines are answered");
    if (answered_in_less == answered_in_more || more - less <= 16) {
        return 0;
    }
    size_t middle = less + (more - less) / 32 * 16;
    size_t answered = answered_in(middle);
    return 1 + between(less, answered_in_less, middle, answered) + between(middle, answered, more, answered_in_more);
}

/* Sizes from nothing on, until all lines are answered. */
static void sizes(void)
{
    size_t size = 0;
    size_t answered = answered_in(0);
    size_t tried = 1;
    expect(answered == 0, "of no memory no session is opened");
    while (answered < WORK_LINES && size < 2 << 20) {
        size_t more = answered_in(size + 16384);
        tried += 1 + between(size, answered, size + 16384, more);
        size += 16384;
        answered = more;
    }
    expect(answered == WORK_LINES, "with enough memory all lines are answered");
    printf("sessions in regions: %zu sizes of memory\n", tried);
}

/* A session that memory has closed, and memory that does not have so many bytes as a region takes. */
static void closed_by_memory(void)
{
    struct lgp_session session = {0};
    uint32_t status;
    size_of_next = 647168; /* enough for a session and not for a program */
    expect(work(&in_region, &session, &status) > 0 && status == LGP_NO_MEMORY, "a line is refused its memory");
    expect(is_untold(ask(&in_region, &session, "panel", 32), LGP_NOT_OPEN), "no line is answered behind it");
    expect(is_untold(again(&in_region, &session, 32), LGP_NOT_OPEN), "and no reply given again");
    size_of_next = 4095;
    expect(in_region.open(&session) == LGP_NO_MEMORY, "a session needs more than that");
    expect(is_untold(end(&in_region, &session, 32), LGP_NOT_OPEN), "and is not open then");
    size_of_next = 1 << 20;
    expect(in_region.open(&session) == LGP_WELL, "it is opened over other memory");
    expect(is_reply(ask(&in_region, &session, "words 0000 1", 32), LGP_WELL, "0000 00000000\n"),
           "with a new laboratory");
    expect(is_reply(end(&in_region, &session, 32), LGP_WELL, ""), "and closed");
}

/* The number of the line panel that closes a session over so many bytes, of so many lines; 0 if none does. */
static size_t closing_line(size_t size, size_t lines)
{
    static uint8_t first[4096];
    static uint8_t reply[4096];
    struct lgp_session session = {0};
    struct lgp_outcome outcome;
    size_of_next = size;
    in_region.open(&session);
    size_t length = 0;
    for (size_t line = 1; line <= lines; line++) {
        uint8_t *room = line == 1 ? first : reply;
        if (lgp_answer_in(&session, (const uint8_t *)"panel", 5, room, sizeof reply, &outcome) != LGP_WELL) {
            return line;
        }
        length = line == 1 ? outcome.length : length;
        expect(outcome.length == length && (line == 1 || memcmp(first, reply, length) == 0),
               "each line has the same reply");
    }
    expect(is_reply(end(&in_region, &session, 32), LGP_WELL, ""), "the session is open to its end");
    return 0;
}

/* The transcript has six bytes of each line, and lies in a block of a power of two, the old one and the
 * new one at once where it grows. */
static void many_lines(void)
{
    expect(closing_line(3 << 20, 100000) == 0, "3 megabytes are enough for 100,000 lines");
    expect(closing_line(1 << 20, 100000) == 131072 / 6 + 1, "1 megabyte is enough for 131,072 bytes of them");
}

/* How many rounds are answered in so many bytes: a source of three lines, and a new laboratory. */
static size_t rounds_in(size_t size, size_t rounds)
{
    static const char *const lines[] = {"source", "loop b loop", " u loop", " end", ".", "new"};
    struct lgp_session session = {0};
    struct lgp_outcome outcome;
    uint8_t reply[64];
    size_of_next = size;
    if (in_region.open(&session) != LGP_WELL) {
        return 0;
    }
    for (size_t round = 0; round < rounds; round++) {
        for (size_t line = 0; line < sizeof lines / sizeof *lines; line++) {
            if (lgp_answer_in(&session, (const uint8_t *)lines[line], strlen(lines[line]), reply, sizeof reply, &outcome) != LGP_WELL) {
                return round;
            }
        }
    }
    expect(is_reply(end(&in_region, &session, 32), LGP_WELL, ""), "the session is open to its end");
    return rounds;
}

/* A block that was freed serves again, so what is done and given up again and again takes no more memory.
 * A new laboratory is made before the old one is given up. */
static void many_rounds(size_t rounds)
{
    size_t least = 0;
    for (size_t more = 1 << 20; more >= 16; more /= 2) {
        least += rounds_in(least + more, 1) == 0 ? more : 0;
    }
    printf("sessions in regions: a source and a new laboratory take %zu bytes\n", least + 16);
    expect(least + 16 <= ROUND_ROOM, "a source and a new laboratory take no more than the header says");
    expect(rounds_in(3 << 20, rounds) == rounds, "3 megabytes are enough for any number of them");
}

int main(int words, char **word)
{
    (void)word;
    refuse_growth(1);
    size_of_next = 1 << 20;
    try_lines(&in_region);
    try_long_lines(&in_region);
    try_sources(&in_region);
    try_desk(&in_region);
    closed_by_memory();
    sizes();
    many_lines();
    many_rounds(words > 1 ? 1000 : 100000);
    expect(grown_freely(), "malloc is not called");
    return failures() == 0 ? 0 : 1;
}
