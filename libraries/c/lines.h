/* What the programs share that answer lines as they come: a line of standard input, and a reply to it. */
#ifndef LINES_H
#define LINES_H

#include <stddef.h>
#include <stdint.h>

/* How many bytes of a line are kept: one more than a line may have, which is enough to have it refused. */
enum { LINE_ROOM = 4097 };

/* Reads a line into a room of LINE_ROOM bytes, without its line feed and a carriage return before that.
 * Whether there was one. */
int read_line(uint8_t *line, size_t *length);

/* Writes a reply immediately, even to a pipe, so that each line has its reply before the next one is
 * asked. Whether all of it was written. */
int write_reply(const uint8_t *reply, size_t length);

#endif
