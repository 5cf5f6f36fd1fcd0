/* The monitor's program over the library: answers the lines of the files that are named on the command line
 * and then those of standard input as they come, and reads and keeps the files that they name. Ends with 1
 * where some reply was a refusal, with 2 where one could not be written, and with 3 where there was not
 * enough memory.
 *
 *     printf 'put 0050 = 3\nsave drum\n' | ./desk
 */
#include "lgp30.h"
#include "lines.h"

#include <stdio.h>
#include <stdlib.h>
#include <string.h>

/* A desk takes no more bytes of a file. What it says at its end has fewer than so many. */
enum { FILE_LIMIT = 16777216, LAST_ROOM = 33554432 };

/* A session, the room for what it gives, and the worst status so far. */
struct host {
    struct lgp_session session;
    struct lgp_outcome outcome;
    uint8_t *room;
    size_t size;
    uint32_t worst;
};

static void note(struct host *host, uint32_t status)
{
    host->worst = status > host->worst ? status : host->worst;
}

/* Makes the room as large as this. Whether there was memory for it. */
static int widen(struct host *host, size_t size)
{
    uint8_t *larger = size > host->size ? realloc(host->room, size) : host->room;
    if (larger == NULL) {
        note(host, LGP_NO_MEMORY);
        return 0;
    }
    host->room = larger;
    host->size = size > host->size ? size : host->size;
    return 1;
}

/* What a call gave is in the room, whole. Whether it is, by the call's status. */
static int is_given(struct host *host, uint32_t status)
{
    if (status >= LGP_UNREAD) {
        note(host, status);
        return 0;
    }
    if (host->outcome.length > host->size) {
        if (!widen(host, host->outcome.length)) {
            return 0;
        }
        lgp_reply(&host->session, host->room, host->size, &host->outcome);
    }
    return 1;
}

/* Writes what the desk said. */
static void say(struct host *host, uint32_t status)
{
    if (is_given(host, status)) {
        note(host, write_reply(host->room, host->outcome.length) ? status : LGP_UNREAD);
    }
}

static void tell(struct host *host, uint32_t told, const void *text, size_t length)
{
    say(host, lgp_tell(&host->session, told, text, length, host->room, host->size, &host->outcome));
}

/* What the desk shows, with a null byte after it; NULL where there was not enough memory. */
static char *shown(struct host *host, uint32_t what, size_t *length)
{
    if (!is_given(host, lgp_show(&host->session, what, host->room, host->size, &host->outcome))) {
        return NULL;
    }
    char *text = malloc(host->outcome.length + 1);
    if (text == NULL) {
        note(host, LGP_NO_MEMORY);
        return NULL;
    }
    memcpy(text, host->room, host->outcome.length);
    text[host->outcome.length] = '\0';
    *length = host->outcome.length;
    return text;
}

/* Reads a file: its bytes and how many they are, and what the desk is told of them. */
static uint32_t read_file(const char *name, uint8_t *text, size_t *length)
{
    FILE *file = fopen(name, "rb");
    if (file == NULL) {
        return LGP_NOT_OPENED;
    }
    *length = fread(text, 1, FILE_LIMIT + 1, file);
    uint32_t told = ferror(file) ? LGP_NOT_READ : *length > FILE_LIMIT ? LGP_TOO_LONG : LGP_FOUND;
    fclose(file);
    return told;
}

/* Reads the file that the desk wishes for. A name with a null byte in it names none. */
static void find(struct host *host)
{
    size_t name_length, length = 0;
    char *name = shown(host, LGP_NAME, &name_length);
    uint8_t *text = malloc(FILE_LIMIT + 1);
    if (name != NULL && text != NULL) {
        uint32_t told = strlen(name) == name_length ? read_file(name, text, &length) : LGP_NOT_OPENED;
        tell(host, told, text, told == LGP_FOUND ? length : 0);
    } else {
        note(host, LGP_NO_MEMORY);
    }
    free(text);
    free(name);
}

/* Opens a new file beside the one of a name; its name is written into a room with place for five bytes more. */
static FILE *open_beside(const char *name, char *beside)
{
    static const char *const endings[] = {".new", ".new1", ".new2", ".new3"};
    FILE *file = NULL;
    for (size_t at = 0; file == NULL && at < sizeof endings / sizeof *endings; at++) {
        file = fopen(strcat(strcpy(beside, name), endings[at]), "wbx");
    }
    return file;
}

/* Keeps a text in the file of a name: first in a new one beside it, so that the old one stays where that
 * fails. Whether it is there. */
static int keep_file(const char *name, const char *text, size_t length)
{
    char *beside = malloc(strlen(name) + sizeof ".new1");
    FILE *file = beside == NULL ? NULL : open_beside(name, beside);
    int is_kept = file != NULL && fwrite(text, 1, length, file) == length;
    is_kept = file != NULL && fclose(file) == 0 && is_kept && rename(beside, name) == 0;
    if (file != NULL && !is_kept) {
        remove(beside);
    }
    free(beside);
    return is_kept;
}

/* Keeps what the desk wishes to keep. */
static void keep(struct host *host)
{
    size_t name_length, length;
    char *name = shown(host, LGP_NAME, &name_length);
    char *text = name == NULL ? NULL : shown(host, LGP_MADE, &length);
    if (text != NULL) {
        int is_kept = strlen(name) == name_length && keep_file(name, text, length);
        tell(host, is_kept ? LGP_KEPT : LGP_NOT_KEPT, "", 0);
    }
    free(text);
    free(name);
}

/* Does what the desk wishes for, until it wishes for a line or for nothing more. */
static void grant(struct host *host)
{
    while (host->worst < LGP_UNREAD) {
        switch (lgp_wish(&host->session)) {
        case LGP_WISHES_ONWARD: tell(host, LGP_ONWARD, "", 0); break;
        case LGP_WISHES_FILE: find(host); break;
        case LGP_WISHES_KEPT: keep(host); break;
        default: return;
        }
    }
}

int main(int words, char **word)
{
    struct host host = {0};
    uint8_t line[LINE_ROOM];
    size_t length;
    note(&host, lgp_open(&host.session));
    widen(&host, 4096);
    for (int at = 1; at < words && host.worst < LGP_UNREAD; at++) {
        tell(&host, LGP_FIRST, word[at], strlen(word[at]));
        grant(&host);
    }
    while (host.worst < LGP_UNREAD && lgp_wish(&host.session) == LGP_WISHES_LINE && read_line(line, &length)) {
        tell(&host, LGP_TYPED, line, length);
        grant(&host);
    }
    if (host.worst < LGP_UNREAD && widen(&host, LAST_ROOM)) {
        say(&host, lgp_leave(&host.session, host.room, host.size, &host.outcome));
    } else {
        lgp_close(&host.session, line, 0, &host.outcome);
    }
    free(host.room);
    return (int)host.worst;
}
