/* syslog_loose.h: syslog messages of RFC 5424, of the looser RFC 3164, and of senders that follow neither, read and
 * printed.
 *
 * The library is libsyslog_loose, for Linux on x86-64 (level v2):
 *
 *     cc program.c $(pkg-config --cflags --libs syslog_loose)
 *
 * A program may include the system's <syslog.h> too. Four calls ask for memory, by the program's malloc, realloc and
 * free: syslog_settle, syslog_to_rfc5424, syslog_json, and syslog_decode for bytes that are not UTF-8. They make the
 * text in memory of their own, copy it to the caller's buffer, and free that memory before they return. No other call
 * asks for any.
 *
 * The library has no state: no call keeps or frees anything of the caller's, and threads may call it at once. Don't
 * call it from a signal handler, nor in the forked child of a process with threads.
 *
 * What each call owes its caller is proved from its code, but not what the caller owes the call:
 *   - No pointer is null, also where its length is 0.
 *   - A pointer with a length n points to n bytes (or n structs), any other one to one value; n is below 2^63 bytes.
 *   - What a call writes to overlaps nothing else that it is given, and no other thread touches it meanwhile.
 *   - The line of syslog_read_utf8 is UTF-8.
 *   - Each syslog_message, syslog_row, syslog_element, syslog_param and syslog_text is set before the first call that
 *     writes to it, by SYSLOG_MESSAGE_INIT and the like. (No call looks at what it was set to.)
 *   - The texts of a message lie in the line: they last as long as its bytes do, unchanged.
 *
 * What stays, before version 1.0 too: the names of calls, structs, fields and macros, their numbers, and what each
 * promises here. What a minor version may change before 1.0:
 *   - It may add calls and outcomes, so take an outcome that you don't know for a failure.
 *   - It may add fields at the end of a struct, so set fields by their names. The shared library (libsyslog_loose.so.4)
 *     then gets another number: no program runs with structs of another size than it was compiled with.
 *   - It may read a line in another way, and CHANGELOG.md then says so.
 */
#ifndef SYSLOG_LOOSE_H
#define SYSLOG_LOOSE_H

#include <stddef.h>
#include <stdint.h>

#ifdef __cplusplus
extern "C" {
#endif

/* The version of this header: 1,000,000 for each major one, 1,000 for each minor one. syslog_version returns that of
 * the library. */
#define SYSLOG_VERSION_MAJOR 0
#define SYSLOG_VERSION_MINOR 1
#define SYSLOG_VERSION_PATCH 0
#define SYSLOG_VERSION (SYSLOG_VERSION_MAJOR * 1000000 + SYSLOG_VERSION_MINOR * 1000 + SYSLOG_VERSION_PATCH)
uint32_t syslog_version(void);

/* How a call ends. */
enum syslog_outcome {
    SYSLOG_DONE = 0,         /* all that the call writes was written */
    SYSLOG_NO_READING = 1,   /* the line is no message (syslog_settle: or one of the texts that it prints is none) */
    SYSLOG_NOT_UTF8 = 2,     /* the bytes are no UTF-8 */
    SYSLOG_NO_MEMORY = 3,    /* an allocation failed: only in one of the four calls that ask for memory */
    SYSLOG_NO_ROOM = 4,      /* a buffer or an array is too small: see what is needed */
    SYSLOG_BAD_ARGUMENT = 5  /* the options mean nothing: one is out of its range, the calendar does not have the day,
                                the zone is no rule, or there are a zone and an offset */
};

/* How a line is read. { .year = 2026 } reads both protocols and the dialects, in that year and in UTC. { 0 } reads in
 * the year 0, which no call refuses. A date that shows no year then lies two thousand years back. */
struct syslog_options {
    uint32_t variant;     /* 0: either protocol, RFC 5424 first; 3164 or 5424: that one */
    int32_t year;         /* of dates that show none, from -9999 to 9999 */
    uint32_t month;       /* 0: all of these are of that year; 1 to 12: it is this month of that year, and in January a
                             date of December is of the year before */
    int32_t offset;       /* seconds by which dates without an offset are ahead of UTC, from -93599 to 93599 */
    uint32_t no_dialects; /* 0: a line is read in its sender's dialect, where it is in one; any other number: each line
                             is read by the protocols alone */
    uint32_t day;         /* 0: the day is not known; 1 to 31: it is this day of that month, which the calendar has, and
                             a date is of the last year that puts it no more than a day past this day. So on 2026-11-28
                             Nov 29 is of 2026, and Nov 30 of 2025 */
    char zone[96];        /* "": dates without an offset are at the one above; otherwise a POSIX rule for them, as
                             "CET-1CEST,M3.5.0,M10.5.0/3", and the offset above is 0. A zero byte ends it: a rule has at
                             most 90 bytes. One with summer time says when that begins and ends. Names are no rules */
};

/* A dialect is a form of lines of senders that follow neither protocol, as Cisco's switches and FortiGate's firewalls
 * write them: docs/SENDERS.md has them all. Where the variant and no_dialects are 0, syslog_read, syslog_read_utf8,
 * syslog_read_fields, syslog_read_lines, syslog_json and syslog_to_rfc5424 read a line in its dialect. Its message has
 * structured data in check-point alone: one element, whose id, checkpoint@2620, is no piece of the line but a text of
 * the library. What journalctl writes between messages, as `-- Reboot --`, is then no message.
 *
 * syslog_normalise, syslog_settle and syslog_is_canonical read each line by the protocols alone. A line of a dialect
 * may be no message for them. */

/* A piece of the line (but for the id above), in UTF-8. No zero byte ends it. An absent one has the length 0. */
struct syslog_text {
    const char *start;
    size_t length;
    uint32_t present; /* 1, or 0 for an absent one */
};

/* All are 0 for an absent one. */
struct syslog_timestamp {
    int64_t seconds;       /* since 1970-01-01T00:00:00Z, rounded down, as struct timespec has them */
    int32_t nanoseconds;   /* after these, from 0 to 999,999,999 */
    int32_t offset;        /* seconds by which the clock that showed it is ahead of UTC */
    uint32_t present;      /* 1, or 0 for an absent one */
    uint32_t shows_year;   /* 1 where the line shows the year, 0 where the options gave it */
    uint32_t shows_offset; /* 1 where the line shows the offset, 0 where the options gave it */
};

/* A number, a name, or neither. */
struct syslog_process {
    struct syslog_text name;
    int32_t number;
    uint32_t is_number; /* 1 for a number, which is 0 otherwise */
};

struct syslog_message {
    uint32_t protocol; /* 3164 or 5424 */
    uint32_t version;  /* of RFC 5424, and otherwise 0 */
    int32_t facility;  /* 0 to 23, or -1 for an absent one */
    int32_t severity;  /* 0 (emergency) to 7 (debug), or -1 for an absent one */
    struct syslog_timestamp timestamp;
    struct syslog_text host;
    struct syslog_text app;
    struct syslog_process process;
    struct syslog_text msgid;
    struct syslog_text msg;
    size_t elements;  /* how many elements of structured data there are */
    size_t params;    /* how many parameters these have together */
    uint32_t dialect; /* its number where the line was read in a dialect, and otherwise 0 */
    struct syslog_text unparsed; /* structured data from its first element on that is not strict; absent where each is.
                                    A strict element after that one is among the elements too */
};

/* A line of a buffer: the line, how its reading ends, and its message. That is blank where the line is none: its
 * facility and severity are -1, all else is 0, and its texts are absent. */
struct syslog_row {
    struct syslog_text line; /* without its line feed */
    uint32_t outcome;        /* what syslog_read_fields returns of the line */
    struct syslog_message message;
};

/* An element of structured data. Its parameters follow those of the elements before it. */
struct syslog_element {
    struct syslog_text id;
    size_t params;
};

/* A parameter. The value is as the line has it: syslog_unescape takes its escapes out. */
struct syslog_param {
    struct syslog_text name;
    struct syslog_text value;
};

#define SYSLOG_TEXT_INIT { "", 0, 0 }
#define SYSLOG_MESSAGE_INIT \
    { 0, 0, 0, 0, { 0, 0, 0, 0, 0, 0 }, SYSLOG_TEXT_INIT, SYSLOG_TEXT_INIT, { SYSLOG_TEXT_INIT, 0, 0 }, \
      SYSLOG_TEXT_INIT, SYSLOG_TEXT_INIT, 0, 0, 0, SYSLOG_TEXT_INIT }
#define SYSLOG_ROW_INIT { SYSLOG_TEXT_INIT, 0, SYSLOG_MESSAGE_INIT }
#define SYSLOG_ELEMENT_INIT { SYSLOG_TEXT_INIT, 0 }
#define SYSLOG_PARAM_INIT { SYSLOG_TEXT_INIT, SYSLOG_TEXT_INIT }

/* Reads a line: its fields into the message, and its elements and their parameters, in order, into the two arrays.
 *
 * SYSLOG_DONE: all of it is there, and what follows in the arrays is as it was.
 * SYSLOG_NO_ROOM: the message is there, with the numbers that are needed; one of the arrays is too small, and both may
 *   hold anything.
 * Any other: the message and the arrays are as they were.
 */
uint32_t syslog_read(const char *line, size_t length, const struct syslog_options *options,
                     struct syslog_message *message, struct syslog_element *elements, size_t element_room,
                     struct syslog_param *params, size_t param_room);

/* Reads a line that the caller knows to be UTF-8, as syslog_read does, and does not look whether it is: a caller whose
 * texts are UTF-8 by their type saves that look. A line that is none would be read as if it were, past its end perhaps.
 */
uint32_t syslog_read_utf8(const char *line, size_t length, const struct syslog_options *options,
                          struct syslog_message *message, struct syslog_element *elements, size_t element_room,
                          struct syslog_param *params, size_t param_room);

/* Reads the fields alone, and no structured data: the message has the numbers of elements and of parameters.
 *
 * SYSLOG_DONE: they are there. Any other: the message is as it was.
 */
uint32_t syslog_read_fields(const char *line, size_t length, const struct syslog_options *options,
                            struct syslog_message *message);

/* Reads the lines of a buffer, without structured data: a row for each line, in order, from the first row on. The
 * number of these rows is written to read. A line is what is between line feeds; an empty last one is none, and the
 * last need not end in a line feed. Each text is a piece of the buffer, so row.line.start - buffer is where the line
 * begins.
 *
 * SYSLOG_DONE: each line has a row, and the rows after these are as they were.
 * SYSLOG_NO_ROOM: there are more lines than rows, and the rows have the first lines. The others begin after the last
 *   row's line and its line feed.
 * SYSLOG_BAD_ARGUMENT: read is 0, and the rows are as they were.
 */
uint32_t syslog_read_lines(const char *buffer, size_t length, const struct syslog_options *options,
                           struct syslog_row *rows, size_t room, size_t *read);

/* The six that follow write a text to the beginning of a buffer, which has room_length bytes, and the length of the
 * text to needed.
 *
 * SYSLOG_DONE: it is there, with no zero byte after it, and the rest of the buffer is as it was.
 * SYSLOG_NO_ROOM: needed has its length, and the buffer, which is shorter, may hold anything.
 * Any other: needed is 0, and the buffer is as it was.
 */

/* The line in printed form: each message has one. It may be longer than the line. */
uint32_t syslog_normalise(const char *line, size_t length, const struct syslog_options *options, char *room,
                          size_t room_length, size_t *needed);

/* The line in its stable form: printed again and again until that changes nothing. */
uint32_t syslog_settle(const char *line, size_t length, const struct syslog_options *options, char *room,
                       size_t room_length, size_t *needed);

/* The line as strict RFC 5424, as the program syslog_5424 writes it: unchanged if it is in the RFC's grammar, and
 * otherwise its message, converted field by field. The text is in the grammar; of a converted line, it is read back as
 * the converted message. It may be longer than the line. */
uint32_t syslog_to_rfc5424(const char *line, size_t length, const struct syslog_options *options, char *room,
                           size_t room_length, size_t *needed);

/* The line's message as one JSON object, as the program syslog_json writes it, without the line feed after it. If raw
 * is not 0, the key "raw" has the line itself. The key "unparsed_structured_data" has the text of the field unparsed.
 * No byte below 32 is in an object. A line that is no message has none here, where the program writes one with the key
 * "refused". */
uint32_t syslog_json(const char *line, size_t length, const struct syslog_options *options, uint32_t raw, char *room,
                     size_t room_length, size_t *needed);

/* The value of a parameter without its escapes: \n is a line feed, \" and \] and \\ are their second character, any
 * other pair stays, and a lone backslash at the end is dropped. It is no longer than the value. */
uint32_t syslog_unescape(const char *value, size_t length, char *room, size_t room_length, size_t *needed);

/* The bytes as UTF-8, which the other calls want: as they are if they are UTF-8. Of other bytes, if latin1 is
 * not 0, each is a character of ISO 8859-1, and nothing is lost. If it is 0, U+FFFD replaces each part that is not
 * UTF-8: the front of a character that is cut, as far as it goes, or one byte. The text may be longer than the bytes.
 */
uint32_t syslog_decode(const char *bytes, size_t length, uint32_t latin1, char *room, size_t room_length,
                       size_t *needed);

/* Whether the line's message is read back from its printed form as that very message: canonical is 1 then, and
 * otherwise 0, as it is where the line is no message. */
uint32_t syslog_is_canonical(const char *line, size_t length, const struct syslog_options *options,
                             uint32_t *canonical);

/* The five that follow set a text of the library's own, which lasts as long as the program. A number that no facility,
 * severity, dialect or outcome has, as the -1 of an absent facility in a message, has an absent text. */

/* The name of a facility, as auth, and of a severity, as crit. */
void syslog_facility_name(uint32_t facility, struct syslog_text *name);
void syslog_severity_name(uint32_t severity, struct syslog_text *name);

/* The name of a dialect, as cisco-ios. A dialect keeps its number and its name. */
void syslog_dialect_name(uint32_t dialect, struct syslog_text *name);

/* What an outcome means, as "no message". */
void syslog_outcome_text(uint32_t outcome, struct syslog_text *text);

/* The version of the library, as 0.1.0. */
void syslog_version_text(struct syslog_text *text);

#ifdef __cplusplus
}
#endif

#endif
