/* The columns of a buffer's lines. */
#ifndef SYSLOG_LOOSE_COLUMNS_H
#define SYSLOG_LOOSE_COLUMNS_H

#include "native.h"

/* What is known of each line, in a column of so many bytes a line. The first of each text is its offset in the buffer,
 * or -1 if it is absent; the second is its length. One block of memory has all columns, each after the one before. */
enum column { TIME, LINE_AT, LINE_SIZE, HOST_AT, HOST_SIZE, APP_AT, APP_SIZE, NAME_AT, NAME_SIZE, MSGID_AT, MSGID_SIZE,
              MSG_AT, MSG_SIZE, NANOSECOND, OFFSET, NUMBER, ELEMENT_COUNT, COLUMN_PROTOCOL, COLUMN_DIALECT, OUTCOME,
              SHOWN, COLUMN_FACILITY, COLUMN_SEVERITY, IS_NUMBER, COLUMNS };
static const size_t sizes[COLUMNS] = {8, 8, 8, 8, 8, 8, 8, 8, 8, 8, 8, 8, 8, 4, 4, 4, 4, 2, 2, 1, 1, 1, 1, 1};
#define BYTES_A_LINE 129

/* Where each column of so many lines begins. (The widest are first, so all are aligned.) */
static inline void place_columns(char *block, size_t count, char **columns)
{
    for (int i = 0; i < COLUMNS; i++) {
        columns[i] = block;
        block += count * sizes[i];
    }
}

#endif
