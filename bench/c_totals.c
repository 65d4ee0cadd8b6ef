/* Reads each line of standard input by the library for C and prints what it read, added up, as the program of totals/
 * does: a program for measurement. Dates without a year lie in 2019, and the zones are UTC.
 */
#include "syslog_loose.h"

#include <inttypes.h>
#include <stdio.h>
#include <stdlib.h>

enum { ELEMENTS = 64, PARAMS = 512 };

int main(void)
{
    static struct syslog_element elements[ELEMENTS];
    static struct syslog_param params[PARAMS];
    for (int i = 0; i < ELEMENTS; i++)
        elements[i] = (struct syslog_element)SYSLOG_ELEMENT_INIT;
    for (int i = 0; i < PARAMS; i++)
        params[i] = (struct syslog_param)SYSLOG_PARAM_INIT;
    struct syslog_options options = { .year = 2019 };
    struct syslog_message message = SYSLOG_MESSAGE_INIT;
    uint64_t lines = 0, read = 0, bytes = 0, element_count = 0, param_count = 0, numbers = 0;
    char *line = NULL;
    size_t room = 0;
    for (ssize_t length; (length = getline(&line, &room, stdin)) > 0; lines++) {
        size_t size = (size_t)length - (line[length - 1] == '\n');
        uint32_t outcome = syslog_read(line, size, &options, &message, elements, ELEMENTS, params, PARAMS);
        if (outcome == SYSLOG_NO_MEMORY)
            return 1;
        if (outcome != SYSLOG_DONE && outcome != SYSLOG_NO_ROOM)
            continue;
        read++;
        bytes += message.host.length + message.app.length + message.msgid.length + message.msg.length;
        numbers += message.version + (uint64_t)(int64_t)message.process.number + (uint64_t)message.timestamp.seconds;
        element_count += message.elements;
        param_count += message.params;
    }
    free(line);
    printf("%" PRIu64 " lines, %" PRIu64 " read, %" PRIu64 " bytes of texts, %" PRIu64 " elements, %" PRIu64
           " parameters, numbers %" PRIu64 "\n", lines, read, bytes, element_count, param_count, numbers);
    return 0;
}
