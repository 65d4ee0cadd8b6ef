/* Reads lines of syslog, and says of each where it goes by its severity, from which host it is, and its instant.
 *
 *   collector YEAR MONTH <FILE      the year and the month that it is: dates without a year are of the months before
 */
#include <stdio.h>
#include <stdlib.h>
#include <syslog_loose.h>
#include <time.h>

static const char *route(int severity)
{
    return severity < 0 || severity > 4 ? "archive" : severity <= 2 ? "pager" : "warnings";
}

static void print(const struct syslog_message *message)
{
    char at[32] = "-";
    time_t seconds = (time_t)message->timestamp.seconds;
    struct tm utc;
    if (message->timestamp.present && gmtime_r(&seconds, &utc))
        strftime(at, sizeof at, "%Y-%m-%dT%H:%M:%SZ", &utc);
    printf("%s %s %.*s %.*s: %.*s\n", route(message->severity), at, (int)message->host.length, message->host.start,
           (int)message->app.length, message->app.start, (int)message->msg.length, message->msg.start);
}

int main(int count, char **words)
{
    if (count != 3) {
        fprintf(stderr, "usage: collector YEAR MONTH <FILE\n");
        return 2;
    }
    struct syslog_options options = { .year = atoi(words[1]), .month = (uint32_t)atoi(words[2]) };
    struct syslog_message message = SYSLOG_MESSAGE_INIT;
    char *line = NULL;
    size_t room = 0, refused = 0;
    ssize_t length;
    while ((length = getline(&line, &room, stdin)) > 0) {
        size_t bytes = (size_t)length - (line[length - 1] == '\n');
        uint32_t outcome = syslog_read_fields(line, bytes, &options, &message);
        if (outcome == SYSLOG_DONE) {
            print(&message);
        } else if (outcome == SYSLOG_NO_READING || outcome == SYSLOG_NOT_UTF8) {
            refused++;
        } else {
            fprintf(stderr, "collector: outcome %u\n", outcome);
            return 2;
        }
    }
    free(line);
    if (refused)
        fprintf(stderr, "collector: %zu lines are no messages\n", refused);
    return 0;
}
