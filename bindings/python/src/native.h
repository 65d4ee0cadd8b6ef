/* What the parts of the extension share. It keeps to the limited interface of Python 3.9. */
#ifndef SYSLOG_LOOSE_NATIVE_H
#define SYSLOG_LOOSE_NATIVE_H

#define PY_SSIZE_T_CLEAN
#define Py_LIMITED_API 0x03090000
#include <Python.h>
#include <string.h>
#include <syslog_loose.h>

/* Python has these since 3.7 and 3.3. Its limited interface lists them from 3.10 on, as they were. */
#ifndef METH_FASTCALL
#define METH_FASTCALL 0x0080
#endif
extern const char *PyUnicode_AsUTF8AndSize(PyObject *text, Py_ssize_t *size);

#define COUNT_OF(array) (sizeof(array) / sizeof *(array))

/* What the package hands over once: its classes, the members of two of them, and how a zone is made; and the zones that
 * were made so far. */
extern struct given {
    PyObject *error, *message, *element, *facilities, *severities, *zone, *zones;
} given;

/* A line as it was given, and its bytes. If it is a text, or bytes that had to be decoded, `text` is that, and
 * `is_ascii` says whether it is ASCII alone. Of bytes that were decoded it is `made` for the call, which gives it back. */
struct line {
    PyObject *given, *text, *made;
    const char *start;
    Py_ssize_t length;
    int is_ascii, is_replaced;
};

/* What becomes of bytes that are not UTF-8, as the argument `errors` says it. */
enum errors { STRICT, REPLACE, LATIN1 };

/* The arguments of a call for one line. */
struct call {
    struct line line;
    struct syslog_options options;
    uint32_t errors, raw;
};

/* How many of the arguments that have names a call takes: year, month, day, offset, zone, variant, errors; dialects;
 * raw. */
#define PRINTING_KEYS 7
#define READING_KEYS 8
#define OBJECT_KEYS 9

typedef uint32_t writer(const char *, size_t, const struct syslog_options *, char *, size_t, size_t *);

/* call.c: the arguments, and what the caller is told of a line that gives nothing (NULL). */
int set_keys(void);
int take_call(PyObject *const *words, Py_ssize_t count, PyObject *names, int keys, struct call *call);
void end_call(struct call *call);
void *refuse(uint32_t outcome, PyObject *line);
int take_zone(PyObject *rule, struct syslog_options *options);

/* message.c and written.c: the calls for one line. */
int set_message(void);
PyObject *parse(PyObject *self, PyObject *const *words, Py_ssize_t count, PyObject *names);
PyObject *normalise(PyObject *self, PyObject *const *words, Py_ssize_t count, PyObject *names);
PyObject *settle(PyObject *self, PyObject *const *words, Py_ssize_t count, PyObject *names);
PyObject *to_rfc5424(PyObject *self, PyObject *const *words, Py_ssize_t count, PyObject *names);
PyObject *json(PyObject *self, PyObject *const *words, Py_ssize_t count, PyObject *names);
PyObject *dialect_name(PyObject *self, PyObject *number);
PyObject *written(writer *call, const struct line *line, const struct syslog_options *options);
writer object_of;

/* decode.c: bytes that are not UTF-8. */
PyObject *decoded_text(const char *bytes, Py_ssize_t length, int latin1);
PyObject *decoded(PyObject *self, PyObject *words);

/* columns.c and texts.c: those for many lines. */
PyObject *columns(PyObject *self, PyObject *words);
PyObject *texts(PyObject *self, PyObject *words);
PyObject *categories(PyObject *self, PyObject *words);

#endif
