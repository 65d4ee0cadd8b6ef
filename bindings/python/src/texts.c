/* The texts of a buffer's lines, of which the columns say where they lie. */
#include "columns.h"

/* A buffer, and the columns of its lines. */
struct told {
    const char *buffer;
    char *columns[COLUMNS];
    Py_ssize_t count;
};

/* Where the texts of one kind lie: the first of their two columns says it. */
static const int64_t *places_of(const struct told *told, int at)
{
    return (const int64_t *)told->columns[at];
}

/* Takes the columns, as `columns` made them, and the number of one that has places of texts. */
static int take_told(PyObject *columns, int at, struct told *told)
{
    size_t size = (size_t)PyByteArray_Size(columns);
    if (at < LINE_AT || at >= MSG_SIZE || size % BYTES_A_LINE) {
        PyErr_SetString(PyExc_TypeError, "these are no columns of lines");
        return -1;
    }
    told->count = (Py_ssize_t)(size / BYTES_A_LINE);
    place_columns(PyByteArray_AsString(columns), size / BYTES_A_LINE, told->columns);
    return 0;
}

/* The piece of the buffer, as a text; what is no UTF-8 is replaced. */
static PyObject *piece(const char *buffer, int64_t at, int64_t size)
{
    if (at < 0)
        Py_RETURN_NONE;
    return PyUnicode_DecodeUTF8(buffer + at, (Py_ssize_t)size, "replace");
}

/* The digits of a number, as a text. */
static PyObject *digits_of(int32_t number)
{
    char digits[12], *end = digits + sizeof digits, *at = end;
    uint32_t rest = number < 0 ? 0 - (uint32_t)number : (uint32_t)number;
    do
        *--at = (char)('0' + rest % 10);
    while (rest /= 10);
    if (number < 0)
        *--at = '-';
    return PyUnicode_FromStringAndSize(at, end - at);
}

/* A list with the texts of so many lines from one on, and None for an absent one. A process id is a text here. */
PyObject *texts(PyObject *self, PyObject *words)
{
    struct told told;
    PyObject *columns;
    Py_ssize_t length, begin, end;
    int which;
    if (!PyArg_ParseTuple(words, "y#O!inn", &told.buffer, &length, &PyByteArray_Type, &columns, &which, &begin, &end) ||
        take_told(columns, which, &told))
        return NULL;
    end = end < told.count ? end : told.count;
    begin = begin < 0 ? 0 : begin < end ? begin : end;
    const int64_t *at = places_of(&told, which), *size = places_of(&told, which + 1);
    const char *are_numbers = which == NAME_AT ? told.columns[IS_NUMBER] : NULL;
    PyObject *list = PyList_New(end - begin);
    for (Py_ssize_t i = begin; list && i < end; i++) {
        int is_number = are_numbers && are_numbers[i];
        PyObject *text = is_number ? digits_of(((const int32_t *)told.columns[NUMBER])[i])
                                   : piece(told.buffer, at[i], size[i]);
        if (text)
            PyList_SetItem(list, i - begin, text);
        else
            Py_CLEAR(list);
    }
    return list;
}

/* A table of texts that were met, each with the code that it got. With a seed that nobody knows, nobody can choose
 * texts that all fall on one place. */
struct table {
    struct place { const char *start; size_t size; int32_t code; } *places;
    size_t mask, count;
    uint64_t seed;
};

static size_t hash_of(uint64_t hash, const char *start, size_t size)
{
    for (size_t i = 0; i < size; i++)
        hash = (hash ^ (unsigned char)start[i]) * 1099511628211u;
    return (size_t)(hash ^ hash >> 32);
}

static struct place *place_of(const struct table *table, const char *start, size_t size)
{
    size_t at = hash_of(table->seed, start, size) & table->mask;
    while (table->places[at].start && (table->places[at].size != size || memcmp(table->places[at].start, start, size)))
        at = (at + 1) & table->mask;
    return &table->places[at];
}

/* Makes the table twice as large. Its texts stay where they are. */
static int grow(struct table *table)
{
    struct place *places = PyMem_Calloc(2 * (table->mask + 1), sizeof *places);
    struct table larger = {places, 2 * table->mask + 1, table->count, table->seed};
    if (!places)
        return -1;
    for (size_t i = 0; i <= table->mask; i++)
        if (table->places[i].start)
            *place_of(&larger, table->places[i].start, table->places[i].size) = table->places[i];
    PyMem_Free(table->places);
    *table = larger;
    return 0;
}

/* Fills the codes of the texts, -1 for an absent one, and appends each text to the list as it gets its code. */
static int put_codes(struct table *table, const struct told *told, int which, int32_t *codes, PyObject *list)
{
    const int64_t *at = places_of(told, which), *size = places_of(told, which + 1);
    for (Py_ssize_t i = 0; i < told->count; i++) {
        if (at[i] < 0) {
            codes[i] = -1;
            continue;
        }
        struct place *place = place_of(table, told->buffer + at[i], (size_t)size[i]);
        codes[i] = place->start ? place->code : (int32_t)table->count;
        if (!place->start) {
            *place = (struct place){told->buffer + at[i], (size_t)size[i], (int32_t)table->count++};
            PyObject *text = piece(told->buffer, at[i], size[i]);
            int failed = !text || PyList_Append(list, text);
            Py_XDECREF(text);
            if (failed || (2 * table->count > table->mask && grow(table)))
                return -1;
        }
    }
    return 0;
}

/* The codes of the texts of all lines, and the list of the texts whose codes they are. The last argument is a seed. */
PyObject *categories(PyObject *self, PyObject *words)
{
    struct told told;
    PyObject *columns;
    Py_ssize_t length;
    int which;
    long long seed;
    if (!PyArg_ParseTuple(words, "y#O!iL", &told.buffer, &length, &PyByteArray_Type, &columns, &which, &seed) ||
        take_told(columns, which, &told))
        return NULL;
    struct table table = {PyMem_Calloc(256, sizeof *table.places), 255, 0, (uint64_t)seed};
    PyObject *codes = PyByteArray_FromStringAndSize(NULL, 4 * told.count), *list = PyList_New(0), *made = NULL;
    if (!table.places)
        PyErr_NoMemory();
    else if (codes && list && !put_codes(&table, &told, which, (int32_t *)PyByteArray_AsString(codes), list))
        made = PyTuple_Pack(2, codes, list);
    else if (!PyErr_Occurred())
        PyErr_NoMemory();
    PyMem_Free(table.places);
    Py_XDECREF(codes);
    Py_XDECREF(list);
    return made;
}
