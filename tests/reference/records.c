/* RFC 4180 records to numbers. "No file has a header ...; LF alone also ends a
 * record." Reading stops at the first record that is no good, so nothing need
 * be known about where such a record ends. */
#include "tables.h"

static const struct {
    unsigned fields;       /* a record */
    bool is_signed;
    uint64_t most;         /* of the type; the least is -most - 1 or 0 */
    size_t most_records;
} kinds[] = {
    [REF_FRAME] = {3, false, UINT32_MAX, 1},
    [REF_STATES] = {2, false, UINT16_MAX, SIZE_MAX},
    [REF_MOVES] = {11, true, INT16_MAX, SIZE_MAX},
    [REF_PRESETS] = {1, false, UINT32_MAX, SIZE_MAX},
    [REF_TIMERPAIRS] = {2, false, UINT16_MAX, SIZE_MAX},
    [REF_OUTPUTPAIRS] = {2, false, UINT16_MAX, SIZE_MAX},
    [REF_SCANWORDS] = {1, false, UINT64_MAX, 4096},
};

struct file {
    const uint8_t *bytes;
    size_t n, at;
};

/* The byte `ahead` of the present one; -1 beyond the end of the file. */
static int look(const struct file *f, size_t ahead)
{
    return ahead < f->n - f->at ? f->bytes[f->at + ahead] : -1;
}

/* What ended a field. */
enum ended { BY_COMMA, BY_RECORD, BY_NOTHING };

/* Eats a comma, a record's end (CR LF, LF, or the end of the file) or, when
 * neither is there, nothing. */
static enum ended eat_end(struct file *f)
{
    int c = look(f, 0);
    if (c == ',') {
        f->at += 1;
        return BY_COMMA;
    }
    if (c == '\r' && look(f, 1) == '\n')
        f->at += 2;
    else if (c == '\n')
        f->at += 1;
    else if (c != -1)
        return BY_NOTHING;
    return BY_RECORD;
}

/* Eats the decimal at hand and sets *value to it (of a negative one, to its
 * two's complement). "no +, -0 or leading zero". */
static bool eat_decimal(struct file *f, enum ref_kind kind, uint64_t *value)
{
    bool minus = kinds[kind].is_signed && look(f, 0) == '-';
    if (minus)
        f->at++;
    uint64_t most = kinds[kind].most + minus, v = 0;
    bool zero = look(f, 0) == '0';
    size_t digits = 0;
    for (; look(f, 0) >= '0' && look(f, 0) <= '9'; f->at++, digits++) {
        uint64_t digit = (uint64_t)(look(f, 0) - '0');
        if (v > (most - digit) / 10)
            return false;
        v = v * 10 + digit;
    }
    if (digits == 0 || (zero && (digits > 1 || minus)))
        return false;
    *value = minus ? -v : v;
    return true;
}

/* A field, bare or quoted. "A quoted field counts by its content": between its
 * quotes a good one holds the decimal and nothing else. */
static enum ended eat_field(struct file *f, enum ref_kind kind,
                            uint64_t *value)
{
    bool quoted = look(f, 0) == '"';
    if (quoted)
        f->at++;
    if (!eat_decimal(f, kind, value))
        return BY_NOTHING;
    if (quoted) {
        if (look(f, 0) != '"')
            return BY_NOTHING;
        f->at++;
    }
    return eat_end(f);
}

static void store(enum ref_kind kind, void *out, size_t i, uint64_t value)
{
    switch (kind) {
    case REF_FRAME:
    case REF_PRESETS: ((uint32_t *)out)[i] = (uint32_t)value; break;
    case REF_STATES:
    case REF_TIMERPAIRS:
    case REF_OUTPUTPAIRS: ((uint16_t *)out)[i] = (uint16_t)value; break;
    case REF_MOVES: ((int16_t *)out)[i] = (int16_t)(int64_t)value; break;
    case REF_SCANWORDS: ((uint64_t *)out)[i] = value; break;
    }
}

/* Reads a record and stores its numbers from the i-th on, unless out is NULL;
 * false when it is no good. */
static bool eat_record(struct file *f, enum ref_kind kind, void *out, size_t i)
{
    for (unsigned field = 1; field <= kinds[kind].fields; field++) {
        uint64_t value;
        enum ended due = field < kinds[kind].fields ? BY_COMMA : BY_RECORD;
        if (eat_field(f, kind, &value) != due)
            return false;
        if (out != NULL)
            store(kind, out, i++, value);
    }
    return true;
}

/* FIELD, or accepted with the count of the numbers, which are stored unless
 * out is NULL. */
static struct ref_answer read_all(enum ref_kind kind, const uint8_t *bytes,
                                  size_t n, void *out)
{
    struct file f = {.bytes = bytes, .n = n};
    size_t records = 0;
    for (; f.at < n; records++)
        if (records == kinds[kind].most_records
            || !eat_record(&f, kind, out, records * kinds[kind].fields))
            return ref_refused(REF_FIELD, records);
    /* "frame.csv has one record: none is FIELD at 0" */
    if (kind == REF_FRAME && records == 0)
        return ref_refused(REF_FIELD, 0);
    return ref_accepted((uint64_t)records * kinds[kind].fields);
}

struct ref_answer ref_read_records(enum ref_kind kind,
                                   const uint8_t *bytes, size_t n,
                                   void *out, size_t out_len)
{
    struct ref_answer answer = read_all(kind, bytes, n, NULL);
    if (answer.number != REF_ACCEPTED)
        return answer;
    if (answer.length > out_len)
        return ref_refused(REF_ROOM, answer.length);
    return read_all(kind, bytes, n, out);
}
