/* Random files of records: numbers of the file's type, dressed as RFC 4180
 * allows and damaged in every way that a writer of such files gets wrong. As in
 * random.c, nothing here judges a file. */
#include "agree.h"

#include <inttypes.h>
#include <stdio.h>
#include <string.h>

enum { MOST_SCAN_RECORDS = 4096, MOST_FIELD = 40 };

static const struct {
    unsigned fields;
    bool is_signed;
    uint64_t most; /* of the type */
} types[] = {
    [REF_FRAME] = {3, false, UINT32_MAX},
    [REF_STATES] = {2, false, UINT16_MAX},
    [REF_MOVES] = {11, true, INT16_MAX},
    [REF_PRESETS] = {1, false, UINT32_MAX},
    [REF_TIMERPAIRS] = {2, false, UINT16_MAX},
    [REF_OUTPUTPAIRS] = {2, false, UINT16_MAX},
    [REF_SCANWORDS] = {1, false, UINT64_MAX},
};

/* ---- One file as it should be ---- */

/* How the fields and records of a file look. */
struct dress {
    uint32_t quoted; /* of four fields so many are quoted */
    uint32_t crlf;   /* of four records so many end in CR LF */
};

static void put(struct text *x, const char *bytes)
{
    splice_bytes(x, x->len, 0, bytes, strlen(bytes));
}

static const char *one_string(const char *const *strings, size_t count)
{
    return strings[below((uint32_t)count)];
}

#define ONE_STRING(strings) \
    one_string((strings), sizeof(strings) / sizeof *(strings))

/* A number of the type; its ends come often. */
static void any_decimal(enum ref_kind kind, char field[MOST_FIELD])
{
    uint64_t most = types[kind].most, n;
    bool minus = types[kind].is_signed && once_in(3);
    switch (below(8)) {
    case 0: n = 0; break;
    case 1: n = most; break;
    case 2: n = most - 1; break;
    case 3: n = any64() & most; break;
    case 4: n = (any64() & most) >> below(64); break;
    default: n = below(10); break;
    }
    if (minus)
        snprintf(field, MOST_FIELD, "-%" PRIu64, n + 1);
    else
        snprintf(field, MOST_FIELD, "%" PRIu64, n);
}

static void put_field(struct text *x, const struct dress *d, const char *field)
{
    bool quoted = below(4) < d->quoted;
    put(x, quoted ? "\"" : "");
    put(x, field);
    put(x, quoted ? "\"" : "");
}

static void put_end(struct text *x, const struct dress *d)
{
    put(x, below(4) < d->crlf ? "\r\n" : "\n");
}

/* ---- A field that is no decimal, a record of another length ---- */

/* Around the ends of each type, and where a number that is cut to its size is
 * good again. */
static const char *const near_numbers[] = {
    "-1", "32767", "32768", "-32768", "-32769", "65535", "65536", "65537",
    "4294967295", "4294967296", "4294967297", "18446744073709551615",
    "18446744073709551616", "18446744073709551617", "99999999999999999999",
    "184467440737095516150", "100000000000000000000000000000",
    "-18446744073709551615", "-18446744073709551616", "-65536", "-99999"
};
static const char *const no_numbers[] = {
    "", "-0", "+1", "+0", "01", "00", "-01", "-00", " 1", "1 ", "\t1", "-",
    "--1", "1-", "- 1", "1.0", "1e1", "0x1", "one", "'1'", "1;2", "1\\", "/",
    ":", "1/", "1:"
};
static const char *const bad_quotes[] = {
    "\"1", "\"", "\"\"", "\"\"\"", "1\"", "1\"2", "\"1\"2", "\"1\" ", " \"1\"",
    "\"1\"\"", "\"1\"\"2\"", "\"\"1\"\"", "\"1\"\"\"", "\" 1\"", "\"01\"",
    "\"-0\"", "\"-\"", "\"1,2\"", "\"1\n\"", "\"1\r\n\"", "\"1\r\"", "\"\n1\"",
    "\"-1\"", "\"65536\"", "\"18446744073709551616\"", "-\"1\"", "\"1\n2\""
};

/* What only a type with a sign can take for a number. */
static const char *const bad_minuses[] = {
    "-", "-0", "-00", "-01", "--1", "- 1", "-+1", "-32769", "-32770", "-65535",
    "-65536", "-327680"
};

static void put_bad_field(struct text *x, enum ref_kind kind,
                          const struct dress *d)
{
    if (types[kind].is_signed && once_in(2)) {
        put_field(x, d, ONE_STRING(bad_minuses));
        return;
    }
    switch (below(4)) {
    case 0: put(x, ONE_STRING(bad_quotes)); break;
    case 1: put_field(x, d, ONE_STRING(no_numbers)); break;
    default: put_field(x, d, ONE_STRING(near_numbers)); break;
    }
}

/* A record of so many fields, of which `bad` (from 0) is damaged. */
static void put_record(struct text *x, enum ref_kind kind,
                       const struct dress *d, unsigned fields, unsigned bad)
{
    char field[MOST_FIELD];
    for (unsigned i = 0; i < fields; i++) {
        if (i > 0)
            put(x, ",");
        any_decimal(kind, field);
        if (i == bad)
            put_bad_field(x, kind, d);
        else
            put_field(x, d, field);
    }
}

/* ---- Damage to the bytes ---- */

/* Where some record begins, or the end of the file. */
static size_t any_record_of(const struct text *x)
{
    size_t at = x->len > 0 ? below((uint32_t)x->len + 1) : 0;
    while (at > 0 && at < x->len && x->bytes[at - 1] != '\n')
        at++;
    return at;
}

/* A CR that no LF follows, or one CR too many. */
static void damage_end(struct text *x)
{
    size_t at = any_record_of(x);
    switch (below(4)) {
    case 0: splice_bytes(x, x->len, 0, "\r", 1); break;
    case 1: splice_bytes(x, at, 0, "\r", 1); break;
    default:
        if (at > 0 && x->bytes[at - 1] == '\n') {
            if (once_in(2))
                splice_bytes(x, at - 1, 1, "\r", 1);
            else
                splice_bytes(x, at - 1, 0, "\r\r", 2);
        }
        break;
    }
}

static void damage_byte(struct text *x)
{
    static const char near[] = "\n\r\r\",,\"--+ 019\t;";
    uint8_t byte = once_in(3) ? (uint8_t)any64()
                              : (uint8_t)near[below(sizeof near)];
    size_t at = x->len > 0 ? below((uint32_t)x->len) : 0, one = x->len > 0;
    switch (below(5)) {
    case 0: splice_bytes(x, at, one, &byte, 1); break;
    case 1: splice_bytes(x, at, 0, &byte, 1); break;
    case 2: splice_bytes(x, x->len, 0, &byte, 1); break;
    case 3: splice_bytes(x, at, one, NULL, 0); break;
    default: x->len = at; break;
    }
}

static void damage_file(struct text *x)
{
    static const char *const blank[] = {"\n", "\r\n", " \n", "\"\"\n", ",\n"};
    const char *line = ONE_STRING(blank);
    size_t anywhere = below((uint32_t)x->len + 1);
    switch (below(6)) {
    case 0: splice_bytes(x, any_record_of(x), 0, line, strlen(line)); break;
    case 1: put(x, line); break;
    case 2:
        splice_bytes(x, once_in(4) ? anywhere : 0, 0, "\xEF\xBB\xBF", 3);
        break;
    case 3: splice_bytes(x, anywhere, 0, "\0", 1); break;
    case 4: damage_end(x); break;
    default: damage_byte(x); break;
    }
}

/* ---- The file ---- */

static uint32_t any_record_count(enum ref_kind kind)
{
    if (kind == REF_FRAME)
        return once_in(8) ? below(4) : 1;
    if (kind == REF_SCANWORDS && once_in(8))
        return MOST_SCAN_RECORDS - 2 + below(5);
    return once_in(40) ? below(600) : below(9);
}

/* Another number of fields than a record of the file has. */
static unsigned other_fields(unsigned fields)
{
    switch (below(4)) {
    case 0: return 2 * fields;
    case 1: return fields - 1;
    default: return fields + 1;
    }
}

struct text any_file(enum ref_kind kind, uint32_t damaged)
{
    struct text x = {.bytes = must_alloc(256), .room = 256};
    struct dress d = {below(5), below(5)};
    unsigned fields = types[kind].fields;
    uint32_t records = any_record_count(kind), bad = records;
    uint32_t damage = once_in(damaged) ? 1 + below(4) : 0;
    if (damage >= 3 && records > 0)
        bad = below(records);
    for (uint32_t r = 0; r < records; r++) {
        unsigned count = r == bad && damage == 4 ? other_fields(fields) : fields;
        put_record(&x, kind, &d, count,
                   r == bad && damage == 3 ? below(fields) : count);
        if (r + 1 < records || !once_in(3))
            put_end(&x, &d);
    }
    if (damage == 1 || damage == 2)
        damage_file(&x);
    if (damage > 0 && once_in(4))
        damage_file(&x);
    return x;
}
