/* random [--loose] OUT COUNT BASE..: makes COUNT folders OUT/0, OUT/1, .., each the seven files of one of the folders BASE,
 * dressed as a spreadsheet might (quotes, CR LF, a last record without its end) and, every second one, damaged by a few
 * edits; with --loose none is damaged, but literals of their moves are left out or turned round, so that many overlap.
 * The numbers come from a fixed seed, so that every run makes the same folders. */
#include <stdint.h>
#include <stdio.h>
#include <stdlib.h>
#include <string.h>
#include <sys/stat.h>

static const char *const names[7] = {
    "frame.csv", "states.csv", "moves.csv", "presets.csv",
    "timerpairs.csv", "outputpairs.csv", "scans.csv",
};

enum { ROOM = 1 << 16 };

struct bytes {
    size_t len;
    char at[ROOM];
};

static uint64_t state = 0x9e3779b97f4a7c15u;

static unsigned below(unsigned n)
{
    state ^= state << 13;
    state ^= state >> 7;
    state ^= state << 17;
    return (unsigned)(state >> 33) % n;
}

static void put(struct bytes *b, int c)
{
    if (b->len < ROOM)
        b->at[b->len++] = (char)c;
}

static void load(const char *folder, const char *name, struct bytes *b)
{
    char path[4096];
    snprintf(path, sizeof path, "%s/%s", folder, name);
    b->len = 0;
    FILE *f = fopen(path, "rb");
    if (f == NULL)
        return;
    b->len = fread(b->at, 1, ROOM, f);
    fclose(f);
}

static int save(const char *folder, const char *name, const struct bytes *b)
{
    char path[4096];
    snprintf(path, sizeof path, "%s/%s", folder, name);
    FILE *f = fopen(path, "wb");
    if (f == NULL || fwrite(b->at, 1, b->len, f) != b->len || fclose(f) != 0) {
        perror(path);
        return 0;
    }
    return 1;
}

/* Some fields in quotes, some records ended by CR LF, the last one perhaps not ended. */
static void dress(const struct bytes *from, struct bytes *to)
{
    unsigned quotes = below(3), returns = below(3);
    to->len = 0;
    for (size_t i = 0; i < from->len;) {
        int quoted = below(4) < quotes;
        if (quoted)
            put(to, '"');
        while (i < from->len && from->at[i] != ',' && from->at[i] != '\n')
            put(to, from->at[i++]);
        if (quoted)
            put(to, '"');
        if (i < from->len && from->at[i] == '\n' && below(4) < returns)
            put(to, '\r');
        if (i < from->len)
            put(to, from->at[i++]);
    }
    if (below(3) == 0 && to->len > 1 && to->at[to->len - 1] == '\n')
        to->len -= to->at[to->len - 2] == '\r' ? 2 : 1;
}

/* One byte put in, taken out or changed, or one put at the end. */
static void damage(struct bytes *b)
{
    static const char some[] = "0123456789-+,\"\n\r a\0";
    size_t i = b->len == 0 ? 0 : below((unsigned)b->len);
    char c = some[below(sizeof some - 1)];
    unsigned kind = below(4);
    if (kind == 0 && b->len > 0) {
        for (size_t k = i; k + 1 < b->len; k++)
            b->at[k] = b->at[k + 1];
        b->len--;
    } else if (kind == 1 && b->len > 0) {
        b->at[i] = c;
    } else if (kind == 2 && b->len < ROOM) {
        for (size_t k = b->len; k > i; k--)
            b->at[k] = b->at[k - 1];
        b->at[i] = c;
        b->len++;
    } else {
        put(b, c);
    }
}

/* The last literal of a move left out, or some literal turned round. Works on bare fields and rows that LF ends. */
static void loosen(struct bytes *b)
{
    static char text[ROOM + 1];
    char *row = text;
    unsigned rows = 0, columns[11], used = 0;
    for (size_t i = 0; i < b->len; i++)
        rows += b->at[i] == '\n';
    memcpy(text, b->at, b->len);
    text[b->len] = '\0';
    for (unsigned i = rows == 0 ? 0 : below(rows); i > 0; i--)
        row = strchr(row, '\n') + 1;
    char *end = row;
    int numbers[11] = {0};
    for (unsigned k = 0; k < 11 && *end != '\0'; k++, end++) { /* over the comma, or the LF */
        numbers[k] = (int)strtol(end, &end, 10);
        if (k >= 3 && numbers[k] != 0)
            columns[used++] = k;
    }
    if (used == 0)
        return;
    if (below(2) == 0)
        numbers[columns[used - 1]] = 0;
    else
        numbers[columns[below(used)]] *= -1;
    b->len = (size_t)(row - text);
    for (unsigned k = 0; k < 11; k++)
        b->len += (size_t)sprintf(b->at + b->len, "%d%c", numbers[k], k < 10 ? ',' : '\n');
    for (; *end != '\0'; end++)
        put(b, *end);
}

int main(int argc, char **argv)
{
    static struct bytes plain, dressed;
    int loose = argc > 1 && strcmp(argv[1], "--loose") == 0;
    argc -= loose;
    argv += loose;
    if (argc < 4)
        return 2;
    for (int n = 0; n < atoi(argv[2]); n++) {
        const char *base = argv[3 + below((unsigned)argc - 3)];
        unsigned hurt = n % 2 == 0 || loose ? 7 : below(7);
        char folder[4000];
        snprintf(folder, sizeof folder, "%s/%d", argv[1], n);
        if (mkdir(folder, 0777) != 0)
            return 2;
        for (unsigned k = 0; k < 7; k++) {
            load(base, names[k], &plain);
            for (unsigned j = loose && k == 2 ? 1 + below(3) : 0; j > 0; j--)
                loosen(&plain);
            dress(&plain, &dressed);
            for (unsigned j = hurt == k ? 1 + below(3) : 0; j > 0; j--)
                damage(&dressed);
            if (!save(folder, names[k], &dressed))
                return 2;
        }
    }
    return 0;
}
