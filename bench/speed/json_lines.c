/* Prints rows as JSON lines and reads them, by hand-written code for two shapes: flat rows of numbers and texts in turn,
   and rows of a number and a list of pairs of a text and a number, each or null. It is the measure for json.sh, and no
   JSON library: it knows the names of the members and their order, and falls back to a search where the order differs.
   It checks what jsonrows must: UTF-8, escapes, the range of numbers, unknown and missing members. A row that is read
   owns its values, as a row of jsonrows does. */
#include <stdint.h>
#include <stdio.h>
#include <stdlib.h>
#include <string.h>
#include <time.h>

enum { ROWS = 1000, ROUNDS = 100, MOST = 20 };

typedef struct { uint8_t *bytes; size_t count; } Text;
typedef struct { int has_text, has_number; Text text; int64_t number; } Pair;
typedef struct { int64_t number; Text text; Pair *pairs; size_t count; } Value;
typedef struct { Value *values; } Row;
typedef struct { char *bytes; size_t count, room; } Out;
typedef struct { const uint8_t *at, *end; } In;

static char names[MOST][8], keys[MOST][16];           /* a key: a comma, the name in quotes, and a colon */
static size_t sizes[MOST];                            /* of keys */

static void fail(const char *why) { fprintf(stderr, "json_lines: %s\n", why); exit(1); }
static void *get(size_t count) { void *p = malloc(count ? count : 1); if (!p) fail("memory"); return p; }

/* ---- printing ---- */
static const char PAIRS[] = "00010203040506070809101112131415161718192021222324252627282930313233343536373839404142434445464748495051525354555657585960616263646566676869707172737475767778798081828384858687888990919293949596979899";

static inline char *room(Out *out, size_t more) {
    if (out->room - out->count < more) {
        out->room = (out->room + more) * 2;
        if (!(out->bytes = realloc(out->bytes, out->room))) fail("memory");
    }
    return out->bytes + out->count;
}
static void put(Out *out, const char *bytes, size_t count) { memcpy(room(out, count), bytes, count); out->count += count; }
static void put_byte(Out *out, char byte) { *room(out, 1) = byte; out->count++; }
static void put_number(Out *out, int64_t number) {
    char digits[24], *p = digits + 24;
    uint64_t n = number < 0 ? 0 - (uint64_t)number : (uint64_t)number;
    for (; n >= 100; n /= 100) { p -= 2; memcpy(p, PAIRS + n % 100 * 2, 2); }
    if (n >= 10) { p -= 2; memcpy(p, PAIRS + n * 2, 2); } else *--p = (char)('0' + n);
    if (number < 0) *--p = '-';
    put(out, p, (size_t)(digits + 24 - p));
}
static void put_text(Out *out, Text text) {
    char *p = room(out, text.count * 6 + 2), *from = p;
    *p++ = '"';
    for (size_t i = 0; i < text.count; i++) {
        uint8_t b = text.bytes[i];
        if (b >= 32 && b != '"' && b != '\\') *p++ = (char)b;
        else if (b == '"' || b == '\\') { *p++ = '\\'; *p++ = (char)b; }
        else p += sprintf(p, "\\u%04x", b);
    }
    *p++ = '"';
    out->count += (size_t)(p - from);
}
static void put_flat(Out *out, const Row *row, int columns) {
    size_t from = out->count;
    for (int c = 0; c < columns; c++) {
        put(out, keys[c], sizes[c]);
        if (c % 2) put_text(out, row->values[c].text); else put_number(out, row->values[c].number);
    }
    out->bytes[from] = '{';
    put_byte(out, '}');
}
static void put_nested(Out *out, const Row *row) {
    put(out, "{\"id\":", 6);
    put_number(out, row->values[0].number);
    put(out, ",\"xs\":[", 7);
    for (size_t i = 0; i < row->values[1].count; i++) {
        Pair *pair = &row->values[1].pairs[i];
        if (i) put_byte(out, ',');
        put(out, "{\"a\":", 5);
        if (pair->has_text) put_text(out, pair->text); else put(out, "null", 4);
        put(out, ",\"b\":", 5);
        if (pair->has_number) put_number(out, pair->number); else put(out, "null", 4);
        put_byte(out, '}');
    }
    put(out, "]}", 2);
}

/* ---- reading ---- */
static inline void space(In *in) { while (in->at < in->end && (*in->at == ' ' || *in->at == '\t' || *in->at == '\n' || *in->at == '\r')) in->at++; }
static inline int next_is(In *in, char byte) { space(in); if (in->at < in->end && *in->at == (uint8_t)byte) { in->at++; return 1; } return 0; }
static inline void must(In *in, char byte) { if (!next_is(in, byte)) fail("form"); }
static int is_null(In *in) { space(in); if (in->end - in->at >= 4 && !memcmp(in->at, "null", 4)) { in->at += 4; return 1; } return 0; }
static int is_utf8(const uint8_t *p, size_t count) {
    for (const uint8_t *end = p + count; p < end;) {
        if (*p < 128) { p++; continue; }
        int more = *p >= 0xf0 && *p < 0xf5 ? 3 : *p >= 0xe0 && *p < 0xf0 ? 2 : *p >= 0xc2 && *p < 0xe0 ? 1 : -1;
        if (more < 0 || end - p <= more) return 0;
        if ((*p == 0xe0 && p[1] < 0xa0) || (*p == 0xed && p[1] > 0x9f) || (*p == 0xf0 && p[1] < 0x90) || (*p == 0xf4 && p[1] > 0x8f)) return 0;
        for (p++; more--; p++) if ((*p & 0xc0) != 0x80) return 0;
    }
    return 1;
}
static int hex_of(uint8_t c) { return c >= '0' && c <= '9' ? c - '0' : (c | 32) >= 'a' && (c | 32) <= 'f' ? (c | 32) - 'a' + 10 : -1; }
static Text read_text(In *in) {
    must(in, '"');
    const uint8_t *from = in->at;
    while (in->at < in->end && *in->at != '"' && *in->at != '\\' && *in->at >= 32) in->at++;
    size_t plain = (size_t)(in->at - from);
    const uint8_t *close = in->at;
    while (close < in->end && *close != '"') close += *close == '\\' ? 2 : 1;
    if (close >= in->end) fail("text");
    Text text = {get((size_t)(close - from)), plain};
    memcpy(text.bytes, from, plain);
    while (*in->at != '"') {
        uint8_t b = *in->at++;
        if (b < 32) fail("text");
        if (b == '\\') {
            const char *known = "\"\\/bfnrt", *found = strchr(known, b = *in->at++);
            if (found && b) b = (uint8_t)"\"\\/\b\f\n\r\t"[found - known];
            else if (b == 'u' && in->end - in->at >= 4) {
                int n = 0;
                for (int i = 0; i < 4; i++) { int h = hex_of(*in->at++); if (h < 0) fail("escape"); n = n * 16 + h; }
                if (n > 127) fail("an escape that the lines of this measure have not");
                b = (uint8_t)n;
            } else fail("escape");
        }
        text.bytes[text.count++] = b;
    }
    in->at++;
    if (!is_utf8(text.bytes, text.count)) fail("utf-8");
    return text;
}
static int64_t read_number(In *in) {
    space(in);
    int below = in->at < in->end && *in->at == '-';
    in->at += below;
    const uint8_t *from = in->at;
    uint64_t n = 0;
    while (in->at < in->end && *in->at >= '0' && *in->at <= '9') {
        if (__builtin_mul_overflow(n, 10, &n) || __builtin_add_overflow(n, *in->at - '0', &n)) fail("range");
        in->at++;
    }
    if (in->at == from || (*from == '0' && in->at - from > 1) || n > (uint64_t)INT64_MAX + (uint64_t)below) fail("number");
    if (in->at < in->end && (*in->at == '.' || *in->at == 'e' || *in->at == 'E')) fail("number");
    return (int64_t)(below ? 0 - n : n);
}
/* the column of the next member: the one that is awaited, or the one of that name */
static int read_name(In *in, int awaited, int columns) {
    must(in, '"');
    const uint8_t *from = in->at;
    while (in->at < in->end && *in->at != '"') { if (*in->at == '\\') fail("an escape in a name"); in->at++; }
    size_t count = (size_t)(in->at - from);
    must(in, '"');
    must(in, ':');
    if (awaited < columns && strlen(names[awaited]) == count && !memcmp(names[awaited], from, count)) return awaited;
    for (int c = 0; c < columns; c++) if (strlen(names[c]) == count && !memcmp(names[c], from, count)) return c;
    fail("an unknown member");
    return 0;
}
static void read_flat(In in, Row *row, int columns) {
    uint32_t seen = 0;
    row->values = get((size_t)columns * sizeof(Value));
    must(&in, '{');
    for (int turn = 0; turn < columns; turn++) {
        if (turn) must(&in, ',');
        int c = read_name(&in, turn, columns);
        if (seen & 1u << c) fail("a member twice");
        seen |= 1u << c;
        row->values[c] = (Value){0};
        if (c % 2) row->values[c].text = read_text(&in); else row->values[c].number = read_number(&in);
    }
    must(&in, '}');
    space(&in);
    if (in.at != in.end) fail("more text");
}
static void read_key(In *in, const char *key) { space(in); size_t n = strlen(key); if ((size_t)(in->end - in->at) < n || memcmp(in->at, key, n)) fail("member"); in->at += n; must(in, ':'); }
static void read_nested(In in, Row *row) {
    row->values = get(2 * sizeof(Value));
    memset(row->values, 0, 2 * sizeof(Value));
    must(&in, '{');
    read_key(&in, "\"id\"");
    row->values[0].number = read_number(&in);
    must(&in, ',');
    read_key(&in, "\"xs\"");
    must(&in, '[');
    size_t room = 0;
    for (Value *list = &row->values[1]; !next_is(&in, ']'); list->count++) {
        if (list->count) must(&in, ',');
        if (list->count == room && !(list->pairs = realloc(list->pairs, (room = room ? room * 2 : 4) * sizeof(Pair)))) fail("memory");
        Pair *pair = &list->pairs[list->count];
        *pair = (Pair){0};
        must(&in, '{');
        read_key(&in, "\"a\"");
        if ((pair->has_text = !is_null(&in))) pair->text = read_text(&in);
        must(&in, ',');
        read_key(&in, "\"b\"");
        if ((pair->has_number = !is_null(&in))) pair->number = read_number(&in);
        must(&in, '}');
    }
    must(&in, '}');
    space(&in);
    if (in.at != in.end) fail("more text");
}
static void drop_row(Row *row, int columns) {
    for (int c = 0; c < columns; c++) {
        free(row->values[c].text.bytes);
        for (size_t i = 0; i < row->values[c].count; i++) free(row->values[c].pairs[i].text.bytes);
        free(row->values[c].pairs);
    }
    free(row->values);
}

/* ---- measuring ---- */
static double now(void) { struct timespec t; clock_gettime(CLOCK_MONOTONIC, &t); return (double)t.tv_sec * 1e9 + (double)t.tv_nsec; }
static void measure(const char *kind, int columns, char **lines) {
    static Row rows[ROWS];
    int nested = columns == 0, values = nested ? 2 : columns;
    for (int r = 0; r < ROWS; r++) {
        In in = {(uint8_t *)lines[r], (uint8_t *)lines[r] + strlen(lines[r])};
        if (nested) read_nested(in, &rows[r]); else read_flat(in, &rows[r], columns);
    }
    size_t bytes = 0;
    double begun = now();
    for (int round = 0; round < ROUNDS; round++) {
        Out out = {0};
        for (int r = 0; r < ROWS; r++) if (nested) put_nested(&out, &rows[r]); else put_flat(&out, &rows[r], columns);
        bytes += out.count;
        free(out.bytes);
    }
    printf("%s C prints: %.0f ns %zu bytes\n", kind, now() - begun, bytes);
    begun = now();
    for (int round = 0; round < ROUNDS; round++) {
        static Row made[ROWS];
        for (int r = 0; r < ROWS; r++) {
            In in = {(uint8_t *)lines[r], (uint8_t *)lines[r] + strlen(lines[r])};
            if (nested) read_nested(in, &made[r]); else read_flat(in, &made[r], columns);
        }
        for (int r = 0; r < ROWS; r++) drop_row(&made[r], values);
    }
    printf("%s C reads: %.0f ns %zu bytes\n", kind, now() - begun, bytes);
}
int main(void) {
    static char *lines[ROWS];
    for (int columns = 2; columns >= 0; columns = columns == 2 ? MOST : columns == MOST ? 0 : -1) {
        for (int c = 0; c < columns; c++) if (columns == 2) strcpy(names[c], c ? "s" : "n"); else sprintf(names[c], "c%02d", c);
        for (int c = 0; c < columns; c++) sizes[c] = (size_t)sprintf(keys[c], ",\"%s\":", names[c]);
        for (int r = 0; r < ROWS; r++) {
            char *p = lines[r] = get(1000);
            long n = r * 7919L;
            if (columns == 0) sprintf(p, "{\"id\":%ld,\"xs\":[{\"a\":\"first %ld\",\"b\":1},{\"a\":null,\"b\":2},{\"a\":\"third\",\"b\":null}]}", n, n);
            for (int c = 0; c < columns; c++) p += sprintf(p, c % 2 ? "%s\"%s\":\"value %ld\"" : "%s\"%s\":%ld", c ? "," : "{", names[c], n);
            if (columns) strcpy(p, "}");
        }
        measure(columns == 0 ? "nested," : columns == 2 ? "2 columns," : "20 columns,", columns, lines);
    }
    return 0;
}
