/* The recorded traces by the C door: each is dumped, and its events are read and shown as the lines of a resolved dump.
 *
 *     recorded FOLDER
 *
 * doors/test puts the recordings there: N.trace, and what is wanted of it as N.dump and N.resolve. */
#include "gotymbe.h"
#include <inttypes.h>
#include <stdio.h>
#include <stdlib.h>

/* ---- bytes that grow */
typedef struct {
    char *bytes;
    size_t length, size;
} text;

static void grow(text *t, size_t more) {
    if (t->length + more <= t->size)
        return;
    t->size = 2 * (t->length + more);
    t->bytes = realloc(t->bytes, t->size);
    if (!t->bytes)
        abort();
}

static void put(text *t, const void *bytes, size_t n) {
    grow(t, n);
    if (n > 0)
        memcpy(t->bytes + t->length, bytes, n);
    t->length += n;
}

static void say(text *t, const char *words) { put(t, words, strlen(words)); }

#define SAY(t, ...)                                                  \
    do {                                                             \
        char room[64];                                               \
        snprintf(room, sizeof room, __VA_ARGS__);                    \
        say(t, room);                                                \
    } while (0)

static void quote(text *t, trace_slice s) {
    say(t, "\"");
    for (size_t i = 0; i < s.count; i++) {
        uint8_t byte = s.bytes[i];
        if (byte >= 0x20 && byte <= 0x7e && byte != '"' && byte != '\\')
            put(t, &byte, 1);
        else
            SAY(t, "\\x%02X", byte);
    }
    say(t, "\"");
}

/* Whether bytes are UTF-8. */
static bool is_text(trace_slice s) {
    for (size_t i = 0; i < s.count;) {
        uint32_t first = s.bytes[i], more = first < 0x80 ? 0 : first < 0xc2 ? 4 : first < 0xe0 ? 1 : first < 0xf0 ? 2
                                                                                : first < 0xf5   ? 3 : 4;
        if (more == 4 || more >= s.count - i)
            return false;
        uint32_t point = more == 0 ? first : first & (0x3f >> more);
        for (uint32_t k = 1; k <= more; k++) {
            if ((s.bytes[i + k] & 0xc0) != 0x80)
                return false;
            point = point << 6 | (s.bytes[i + k] & 0x3f);
        }
        if ((more == 2 && (point < 0x800 || (point >= 0xd800 && point < 0xe000)))
            || (more == 3 && (point < 0x10000 || point > 0x10ffff)))
            return false;
        i += more + 1;
    }
    return true;
}

/* ---- what the records of a batch say, by numbers and ids */
typedef struct {
    uint32_t id;
    trace_slice slice;
} entry;

typedef struct {
    entry *entries;
    size_t count;
} table;

static table schemas, texts, stacks;

static void keep(table *t, uint32_t id, trace_slice slice) {
    for (size_t i = 0; i < t->count; i++)
        if (t->entries[i].id == id) {
            t->entries[i].slice = slice;
            return;
        }
    t->entries = realloc(t->entries, (t->count + 1) * sizeof(entry));
    if (!t->entries)
        abort();
    t->entries[t->count++] = (entry){id, slice};
}

static const trace_slice *known(const table *t, uint32_t id) {
    for (size_t i = 0; i < t->count; i++)
        if (t->entries[i].id == id)
            return &t->entries[i].slice;
    return NULL;
}

/* ---- lines */

/* The first id that stands for nothing. */
static char missing[32];

static void miss(const char *kind, uint32_t id) {
    if (!missing[0])
        snprintf(missing, sizeof missing, "%s#%" PRIu32, kind, id);
}

static void addresses(text *t, trace_slice s) {
    say(t, "StackFrames:[");
    for (size_t i = 0; i < s.count; i++)
        SAY(t, "%s0x%" PRIx64, i ? "," : "", trace_number_at(s.bytes + 8 * i, 8));
    say(t, "]");
}

static void value(text *t, trace_cursor *c, bool is_field);

/* Values, or pairs of them, with commas between them. */
static void items(text *t, trace_cursor *c, bool are_pairs) {
    uint64_t count = trace_take_number(c, 4);
    for (uint64_t i = 0; i < count; i++) {
        say(t, i ? "," : "");
        value(t, c, false);
        if (are_pairs) {
            say(t, "=");
            value(t, c, false);
        }
    }
}

static void value(text *t, trace_cursor *c, bool is_field) {
    uint8_t tag = *trace_take(c, 1);
    if ((tag & TRACE_OPTIONAL) && is_field && *trace_take(c, 1) == 0) {
        say(t, "None");
        return;
    }
    const trace_slice *found;
    uint32_t id;
    uint64_t count;
    switch (tag & ~TRACE_OPTIONAL) {
    case TRACE_I64: SAY(t, "I64:%" PRId64, (int64_t)trace_take_number(c, 8)); return;
    case TRACE_F64: SAY(t, "F64:0x%016" PRIx64, trace_take_number(c, 8)); return;
    case TRACE_BOOL: say(t, *trace_take(c, 1) ? "Bool:true" : "Bool:false"); return;
    case TRACE_STRING: say(t, "String:"); quote(t, trace_take_counted(c)); return;
    case TRACE_BYTES: say(t, "Bytes:"); quote(t, trace_take_counted(c)); return;
    case TRACE_POOLED_STRING:
        id = (uint32_t)trace_take_number(c, 4);
        if (!(found = known(&texts, id))) {
            miss("pool", id);
            return;
        }
        say(t, "String:");
        quote(t, *found);
        return;
    case TRACE_POOLED_STACK:
        id = (uint32_t)trace_take_number(c, 4);
        if (!(found = known(&stacks, id)))
            miss("stack", id);
        else
            addresses(t, *found);
        return;
    case TRACE_STACK: addresses(t, trace_take_addresses(c)); return;
    case TRACE_VARINT: SAY(t, "Varint:%" PRIu64, trace_take_varint(c)); return;
    case TRACE_U8: SAY(t, "Varint:%" PRIu64, trace_take_number(c, 1)); return;
    case TRACE_U16: SAY(t, "Varint:%" PRIu64, trace_take_number(c, 2)); return;
    case TRACE_U32: SAY(t, "Varint:%" PRIu64, trace_take_number(c, 4)); return;
    case TRACE_STRING_MAP: {
        say(t, "StringMap:{");
        count = trace_take_number(c, 4);
        bool shown = true;
        for (uint64_t i = 0; i < count; i++) {
            trace_slice key = trace_take_counted(c), words = trace_take_counted(c);
            shown = shown && is_text(key) && is_text(words);
            if (shown) {
                say(t, i ? "," : "");
                quote(t, key);
                say(t, "=");
                quote(t, words);
            }
        }
        say(t, "}");
        return;
    }
    case TRACE_LIST:
        say(t, "List:[");
        items(t, c, false);
        say(t, "]");
        return;
    default:
        say(t, "Map:{");
        items(t, c, true);
        say(t, "}");
    }
}

/* A schema after its number: its name, and a cursor over its fields. */
static trace_cursor schema(trace_slice s, trace_slice *name) {
    trace_cursor c = {s.bytes, s.count, 0};
    *name = trace_take_name(&c);
    trace_take(&c, 2);
    return c;
}

static void event(text *lines, trace_cursor *c) {
    trace_slice name, entry = *known(&schemas, (uint32_t)trace_take_number(c, 2));
    trace_cursor fields = schema(entry, &name);
    text line = {0};
    missing[0] = 0;
    SAY(&line, " timestamp_ns=%" PRIu64, trace_take_number(c, 8));
    for (uint64_t left = trace_take_number(c, 2); left > 0; left--) {
        say(&line, " ");
        quote(&line, trace_take_name(&fields));
        trace_take(&fields, 1);
        say(&line, "=");
        value(&line, c, true);
    }
    say(lines, "event ");
    quote(lines, name);
    if (missing[0]) {
        say(lines, " unresolved ");
        say(lines, missing);
    } else {
        put(lines, line.bytes, line.length);
    }
    say(lines, "\n");
    free(line.bytes);
}

/* The lines of the events of a batch. */
static void batch_lines(text *lines, const uint8_t *batch, size_t length) {
    schemas.count = texts.count = stacks.count = 0;
    trace_cursor c = {batch, length, 0};
    while (c.at < c.length) {
        uint32_t id;
        trace_slice found;
        switch (*trace_take(&c, 1)) {
        case 1:
            id = (uint32_t)trace_take_number(&c, 2);
            found.bytes = c.bytes + c.at;
            trace_take_name(&c);
            trace_skip_fields(&c);
            found.count = (size_t)(c.bytes + c.at - found.bytes);
            keep(&schemas, id, found);
            break;
        case 2: event(lines, &c); break;
        case 3:
            id = (uint32_t)trace_take_number(&c, 4);
            found = trace_take_counted(&c);
            if (is_text(found)) /* of other bytes no reader knows */
                keep(&texts, id, found);
            break;
        default:
            id = (uint32_t)trace_take_number(&c, 4);
            keep(&stacks, id, trace_take_addresses(&c));
        }
    }
}

/* The lines of a resolved dump, by trace_read with so many events at a time. */
static text resolved(const uint8_t *trace, size_t length, uint64_t most) {
    text lines = {0};
    uint8_t *out = malloc(1), *state = malloc(1);
    size_t at = 0, kept = 0, room = 1;
    trace_report report;
    for (;;) {
        uint32_t code = trace_read(state, kept, trace + at, length - at, most, out, room, &report);
        if (code == TRACE_SHORT_ROOM) {
            room = report.length + report.state;
            out = realloc(out, room);
            continue;
        }
        if (code == TRACE_NO_HEADER) {
            say(&lines, "no header\n");
            break;
        }
        if (!trace_was_read(code)) {
            SAY(&lines, "number %" PRIu32 "\n", code);
            break;
        }
        if (at == 0)
            SAY(&lines, "trace version %d\n", report.version);
        batch_lines(&lines, out, report.length);
        at += report.read;
        kept = report.state;
        state = realloc(state, kept + 1);
        memcpy(state, out + report.length, kept);
        if (code == TRACE_SCHEMA_CONFLICT)
            say(&lines, "end conflict\n"); /* (the dump tells the place after that schema) */
        else if (code != TRACE_DONE)
            SAY(&lines, "end stopped at %zu\n", at);
        else if (at == length)
            say(&lines, "end whole\n");
        if (code != TRACE_DONE || at == length)
            break;
    }
    free(out);
    free(state);
    return lines;
}

static text dumped(const uint8_t *trace, size_t length, bool resolve) {
    trace_report report;
    text lines = {0};
    grow(&lines, 1);
    while (trace_dump(trace, length, resolve, (uint8_t *)lines.bytes, lines.size, &report) == TRACE_SHORT_ROOM) {
        lines.length = 0;
        grow(&lines, report.length);
    }
    lines.length = report.length;
    return lines;
}

static bool content(const char *folder, int n, const char *ending, text *t) {
    char path[4096];
    snprintf(path, sizeof path, "%s/%d.%s", folder, n, ending);
    FILE *file = fopen(path, "rb");
    if (!file)
        return false;
    uint8_t room[4096];
    t->length = 0;
    for (size_t got; (got = fread(room, 1, sizeof room, file)) > 0;)
        put(t, room, got);
    grow(t, 1); /* (a pointer that is not null goes with a length of 0) */
    fclose(file);
    return true;
}

static bool same(text *made, const text *wanted, bool cut_end) {
    const char *at = cut_end ? strstr(wanted->bytes, "end conflict") : NULL;
    size_t length = at ? (size_t)(at - wanted->bytes) : wanted->length;
    bool is = made->length == length + (at ? 13 : 0) && !memcmp(made->bytes, wanted->bytes, length);
    free(made->bytes);
    *made = (text){0};
    return is;
}

int main(int count, char **arguments) {
    if (count != 2)
        return 2;
    text trace = {0}, wanted = {0};
    int n = 0, compared = 0, differ = 0;
    for (; content(arguments[1], n, "trace", &trace); n++) {
        const uint8_t *bytes = (const uint8_t *)trace.bytes;
        if (content(arguments[1], n, "dump", &wanted)) {
            text made = dumped(bytes, trace.length, false);
            differ += !same(&made, &wanted, false);
            compared++;
        }
        if (!content(arguments[1], n, "resolve", &wanted))
            continue;
        put(&wanted, "", 1);
        wanted.length--;
        text made = dumped(bytes, trace.length, true);
        differ += !same(&made, &wanted, false);
        compared++;
        uint64_t mosts[] = {UINT64_MAX, 1, 3};
        for (int k = 0; k < 3; k++) {
            made = resolved(bytes, trace.length, mosts[k]);
            bool is = same(&made, &wanted, true);
            if (!is)
                printf("differs: %d, %" PRIu64 " at a time\n", n, mosts[k]);
            differ += !is;
        }
    }
    free(trace.bytes);
    free(wanted.bytes);
    free(schemas.entries);
    free(texts.entries);
    free(stacks.entries);
    printf("C: %d recorded traces, %d dumps compared, %d differ\n", n, compared, differ);
    return differ != 0 || compared < 1000;
}
