/* Traces of timestamped events, for C: the calls of the proved library `libgotymbe` (docs/DOORS.md).
 *
 * Nothing is kept between two calls, and no memory is handed over: what a call makes goes into room of the caller's.
 * A call answers a number, TRACE_DONE or why not, and fills in a report. Each may run on several threads at once.
 *
 * A batch is bytes: records, one after another. The functions of the second half of this file append them; a program
 * may as well make them itself. */
#ifndef GOTYMBE_H
#define GOTYMBE_H
#include <stddef.h>
#include <stdint.h>
#include <stdbool.h>
#include <string.h>
#ifdef __cplusplus
extern "C" {
#endif

/* What a call answers. */
enum {
    TRACE_DONE = 0,
    TRACE_SHORT_ROOM = 1,        /* `length` and `state` bytes are needed; nothing was written */
    TRACE_OUT_OF_MEMORY = 2,
    /* of a batch; `place` is the record, from 0 */
    TRACE_NO_RECORD = 16,        /* no record stands there */
    TRACE_UNKNOWN_SCHEMA = 17,   /* no record before it defines its schema */
    TRACE_CONFLICT = 32,         /* a schema of this name has other fields or annotations */
    TRACE_VALUE_COUNT = 33,      /* not as many values as fields */
    TRACE_MISFIT = 34,           /* the value of field `detail` does not fit its type */
    TRACE_TOO_LONG = 35,
    TRACE_IDS_USED_UP = 36,
    TRACE_SLOT_TAKEN = 37,       /* 37, 38 and 40 never come of a batch */
    TRACE_SLOT_UNTIMED = 38,
    TRACE_BYTE_COUNT = 39,
    TRACE_FAILED = 40,
    /* of a trace that does not read whole; `place` is in bytes */
    TRACE_TRUNCATED_EVENT = 48,
    TRACE_UNKNOWN_TYPE = 49,     /* wire id `detail` has no schema */
    TRACE_TRUNCATED_DELTA = 50,
    TRACE_TIME_OVERFLOW = 51,
    TRACE_TRUNCATED_PREFIX = 52,
    TRACE_TRUNCATED_OPTIONAL = 53,
    TRACE_TRUNCATED_VALUE = 54,
    TRACE_TRUNCATED_RESET = 55,
    TRACE_NO_FRAME = 56,         /* no frame begins with byte `detail` there */
    TRACE_SCHEMA_CONFLICT = 57,  /* wire id `detail` stands for another schema */
    TRACE_NO_HEADER = 58,
    TRACE_NO_STATE = 60          /* of trace_read: the trace begins with no header, and the state is none */
};

typedef struct {
    size_t length; /* bytes written, or needed; of trace_check how many read whole; of trace_read those of the batch */
    size_t state;  /* of trace_read how many bytes of state stand after the batch */
    size_t read;   /* of trace_read how many bytes of the trace were read */
    size_t place;  /* the record of a batch, from 0; the byte of a trace */
    size_t detail; /* the field, wire id or byte that the number speaks of; of trace_dump the status of `tracedump` */
    uint64_t events; /* of trace_check how many events stand in what reads whole; of trace_read how many were read */
    uint8_t version; /* of trace_check and trace_read that of the header */
} trace_report;

/* The trace of a batch, with a header of its own. Traces may stand one after another in a file. */
uint32_t trace_record(const uint8_t *batch, size_t batch_len, uint8_t *out, size_t out_len, trace_report *report);

/* Whether a trace reads whole, by all readers, and else how far and why. */
uint32_t trace_check(const uint8_t *trace, size_t trace_len, trace_report *report);

/* What comes next in a trace as a batch, with at most so many events, and after it the state to hand back with what is
 * left. Begin with the whole trace and no state. TRACE_DONE, or a number from 48 to 57: the batch is there, and `read`
 * bytes of the trace were read; of such a number, no frame stands after them, by that cause. */
uint32_t trace_read(const uint8_t *state, size_t state_len, const uint8_t *trace, size_t trace_len, uint64_t most,
                    uint8_t *out, size_t out_len, trace_report *report);

static inline bool trace_was_read(uint32_t code) { return code == TRACE_DONE || (code >= 48 && code <= 57); }

/* The lines of a trace: all frames as they are, or its events with texts and stacks in place of ids. */
uint32_t trace_dump(const uint8_t *trace, size_t trace_len, bool resolve, uint8_t *out, size_t out_len,
                    trace_report *report);

/* ---- making a batch ----
 *
 * Put `{room, size, 0}` into a trace_batch and append. Where the room is too short, `length` goes past `size` and
 * nothing is written from there on: `length` tells the room needed. */
typedef struct {
    uint8_t *bytes;
    size_t size;
    size_t length;
} trace_batch;

/* The types of fields. With TRACE_OPTIONAL a field may be absent. */
enum {
    TRACE_I64 = 1, TRACE_F64 = 2, TRACE_BOOL = 3, TRACE_STRING = 4, TRACE_BYTES = 5, TRACE_POOLED_STACK = 6,
    TRACE_POOLED_STRING = 7, TRACE_STACK = 8, TRACE_VARINT = 9, TRACE_STRING_MAP = 10, TRACE_U8 = 11, TRACE_U16 = 12,
    TRACE_U32 = 13, TRACE_LIST = 14, TRACE_MAP = 15, TRACE_OPTIONAL = 0x80
};

static inline void trace_put(trace_batch *b, const void *bytes, size_t n) {
    if (b->length <= b->size && n <= b->size - b->length && n > 0)
        memcpy(b->bytes + b->length, bytes, n);
    b->length += n;
}

/* A number of so many bytes, the lowest first. */
static inline void trace_put_number(trace_batch *b, uint64_t number, size_t width) {
    uint8_t bytes[8];
    for (size_t i = 0; i < width; i++)
        bytes[i] = (uint8_t)(number >> (8 * i));
    trace_put(b, bytes, width);
}

static inline void trace_put_name(trace_batch *b, const char *name) {
    size_t n = strlen(name);
    trace_put_number(b, n, 2);
    trace_put(b, name, n);
}

/* A schema under a number of your own. Names have at most 65,535 bytes. As many calls of trace_field follow, then
   trace_annotations. */
static inline void trace_schema(trace_batch *b, uint16_t number, const char *name, uint16_t fields) {
    trace_put_number(b, 1, 1);
    trace_put_number(b, number, 2);
    trace_put_name(b, name);
    trace_put_number(b, fields, 2);
}

static inline void trace_field(trace_batch *b, const char *name, uint8_t type) {
    trace_put_name(b, name);
    trace_put_number(b, type, 1);
}

/* How many calls of trace_annotation follow; 0 ends a schema without any. */
static inline void trace_annotations(trace_batch *b, uint16_t count) { trace_put_number(b, count, 2); }

static inline void trace_annotation(trace_batch *b, uint16_t field, const char *key, const char *value) {
    size_t n = strlen(value);
    trace_put_number(b, field, 2);
    trace_put_name(b, key);
    trace_put_number(b, n, 4);
    trace_put(b, value, n);
}

/* A text of the string pool, and a stack of addresses of the stack pool, under ids of your own. */
static inline void trace_text(trace_batch *b, uint32_t id, const char *text, uint32_t n) {
    trace_put_number(b, 3, 1);
    trace_put_number(b, id, 4);
    trace_put_number(b, n, 4);
    trace_put(b, text, n);
}

static inline void trace_stack(trace_batch *b, uint32_t id, const uint64_t *addresses, uint32_t n) {
    trace_put_number(b, 4, 1);
    trace_put_number(b, id, 4);
    trace_put_number(b, n, 4);
    for (uint32_t i = 0; i < n; i++)
        trace_put_number(b, addresses[i], 8);
}

/* An event at a time in nanoseconds. As many values follow. */
static inline void trace_event(trace_batch *b, uint16_t number, uint64_t time, uint16_t values) {
    trace_put_number(b, 2, 1);
    trace_put_number(b, number, 2);
    trace_put_number(b, time, 8);
    trace_put_number(b, values, 2);
}

/* Values. A number fits the types VARINT, U8, U16 and U32. */
static inline void trace_number(trace_batch *b, uint64_t number) {
    uint8_t bytes[11] = {TRACE_VARINT};
    size_t n = 1;
    for (; number >= 0x80; number >>= 7)
        bytes[n++] = (uint8_t)(number | 0x80);
    bytes[n++] = (uint8_t)number;
    trace_put(b, bytes, n);
}

static inline void trace_tagged(trace_batch *b, uint8_t type, uint64_t number, size_t width) {
    trace_put_number(b, type, 1);
    trace_put_number(b, number, width);
}

static inline void trace_integer(trace_batch *b, int64_t number) { trace_tagged(b, TRACE_I64, (uint64_t)number, 8); }

static inline void trace_float(trace_batch *b, double number) {
    uint64_t bits;
    memcpy(&bits, &number, 8);
    trace_tagged(b, TRACE_F64, bits, 8);
}

static inline void trace_boolean(trace_batch *b, bool truth) { trace_tagged(b, TRACE_BOOL, truth, 1); }

static inline void trace_pooled_text(trace_batch *b, uint32_t id) { trace_tagged(b, TRACE_POOLED_STRING, id, 4); }

static inline void trace_pooled_stack(trace_batch *b, uint32_t id) { trace_tagged(b, TRACE_POOLED_STACK, id, 4); }

static inline void trace_string(trace_batch *b, const char *text, uint32_t n) {
    trace_tagged(b, TRACE_STRING, n, 4);
    trace_put(b, text, n);
}

static inline void trace_bytes(trace_batch *b, const void *bytes, uint32_t n) {
    trace_tagged(b, TRACE_BYTES, n, 4);
    trace_put(b, bytes, n);
}

static inline void trace_addresses(trace_batch *b, const uint64_t *addresses, uint32_t n) {
    trace_tagged(b, TRACE_STACK, n, 4);
    for (uint32_t i = 0; i < n; i++)
        trace_put_number(b, addresses[i], 8);
}

/* Twice as many calls of trace_part follow, a key and a value in turn. */
static inline void trace_string_map(trace_batch *b, uint32_t pairs) { trace_tagged(b, TRACE_STRING_MAP, pairs, 4); }

static inline void trace_part(trace_batch *b, const void *bytes, uint32_t n) {
    trace_put_number(b, n, 4);
    trace_put(b, bytes, n);
}

/* As many values follow of a list, and twice as many of a map, a key and a value in turn. */
static inline void trace_list(trace_batch *b, uint32_t items) { trace_tagged(b, TRACE_LIST, items, 4); }

static inline void trace_map(trace_batch *b, uint32_t pairs) { trace_tagged(b, TRACE_MAP, pairs, 4); }

/* The value of an optional field that is absent. */
static inline void trace_absent(trace_batch *b) { trace_tagged(b, TRACE_OPTIONAL | TRACE_I64, 0, 1); }

/* ---- walking over a batch ----
 *
 * Of a batch that trace_read wrote nothing is missing, so these test nothing. Put `{batch, length, 0}` into a
 * trace_cursor, and take record by record until `at` is `length`. */
typedef struct {
    const uint8_t *bytes;
    size_t length;
    size_t at;
} trace_cursor;

/* Bytes, and a length in bytes or a count of things. */
typedef struct {
    const uint8_t *bytes;
    size_t count;
} trace_slice;

static inline const uint8_t *trace_take(trace_cursor *c, size_t n) {
    c->at += n;
    return c->bytes + c->at - n;
}

/* A number of so many bytes, the lowest first. */
static inline uint64_t trace_number_at(const uint8_t *bytes, size_t width) {
    uint64_t number = 0;
    for (size_t i = 0; i < width; i++)
        number |= (uint64_t)bytes[i] << (8 * i);
    return number;
}

static inline uint64_t trace_take_number(trace_cursor *c, size_t width) {
    return trace_number_at(trace_take(c, width), width);
}

/* A number of type VARINT. */
static inline uint64_t trace_take_varint(trace_cursor *c) {
    uint64_t number = 0;
    for (unsigned shift = 0;; shift += 7) {
        uint8_t byte = *trace_take(c, 1);
        if (shift < 64)
            number |= (uint64_t)(byte & 0x7f) << shift;
        if (byte < 0x80)
            return number;
    }
}

/* A name: bytes after two bytes of length. */
static inline trace_slice trace_take_name(trace_cursor *c) {
    trace_slice s = {NULL, (size_t)trace_take_number(c, 2)};
    s.bytes = trace_take(c, s.count);
    return s;
}

/* A text or bytes: after four bytes of length. */
static inline trace_slice trace_take_counted(trace_cursor *c) {
    trace_slice s = {NULL, (size_t)trace_take_number(c, 4)};
    s.bytes = trace_take(c, s.count);
    return s;
}

/* Addresses of eight bytes each, after four bytes of count: trace_number_at tells one. */
static inline trace_slice trace_take_addresses(trace_cursor *c) {
    trace_slice s = {NULL, (size_t)trace_take_number(c, 4)};
    s.bytes = trace_take(c, 8 * s.count);
    return s;
}

/* Steps over a value after its tag, and over the presence byte of a field of an optional type. */
static inline void trace_skip_value(trace_cursor *c, uint8_t tag, bool is_field) {
    if ((tag & TRACE_OPTIONAL) && is_field && *trace_take(c, 1) == 0)
        return;
    switch (tag & ~TRACE_OPTIONAL) {
    case TRACE_I64: case TRACE_F64: trace_take(c, 8); return;
    case TRACE_BOOL: case TRACE_U8: trace_take(c, 1); return;
    case TRACE_U16: trace_take(c, 2); return;
    case TRACE_U32: case TRACE_POOLED_STRING: case TRACE_POOLED_STACK: trace_take(c, 4); return;
    case TRACE_STRING: case TRACE_BYTES: trace_take_counted(c); return;
    case TRACE_STACK: trace_take_addresses(c); return;
    case TRACE_VARINT: trace_take_varint(c); return;
    default: break;
    }
    bool texts = (tag & ~TRACE_OPTIONAL) == TRACE_STRING_MAP, list = (tag & ~TRACE_OPTIONAL) == TRACE_LIST;
    for (uint64_t left = trace_take_number(c, 4) * (list ? 1 : 2); left > 0; left--) {
        if (texts)
            trace_take_counted(c);
        else
            trace_skip_value(c, *trace_take(c, 1), false);
    }
}

/* Passes over the fields and the annotations of a schema, which come after its name. */
static inline void trace_skip_fields(trace_cursor *c) {
    for (uint64_t left = trace_take_number(c, 2); left > 0; left--) {
        trace_take_name(c);
        trace_take(c, 1);
    }
    for (uint64_t left = trace_take_number(c, 2); left > 0; left--) {
        trace_take(c, 2);
        trace_take_name(c);
        trace_take_counted(c);
    }
}

#ifdef __cplusplus
}
#endif
#endif
