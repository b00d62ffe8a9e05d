/* The C door with ample memory, without a gap: texts, pools, stacks and rooms of each size, events and traces of each
 * count. How many bytes a trace has is told after docs/FORMAT.md. */
#include "gotymbe.h"
#include <stdio.h>
#include <stdlib.h>

enum { ROOM = 200000, SIZES = 4300, COUNTS = 600 };
/* of a header, of a schema `One` with a field `it`, of an event before its value, of a pool before its entry's bytes */
enum { HEADER = 5, SCHEMA = 16, EVENT = 6, POOL = 13 };

static uint8_t room[ROOM], trace[ROOM], out[ROOM], again[ROOM];
static char text[SIZES];
static uint64_t stack[COUNTS];
static int failures = 0;

static void expect(bool holds, const char *what, size_t size) {
    if (!holds && failures++ < 9)
        printf("fails: %s: %zu\n", what, size);
}

static trace_batch begun(uint8_t type) {
    trace_batch batch = {room, ROOM, 0};
    trace_schema(&batch, 1, "One", 1);
    trace_field(&batch, "it", type);
    trace_annotations(&batch, 0);
    return batch;
}

/* The batch, whose trace has this length and so many events: each call, and the trace after itself. */
static void check(trace_batch batch, size_t length, uint64_t events, const char *what, size_t size) {
    trace_report report;
    expect(trace_record(batch.bytes, batch.length, trace, length, &report) == TRACE_DONE && report.length == length,
           what, size);
    if (length > 0)
        expect(trace_record(batch.bytes, batch.length, again, length - 1, &report) == TRACE_SHORT_ROOM, what, size);
    memcpy(trace + length, trace, length);
    for (size_t times = 1; times <= 2; times++) {
        expect(trace_check(trace, times * length, &report) == TRACE_DONE && report.length == times * length
                   && report.events == times * events, what, size);
        expect(trace_dump(trace, times * length, times == 1, out, ROOM, &report) == TRACE_DONE && report.detail == 0,
               what, size);
    }
    expect(trace_read(room, 0, trace, 2 * length, events + 1, out, ROOM, &report) == TRACE_DONE
               && report.events == events && report.read == length, what, size);
    size_t read = report.length, state = report.state;
    expect(trace_record(out, read, again, ROOM, &report) == TRACE_DONE && report.length == length
               && !memcmp(again, trace, length), what, size);
    /* what is known, and nothing after it */
    expect(trace_check(out + read, state, &report) == TRACE_DONE && report.events == 0, what, size);
    expect(trace_read(out + read, state, trace, 0, 1, again, ROOM, &report) == TRACE_DONE && report.events == 0, what,
           size);
}

static void texts(uint32_t size) {
    trace_batch batch = begun(TRACE_STRING);
    trace_event(&batch, 1, 9, 1);
    trace_string(&batch, text, size);
    check(batch, HEADER + SCHEMA + EVENT + 4 + size, 1, "a text", size);
    batch = begun(TRACE_POOLED_STRING);
    trace_text(&batch, 0, text, size);
    trace_event(&batch, 1, 9, 1);
    trace_pooled_text(&batch, 0);
    check(batch, HEADER + SCHEMA + EVENT + 4 + POOL + size, 1, "a pooled text", size);
}

static void stacks(uint32_t size) {
    trace_batch batch = begun(TRACE_STACK);
    trace_event(&batch, 1, 9, 1);
    trace_addresses(&batch, stack, size);
    check(batch, HEADER + SCHEMA + EVENT + 4 + 8 * (size_t)size, 1, "a stack", size);
    batch = begun(TRACE_POOLED_STACK);
    trace_stack(&batch, 0, stack, size);
    trace_event(&batch, 1, 9, 1);
    trace_pooled_stack(&batch, 0);
    check(batch, HEADER + SCHEMA + EVENT + 4 + POOL + 8 * (size_t)size, 1, "a pooled stack", size);
}

static void events(uint32_t count) {
    trace_batch batch = begun(TRACE_U8);
    for (uint32_t n = 0; n < count; n++) {
        trace_event(&batch, 1, n, 1);
        trace_number(&batch, n % 256);
    }
    check(batch, HEADER + SCHEMA + (EVENT + 1) * (size_t)count, count, "events", count);
}

int main(void) {
    memset(text, 'x', SIZES);
    for (uint32_t size = 0; size < SIZES; size++)
        texts(size);
    for (uint32_t size = 0; size < COUNTS; size++) {
        stacks(size);
        events(size);
    }
    printf("C: each size %s\n", failures ? "failed" : "passed");
    return failures != 0;
}
