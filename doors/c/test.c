/* A trace by the C door: recorded, checked, dumped, refused, cut. The lines are worked out by hand from
   docs/FORMAT.md. */
#include "gotymbe.h"
#include <stdio.h>
#include <stdlib.h>

static int failures = 0;
static void expect(bool holds, const char *what) {
    if (!holds) {
        printf("fails: %s\n", what);
        failures++;
    }
}

static const char *const LINES =
    "trace version 1\n"
    "event \"Poll\" timestamp_ns=1000 \"worker\"=Varint:3 \"cost\"=I64:-5 \"site\"=String:\"GET /\" \"at\"=None\n"
    "event \"Poll\" timestamp_ns=900 \"worker\"=Varint:300 \"cost\"=I64:0 \"site\"=String:\"GET /\" "
    "\"at\"=StackFrames:[0x10,0xff]\n"
    "end whole\n";

static const char *const NAMED =
    "trace version 1\n"
    "event \"A\" timestamp_ns=1 \"a\"=Varint:7\n"
    "event \"A\" timestamp_ns=2 \"b\"=Bool:true\n"
    "end whole\n";

/* A schema of one field. */
static void named(trace_batch *b, uint16_t number, const char *field, uint8_t type) {
    trace_schema(b, number, "A", 1);
    trace_field(b, field, type);
    trace_annotations(b, 0);
}

static void poll(trace_batch *b) {
    trace_schema(b, 7, "Poll", 4);
    trace_field(b, "worker", TRACE_VARINT);
    trace_field(b, "cost", TRACE_I64);
    trace_field(b, "site", TRACE_POOLED_STRING);
    trace_field(b, "at", TRACE_POOLED_STACK | TRACE_OPTIONAL);
    trace_annotations(b, 1);
    trace_annotation(b, 1, "unit", "ns");
    trace_text(b, 0, "GET /", 5);
    uint64_t frames[2] = {0x10, 0xff};
    trace_stack(b, 9, frames, 2);
    trace_event(b, 7, 1000, 4);
    trace_number(b, 3);
    trace_integer(b, -5);
    trace_pooled_text(b, 0);
    trace_absent(b);
    trace_event(b, 7, 900, 4);
    trace_number(b, 300);
    trace_integer(b, 0);
    trace_pooled_text(b, 0);
    trace_pooled_stack(b, 9);
}

/* Each type, and its optional form, present and absent: the values of one event. */
static void each_value(trace_batch *b, uint8_t type) {
    uint64_t addresses[2] = {1, 2};
    switch (type) {
    case TRACE_I64: trace_integer(b, -1); return;
    case TRACE_F64: trace_float(b, 0.5); return;
    case TRACE_BOOL: trace_boolean(b, true); return;
    case TRACE_STRING: trace_string(b, "text", 4); return;
    case TRACE_BYTES: trace_bytes(b, "bytes", 5); return;
    case TRACE_POOLED_STACK: trace_pooled_stack(b, 9); return;
    case TRACE_POOLED_STRING: trace_pooled_text(b, 8); return;
    case TRACE_STACK: trace_addresses(b, addresses, 2); return;
    case TRACE_STRING_MAP:
        trace_string_map(b, 1);
        trace_part(b, "key", 3);
        trace_part(b, "value", 5);
        return;
    case TRACE_LIST:
        trace_list(b, 3);
        trace_number(b, 300);
        trace_list(b, 0);
        trace_boolean(b, false);
        return;
    case TRACE_MAP:
        trace_map(b, 1);
        trace_string(b, "key", 3);
        trace_integer(b, 1);
        return;
    default: trace_number(b, 200); return;
    }
}

static const char *const EACH =
    " \"f\"=I64:-1 \"f\"=F64:0x3fe0000000000000 \"f\"=Bool:true \"f\"=String:\"text\" \"f\"=Bytes:\"bytes\""
    " \"f\"=StackFrames:[0x1,0x2] \"f\"=String:\"site\" \"f\"=StackFrames:[0x1,0x2] \"f\"=Varint:200"
    " \"f\"=StringMap:{\"key\"=\"value\"} \"f\"=Varint:200 \"f\"=Varint:200 \"f\"=Varint:200"
    " \"f\"=List:[Varint:300,List:[],Bool:false] \"f\"=Map:{String:\"key\"=I64:1}";

/* They are dumped as they were written. What is read of them is stepped over value by value: each begins with the tag
   of its field, and the last ends where the record does. */
static void each_type(void) {
    uint8_t room[4000], trace[4000], out[4000];
    uint64_t addresses[2] = {1, 2};
    char lines[4000] = "trace version 1\nevent \"All\" timestamp_ns=7";
    trace_report report;
    trace_batch b = {room, sizeof room, 0};
    trace_schema(&b, 1, "All", 45);
    for (uint8_t k = 0; k < 45; k++)
        trace_field(&b, "f", (uint8_t)(k % 15 + 1) | (k < 15 ? 0 : TRACE_OPTIONAL));
    trace_annotations(&b, 0);
    trace_text(&b, 8, "site", 4);
    trace_stack(&b, 9, addresses, 2);
    trace_event(&b, 1, 7, 45);
    for (uint8_t k = 0; k < 45; k++) {
        if (k < 30)
            each_value(&b, k % 15 + 1);
        else
            trace_absent(&b);
    }
    expect(trace_record(b.bytes, b.length, trace, sizeof trace, &report) == TRACE_DONE, "each type is recorded");
    size_t length = report.length;
    strcat(strcat(lines, EACH), EACH);
    for (int k = 0; k < 15; k++)
        strcat(lines, " \"f\"=None");
    strcat(lines, "\nend whole\n");
    expect(trace_dump(trace, length, true, out, sizeof out, &report) == TRACE_DONE, "each type is dumped");
    expect(report.length == strlen(lines) && !memcmp(out, lines, report.length), "the values of each type");
    expect(trace_read(out, 0, trace, length, 9, out, sizeof out, &report) == TRACE_DONE, "each type is read");
    trace_cursor c = {out, report.length, 0};
    expect(*trace_take(&c, 1) == 1 && trace_take_number(&c, 2) > 0 && trace_take_name(&c).count == 3, "the schema");
    trace_skip_fields(&c);
    expect(*trace_take(&c, 1) == 3 && trace_take_number(&c, 4) == 8 && trace_take_counted(&c).count == 4, "the text");
    expect(*trace_take(&c, 1) == 4 && trace_take_number(&c, 4) == 9, "the stack");
    trace_slice stack = trace_take_addresses(&c);
    expect(stack.count == 2 && trace_number_at(stack.bytes + 8, 8) == 2, "its addresses");
    expect(*trace_take(&c, 1) == 2 && trace_take_number(&c, 2) > 0 && trace_take_number(&c, 8) == 7, "the event");
    expect(trace_take_number(&c, 2) == 45, "as many values");
    for (uint8_t k = 0; k < 45 && c.at < c.length; k++) {
        uint8_t tag = *trace_take(&c, 1);
        expect(tag == ((k % 15 + 1) | (k < 15 ? 0 : TRACE_OPTIONAL)), "the tag of a field");
        trace_skip_value(&c, tag, true);
    }
    expect(c.at == c.length, "the last value ends where the record does");
}

/* Names that one byte does not count, and an annotation without a key: dumped, read and stepped over. */
static void long_names(void) {
    uint8_t room[4000], trace[4000], out[4000];
    char name[301] = {0}, line[4000];
    trace_report report;
    memset(name, 'n', 300);
    trace_batch b = {room, sizeof room, 0};
    trace_schema(&b, 1, name, 1);
    trace_field(&b, name, TRACE_BOOL);
    trace_annotations(&b, 2);
    trace_annotation(&b, 0, "", name);
    trace_annotation(&b, 65535, name, "");
    trace_event(&b, 1, 5, 1);
    trace_boolean(&b, true);
    expect(trace_record(b.bytes, b.length, trace, sizeof trace, &report) == TRACE_DONE, "long names are recorded");
    size_t length = report.length;
    snprintf(line, sizeof line, "trace version 1\nevent \"%s\" timestamp_ns=5 \"%s\"=Bool:true\nend whole\n",
             name, name);
    expect(trace_dump(trace, length, true, out, sizeof out, &report) == TRACE_DONE, "long names are dumped");
    expect(report.length == strlen(line) && !memcmp(out, line, report.length), "the line of long names");
    expect(trace_read(out, 0, trace, length, 9, out, sizeof out, &report) == TRACE_DONE, "long names are read");
    trace_cursor c = {out, report.length, 0};
    /* the schema without its annotations, and then with them, as they were written */
    for (int k = 0; k < 2; k++) {
        expect(*trace_take(&c, 1) == 1 && trace_take_number(&c, 2) > 0 && trace_take_name(&c).count == 300, "a schema");
        size_t begin = c.at;
        trace_skip_fields(&c);
        size_t fields = 2 + 2 + 300 + 1 + 2;
        expect(c.at - begin == fields + (k == 0 ? 0 : 2 * (2 + 2 + 4) + 600), "its fields and annotations");
        expect(k == 0 || !memcmp(out + begin + fields - 2, room + 3 + 302 + fields - 2, c.at - begin - fields + 2),
               "the annotations that were written");
    }
    expect(*trace_take(&c, 1) == 2, "the event");
}

/* A value of an annotation that two bytes do not count comes back. */
static void long_annotation(void) {
    static uint8_t room[80000], trace[80000];
    static char value[70001];
    trace_report report;
    memset(value, 'v', 70000);
    trace_batch b = {room, sizeof room, 0};
    trace_schema(&b, 1, "A", 0);
    trace_annotations(&b, 1);
    trace_annotation(&b, 65535, "k", value);
    expect(b.length == 1 + 2 + 3 + 2 + 2 + 2 + 3 + 4 + 70000, "a long annotation");
    expect(trace_record(b.bytes, b.length, trace, sizeof trace, &report) == TRACE_DONE, "it is recorded");
    size_t length = report.length;
    expect(length > 70000 && !memcmp(trace + length - 70000, value, 70000), "its value");
}

/* A batch that has too little room tells what it needs, and no byte after the room is touched. */
static void too_little_room(void) {
    uint8_t room[1000];
    trace_batch whole = {room, sizeof room, 0};
    poll(&whole);
    uint8_t wanted[1000];
    memcpy(wanted, room, sizeof room);
    for (size_t size = 0; size <= whole.length; size++) {
        memset(room, 0xa5, sizeof room);
        trace_batch b = {room, size, 0};
        poll(&b);
        expect(b.length == whole.length, "what is needed");
        expect(size < whole.length || !memcmp(room, wanted, size), "room that is exactly enough");
        for (size_t k = size; k < sizeof room; k++)
            expect(room[k] == 0xa5, "a byte after the room");
    }
}

int main(void) {
    each_type();
    long_names();
    long_annotation();
    too_little_room();
    uint8_t room[1000], trace[1000], lines[2000];
    trace_report report;
    trace_batch batch = {room, sizeof room, 0};
    poll(&batch);
    expect(batch.length <= batch.size, "the batch fits its room");
    trace_batch none = {room, 3, 0};
    poll(&none);
    expect(none.length == batch.length, "a batch without room tells what it needs");
    batch.length = 0;
    poll(&batch);

    expect(trace_record(batch.bytes, batch.length, trace, 4, &report) == TRACE_SHORT_ROOM, "a short room");
    size_t needed = report.length;
    expect(trace_record(batch.bytes, batch.length, trace, sizeof trace, &report) == TRACE_DONE, "recorded");
    expect(report.length == needed && needed > 4, "as long as was told");
    size_t length = report.length;
    expect(trace_check(trace, length, &report) == TRACE_DONE && report.length == length && report.events == 2, "whole");
    expect(trace_dump(trace, length, true, lines, sizeof lines, &report) == TRACE_DONE && report.detail == 0, "dumped");
    expect(report.length == strlen(LINES) && !memcmp(lines, LINES, report.length), "the lines");

    /* two traces are a trace; each front is cut where its last frame begins */
    uint8_t both[2000];
    memcpy(both, trace, length);
    memcpy(both + length, trace, length);
    expect(trace_check(both, 2 * length, &report) == TRACE_DONE && report.length == 2 * length, "two traces");
    expect(report.events == 4, "the events of both");
    for (size_t n = 5; n < length; n++) {
        uint32_t code = trace_check(both, n, &report);
        expect(trace_was_read(code) && report.length >= 5, "a front is told");
        expect(code == TRACE_DONE ? report.length == n : report.length < n && report.place <= n, "a front");
    }
    expect(trace_check((const uint8_t *)"nothing", 7, &report) == TRACE_NO_HEADER, "no header");

    /* each front of a batch is refused at a record, or is a batch of fewer records */
    for (size_t n = 0; n < batch.length; n++) {
        uint32_t code = trace_record(batch.bytes, n, trace, sizeof trace, &report);
        expect(code == TRACE_DONE || (code == TRACE_NO_RECORD && report.place < 5), "a front of a batch");
    }
    batch.length = 0;
    trace_event(&batch, 7, 1, 0);
    expect(trace_record(batch.bytes, batch.length, trace, sizeof trace, &report) == TRACE_UNKNOWN_SCHEMA, "no schema");
    poll(&batch);
    uint8_t *after = batch.bytes + 13;
    expect(trace_record(after, batch.length - 13, trace, sizeof trace, &report) == TRACE_DONE, "the rest of it");
    trace_event(&batch, 7, 1, 3);
    trace_number(&batch, 1);
    trace_integer(&batch, 1);
    trace_pooled_text(&batch, 0);
    expect(trace_record(after, batch.length - 13, trace, sizeof trace, &report) == TRACE_VALUE_COUNT
               && report.place == 5, "three values of four");
    batch.length = 0;
    poll(&batch);
    trace_event(&batch, 7, 1, 4);
    trace_number(&batch, 1);
    trace_number(&batch, 1);
    trace_pooled_text(&batch, 0);
    trace_absent(&batch);
    expect(trace_record(batch.bytes, batch.length, trace, sizeof trace, &report) == TRACE_MISFIT && report.place == 5
               && report.detail == 1, "a number for a signed one");

    /* a second schema of a name is refused in one batch, and written by the next: traces join */
    batch.length = 0;
    named(&batch, 1, "a", TRACE_U8);
    trace_event(&batch, 1, 1, 1);
    trace_number(&batch, 7);
    size_t first = batch.length;
    named(&batch, 2, "b", TRACE_BOOL);
    trace_event(&batch, 2, 2, 1);
    trace_boolean(&batch, true);
    expect(trace_record(batch.bytes, batch.length, both, sizeof both, &report) == TRACE_CONFLICT && report.place == 2,
           "two schemas of one name");
    expect(trace_record(batch.bytes, first, both, sizeof both, &report) == TRACE_DONE, "the first");
    size_t front = report.length;
    expect(trace_record(batch.bytes + first, batch.length - first, both + front, sizeof both - front, &report)
               == TRACE_DONE, "the second");
    expect(trace_dump(both, front + report.length, true, lines, sizeof lines, &report) == TRACE_DONE, "dumped");
    expect(report.length == strlen(NAMED) && !memcmp(lines, NAMED, report.length), "the lines of both");

    /* read back, an event at a time: the records of the batch again */
    batch.length = 0;
    poll(&batch);
    expect(trace_record(batch.bytes, batch.length, trace, sizeof trace, &report) == TRACE_DONE, "recorded again");
    length = report.length;
    uint8_t out[1000], state[1000];
    size_t at = 0, kept = 0;
    uint64_t events = 0;
    for (int turn = 0; turn < 4 && at < length; turn++) {
        expect(trace_read(state, kept, trace + at, length - at, 1, out, 3, &report) == TRACE_SHORT_ROOM,
               "no room to read");
        expect(trace_read(state, kept, trace + at, length - at, 1, out, sizeof out, &report) == TRACE_DONE, "read");
        expect(report.version == 1 && report.events == 1, "one event, of version 1");
        trace_cursor c = {out, report.length, 0};
        while (c.at < c.length) {
            switch (*trace_take(&c, 1)) {
            case 1:
                trace_take(&c, 2);
                expect(trace_take_name(&c).count == 4, "the name of a schema");
                trace_skip_fields(&c);
                break;
            case 2:
                trace_take(&c, 2);
                expect(trace_take_number(&c, 8) == (events == 0 ? 1000 : 900), "the time of an event");
                for (uint64_t left = trace_take_number(&c, 2); left > 0; left--)
                    trace_skip_value(&c, *trace_take(&c, 1), true);
                events++;
                break;
            case 3: trace_take(&c, 4); trace_take_counted(&c); break;
            default: trace_take(&c, 4); trace_take_addresses(&c); break;
            }
        }
        kept = report.state;
        memcpy(state, out + report.length, kept);
        at += report.read;
    }
    expect(events == 2 && at == length, "both events, to the end");

    /* what was read, recorded: the schema is told without its annotation, and then with it */
    uint8_t copy[1000];
    expect(trace_read(state, 0, trace, length, 9, out, sizeof out, &report) == TRACE_DONE, "read at once");
    expect(trace_record(out, report.length, copy, sizeof copy, &report) == TRACE_DONE, "recorded from what was read");
    expect(report.length == length && !memcmp(copy, trace, length), "the same trace");
    expect(trace_read(state, 0, (const uint8_t *)"nothing", 7, 1, out, sizeof out, &report) == TRACE_NO_HEADER,
           "nothing to read");
    expect(trace_read((const uint8_t *)"none", 4, (const uint8_t *)"nothing", 7, 1, out, sizeof out, &report)
               == TRACE_NO_STATE, "no state");
    uint32_t code = trace_read(state, 0, trace, length - 1, 9, out, sizeof out, &report);
    expect(trace_was_read(code) && code != TRACE_DONE && report.events == 1 && report.place < length, "a torn trace");
    printf("C: %s\n", failures ? "failed" : "passed");
    return failures != 0;
}
