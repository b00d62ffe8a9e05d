"""The calls of the door with ample memory, without a gap: texts, names and pools of each size up to 4,300 bytes; events
of each count up to 1,100; fields, annotations, schemas, entries, items, pairs and traces one after another of each
count up to 300; room of each size, and reading by each count. So batches, traces, states and lines have each length.
All are spelled after docs/FORMAT.md and docs/DOORS.md.

Run it at the top of the repository by doors/test."""
import ctypes
import unittest

import gotymbe
import test_ample
from gotymbe import (BYTES, LIST, MAP, OPTIONAL, POOLED_STACK, POOLED_STRING, STACK, STRING, STRING_MAP, U8, VARINT,
                     Batch,
                     Schema, TraceError, check, dump, read_batch, record_batch)
from test_ample import ALL, Wanted, addresses, counted, leb128, named, number, numbers, one

SIZES = range(4301)
EVENTS = range(1101)
COUNTS = range(301)


def numbered(count):
    """What is wanted of so many events of a number."""
    wanted = Wanted()
    wire_id = wanted.schema("One", [("it", VARINT)])
    for n in range(count):
        wanted.event(wire_id, 5 * n, [(VARINT, leb128(n))])
    return wanted


class Sizes(unittest.TestCase):
    is_done = test_ample.Ample.is_done

    def goes_on(self, wanted, first, most, head):
        """Read by so many events, the trace of `wanted` gives the records after the first in the next call, which
        begins with those that are known (`head`)."""
        trace = wanted.trace()
        found = read_batch(trace, most=most)
        self.assertEqual((found.events, found.stop, check(found.state)), (most, None, 0))
        self.assertTrue(found.batch == b"".join(wanted.records[:first]))
        after = read_batch(trace, found.state, ALL, found.length)
        self.assertEqual((after.stop, found.length + after.length), (None, len(trace)))
        self.assertTrue(after.batch == b"".join(head + wanted.records[first:]))

    def joins(self, trace, batch, events):
        """The trace after itself is one with twice its events, which is read up to where the second begins."""
        both = trace + trace
        self.assertEqual(check(both), 2 * events)
        found = read_batch(both, most=ALL)
        self.assertEqual((found.length, found.stop), (len(trace), None))
        after = read_batch(both, found.state, ALL, len(trace))
        self.assertTrue(found.batch == after.batch == batch)

    def twice(self, kind, value, raw, line):
        """Two events of one value: recorded, checked, read at once and one by one, joined, and dumped."""
        fields, batch, wanted = [("it", kind)], Batch(), Wanted()
        schema, spelled = Schema("One", fields), raw
        for time in (7, 9):
            batch.add(schema, time, [value])
        if kind == POOLED_STRING:
            wanted.text(0, value.encode())
        if kind == POOLED_STACK:
            wanted.stack(0, value)
        if kind in (POOLED_STRING, POOLED_STACK):
            spelled = number(0, 4)
        wire_id = wanted.schema("One", fields)
        for time in (7, 9):
            wanted.event(wire_id, time, [(kind, spelled)])
        trace = self.is_done(batch.bytes(), wanted, 2)
        before = len(wanted.records) - 2
        self.goes_on(wanted, before + 1, 1, wanted.records[:before])
        self.joins(trace, wanted.batch(), 2)
        self.assertTrue(dump(trace, resolve=True) == "trace version 1\n" + "".join(
            f'event "One" timestamp_ns={time} "it"={line}\n' for time in (7, 9)) + "end whole\n")
        return trace

    def test_texts(self):
        for size in SIZES:
            text = "x" * size
            line = f'"{text}"'
            for kind, value, shown in ((STRING, text, "String"), (BYTES, text.encode(), "Bytes"),
                                       (POOLED_STRING, text, "String")):
                trace = self.twice(kind, value, counted(text.encode()), f"{shown}:{line}")
                if kind == STRING:
                    self.assertTrue(dump(trace) == "trace version 1\nschema \"One\" \"it\":String\n" + "".join(
                        f"event 256 {time} String:{line}\n" for time in (7, 9)) + "end whole\n")

    def test_past_sixteen_megabytes(self):
        """A trace, its lines and, of a pooled text, the state that is handed back."""
        text = "x" * (2**24 + 1)
        for kind in (STRING, POOLED_STRING):
            self.twice(kind, text, counted(text.encode()), f'String:"{text}"')

    def test_schemas_told_so_often(self):
        """A schema that is told by each count of records right after one another, the last of which counts."""
        fields, event = [("it", VARINT)], b"\2\0\0" + number(7, 8) + number(1, 2) + b"\x09\1"
        for count in COUNTS[1:]:
            told = [Schema("One", fields, [(0, "k", str(n))] * (n % 3)) for n in range(count)]
            wanted = Wanted()
            wanted.event(wanted.schema("One", fields, told[-1].annotations), 7, [(VARINT, b"\1")])
            self.assertTrue(record_batch(b"".join(it.record(0) for it in told) + event) == wanted.trace())

    def test_stacks(self):
        for size in range(601):
            stack = tuple(range(1, size + 1))
            line = "StackFrames:[" + ",".join(f"{it:#x}" for it in stack) + "]"
            for kind in (STACK, POOLED_STACK):
                self.twice(kind, stack, addresses(stack), line)

    def test_values_of_each_count(self):
        for size in COUNTS:
            items, pairs = [(VARINT, 7)] * size, [((U8, 7), (STRING, "x"))] * size
            texts = [("k", "v")] * size
            self.twice(LIST, items, number(size, 4) + b"\x09\x07" * size,
                       "List:[" + ",".join(["Varint:7"] * size) + "]")
            self.twice(MAP, pairs, number(size, 4) + (b"\x09\x07\x04" + counted(b"x")) * size,
                       "Map:{" + ",".join(['Varint:7=String:"x"'] * size) + "}")
            self.twice(STRING_MAP, texts, number(size, 4) + (counted(b"k") + counted(b"v")) * size,
                       "StringMap:{" + ",".join(['"k"="v"'] * size) + "}")

    def test_names(self):
        for size in SIZES:
            name, schema = "n" * size, Batch()
            schema.add(Schema(name, [(name, VARINT)], [(0, name, name)]), 0, [1])
            wanted = Wanted()
            wanted.event(wanted.schema(name, [(name, VARINT)], [(0, name, name)]), 0, [(VARINT, b"\1")])
            trace = self.is_done(schema.bytes(), wanted, 1)
            self.joins(trace, wanted.batch(), 1)
            self.assertTrue(dump(trace, resolve=True).endswith(f'"{name}"=Varint:1\nend whole\n'))

    def test_fields_and_annotations(self):
        for size in COUNTS:
            fields, notes = [("f", U8 | OPTIONAL)] * size, [(n, "k", "v") for n in range(size)]
            batch, wanted = Batch(), Wanted()
            batch.add(Schema("F", fields, notes), 0, [None] * size)
            wanted.event(wanted.schema("F", fields, notes), 0, [(U8 | OPTIONAL, b"\0")] * size)
            trace = self.is_done(batch.bytes(), wanted, 1)
            self.joins(trace, wanted.batch(), 1)
            self.assertTrue(dump(trace, resolve=True).endswith(' "f"=None' * size + "\nend whole\n"))

    def test_events(self):
        whole = numbered(len(EVENTS))
        for count in EVENTS:
            wanted = Wanted()
            wanted.frames, wanted.records = whole.frames[:2 + count], whole.records[:1 + count]
            wanted.base = 5 * max(count - 1, 0)
            trace = self.is_done(wanted.batch(), wanted, count)
            self.joins(trace, wanted.batch(), count)
            found = read_batch(trace, most=count // 2)
            self.assertEqual((found.events, found.stop), (count // 2, None))
            lines = [f"event 256 {5 * n} Varint:{n}\n" for n in range(count)]
            self.assertTrue(dump(trace) == 'trace version 1\nschema "One" "it":Varint\n' + "".join(lines)
                            + "end whole\n")

    def test_reading_by_each_count(self):
        wanted = numbered(len(EVENTS))
        for most in EVENTS:
            if 0 < most < len(EVENTS):
                self.goes_on(wanted, 1 + most, most, wanted.records[:1])

    def test_schemas_and_entries(self):
        schemas, texts, stacks = Wanted(), Wanted(), Wanted()
        for count in COUNTS:
            for wanted in (schemas, texts, stacks):
                trace = self.is_done(wanted.batch(), wanted, 0)
                self.joins(trace, wanted.batch(), 0)
                self.assertEqual(dump(trace).count("\n"), 2 + count)
                self.assertEqual(dump(trace, resolve=True), "trace version 1\nend whole\n")
            schemas.schema(f"S{count}", [("it", VARINT)])
            texts.text(count, b"x" * count)
            stacks.stack(count, (7,) * count)

    def test_many_joined(self):
        wanted = numbered(2)
        trace = wanted.trace()
        for count in COUNTS[1:]:
            joined, place, state = trace * count, 0, b""
            self.assertEqual(check(joined), 2 * count)
            self.assertEqual(dump(joined, resolve=True).count("\n"), 2 + 2 * count)
            for _ in range(count if count % 50 == 0 else 1):
                found = read_batch(joined, state, ALL, place)
                self.assertEqual((found.events, found.stop, found.length), (2, None, len(trace)))
                self.assertTrue(found.batch == wanted.batch())
                place, state = place + found.length, found.state

    def test_room_of_each_size(self):
        batch, wanted = numbers(40)
        trace = wanted.trace()
        found = read_batch(trace, most=ALL)
        for made, name, *words in ((trace, "trace_record", batch, len(batch)),
                                   (dump(trace).encode(), "trace_dump", trace, len(trace), False),
                                   (found.batch + found.state, "trace_read", b"", 0, trace, len(trace), ALL)):
            for size in range(len(made) + 9):
                self.in_room(made, size, name, *words)

    def test_room_exactly_enough(self):
        for size in SIZES:
            batch, wanted = one(STRING, "x" * size, counted(b"x" * size))
            trace = wanted.trace()
            for room in (len(trace), len(trace) - 1):
                self.in_room(trace, room, "trace_record", batch, len(batch))

    def test_refused_batches(self):
        """After a batch of each length a record that is none, one of no schema, one of another schema of the name, one
        of too few values, one whose value does not fit, and one that would be another text."""
        for size in SIZES:
            batch = one(STRING, "x" * size, counted(b"x" * size))[0]
            event = b"\2\0\0" + number(9, 8)
            for last, code, detail in ((b"\5", 16, 0), (event, 16, 0), (b"\2\7\0" + number(9, 8) + number(0, 2), 17, 0),
                                       (b"\1\7\0" + named("One") + number(0, 4), 32, 0),
                                       (event + number(0, 2), 33, 0), (event + number(1, 2) + b"\3\1", 34, 0)):
                with self.assertRaises(TraceError) as it:
                    record_batch(batch + last)
                found = it.exception
                self.assertEqual((found.code, found.place, found.detail), (code, 2, detail))

    def test_refused_after_each_value(self):
        """After an event of a value of each type and size, and after as many as 100,000 events, one of too few values:
        what stands before it is read by the calls that it asks for."""
        for size in (*COUNTS, 4096, 65536, 10**5):
            text, count = b"x" * size, number(size, 4)
            for kind, raw in ((STRING, text), (BYTES, text), (STACK, bytes(8 * size)), (STRING_MAP, bytes(8 * size)),
                              (LIST, b"\3\1" * size), (MAP, b"\3\1\3\0" * size)):
                for of, before in ((kind, b""), (kind | OPTIONAL, b"\1")):
                    wanted = Wanted()
                    wire_id = wanted.schema("One", [("it", of)])
                    wanted.event(wire_id, 7, [(of, before + count + raw)])
                    self.is_refused(wanted.records, wire_id)
        whole = numbered(10**5)
        for count in (1024, 4096, 65536, 10**5):
            self.is_refused(whole.records[:1 + count], 256)

    def is_refused(self, records, wire_id):
        """A record of an event without a value is refused after these."""
        with self.assertRaises(TraceError) as it:
            record_batch(b"".join(records) + b"\2" + number(wire_id, 2) + number(9, 8) + number(0, 2))
        self.assertEqual((it.exception.code, it.exception.place), (33, len(records)))

    def test_refused_after_each_count(self):
        """After so many events, and after as many schemas, texts and stacks, a record that is none, one of no schema,
        one of another schema of a name, and one of too few values: its index is told."""
        events, others = numbered(len(COUNTS)), Wanted()
        for count in COUNTS:
            others.schema(f"S{count}", [("it", VARINT)])
            others.text(count, b"x" * count)
            others.stack(count, (7,) * count)
        for count in COUNTS:
            for records, name in ((events.records[:1 + count], "One"), (others.records[:1 + 3 * count], "S0")):
                for last, code in ((b"\5", 16), (b"\2\7\0" + number(9, 8) + number(0, 2), 17),
                                   (b"\1\7\0" + named(name) + number(0, 4), 32),
                                   (b"\2\0\1" + number(9, 8) + number(0, 2), 33)):
                    with self.assertRaises(TraceError) as it:
                        record_batch(b"".join(records) + last)
                    self.assertEqual((it.exception.code, it.exception.place), (code, len(records)))

    def test_torn_traces(self):
        """A trace of each length, after which an event is torn, or no frame stands; and one without a header."""
        for size in SIZES:
            wanted = one(STRING, "x" * size, counted(b"x" * size))[1]
            trace = wanted.trace()
            for torn, code in ((b"\2\0", 48), (b"\2\7\0", 49), (b"\2\0\1\0", 50), (b"\2\0\1" + bytes(3) + b"\1", 54),
                               (b"\5\0", 55), (b"\0", 56)):
                with self.assertRaises(TraceError) as it:
                    check(trace + torn)
                stop = it.exception
                self.assertEqual((stop.code, stop.length), (code, len(trace)))
                self.assertTrue(len(trace) <= stop.place <= len(trace) + len(torn))
                found = read_batch(trace + torn, most=ALL)
                self.assertEqual((found.events, found.length, found.stop.code), (1, len(trace), code))
                self.assertEqual(found.stop.place, stop.place)
                self.assertTrue(found.batch == wanted.batch())
            status = gotymbe.dump_with_status(trace + b"\0")
            self.assertEqual((status[1], status[0].decode().endswith(f"end stopped at {len(trace)}\n")), (2, True))

    def test_without_a_header(self):
        for size in SIZES:
            none = b"x" * size
            for call, code in ((lambda: check(none), 58), (lambda: read_batch(none), 58)):
                with self.assertRaises(TraceError) as it:
                    call()
                self.assertEqual((it.exception.code, it.exception.length), (code, 0))
            self.assertEqual(gotymbe.dump_with_status(none), (b"no header\n", 1))
            with self.assertRaises(TraceError) as it:
                read_batch(b"x", none + b"x")
            self.assertEqual(it.exception.code, 60)

    def in_room(self, wanted, size, name, *words):
        room, report = ctypes.create_string_buffer(b"\xa5" * (size + 1), size + 1), gotymbe._Report()
        code = getattr(gotymbe._library, name)(*words, room, size, ctypes.byref(report))
        enough = size >= len(wanted)
        self.assertEqual((code, report.length + report.state), (0 if enough else gotymbe.SHORT_ROOM, len(wanted)))
        filled = wanted if enough else b""
        self.assertTrue(room.raw == filled + b"\xa5" * (size + 1 - len(filled)))


if __name__ == "__main__":
    unittest.main()
