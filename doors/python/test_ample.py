"""The calls of the door at each size, with ample memory: batches of 1 to 100,000 events, texts to a megabyte, stacks
to 100,000 addresses, names, fields and schemas to the most that there may be, and room that is exactly enough, one
short, or none. Traces, batches and lines are spelled here after docs/FORMAT.md and docs/DOORS.md, and compared.

Run it at the top of the repository by doors/test."""
import ctypes
import unittest

import gotymbe
from gotymbe import (BOOL, BYTES, F64, I64, LIST, MAP, OPTIONAL, POOLED_STACK, POOLED_STRING, SHORT_ROOM, STACK, STRING,
                     STRING_MAP, U8, U16, U32, VARINT, Batch, Schema, TraceError, check, dump, read_batch, record_batch)

COUNTS = (1, 10, 100, 1000, 10000, 100000)
SIZES = (1, 255, 256, 4097, 65536, 1000000, 1048576)
ADDRESSES = (1, 255, 256, 4097, 65536, 100000)
ALL = 2**64 - 1


def number(n, width):
    return n.to_bytes(width, "little")


def leb128(n):
    out = bytearray()
    while n >= 128:
        out.append(n % 128 + 128)
        n //= 128
    return bytes([*out, n])


def counted(raw):
    return number(len(raw), 4) + raw


def named(text):
    return number(len(text.encode()), 2) + text.encode()


def addresses(stack):
    return number(len(stack), 4) + b"".join(number(it, 8) for it in stack)


class Wanted:
    """What is wanted: the frames of a trace, and the records of a batch that says what they do."""

    def __init__(self):
        self.frames, self.records, self.base, self.ids = [b"TRC\0\1"], [], 0, 256

    def schema(self, name, fields, notes=()):
        wire_id, shape = self.ids, b"".join(named(field) + bytes([kind]) for field, kind in fields)
        self.ids += 1
        self.frames.append(b"\1" + number(wire_id, 2) + named(name) + b"\1" + number(len(fields), 2) + shape)
        head = b"\1" + number(wire_id, 2) + named(name) + number(len(fields), 2) + shape
        self.records.append(head + number(0, 2))
        if notes:
            said = number(len(notes), 2) + b"".join(
                number(field, 2) + named(key) + counted(value.encode()) for field, key, value in notes)
            self.frames.append(b"\6" + leb128(wire_id) + said)
            self.records.append(head + said)
        return wire_id

    def text(self, pool_id, raw):
        self.frames.append(b"\3" + number(1, 4) + number(pool_id, 4) + counted(raw))
        self.records.append(b"\3" + number(pool_id, 4) + counted(raw))

    def stack(self, pool_id, stack):
        self.frames.append(b"\4" + number(1, 4) + number(pool_id, 4) + addresses(stack))
        self.records.append(b"\4" + number(pool_id, 4) + addresses(stack))

    def event(self, wire_id, time, values):
        """An event of values, each a tag and its bytes in an event."""
        if not 0 <= time - self.base < 2**24:
            self.frames.append(b"\5" + number(time, 8))
            self.base = time
        delta, self.base = time - self.base, time
        self.frames.append(b"\2" + number(wire_id, 2) + number(delta, 3) + b"".join(raw for _, raw in values))
        self.records.append(b"\2" + number(wire_id, 2) + number(time, 8) + number(len(values), 2)
                            + b"".join(bytes([kind]) + raw for kind, raw in values))

    def trace(self):
        return b"".join(self.frames)

    def batch(self):
        return b"".join(self.records)

    def state(self):
        """What is known after all of it: the frames but events and resets, and a reset to the base time."""
        return b"".join(it for it in self.frames if it[:1] not in b"\2\5") + b"\5" + number(self.base, 8)


def numbers(count, notes=()):
    """So many events of three numbers, every seventh far from the one before: a batch, and what is wanted of it."""
    fields = [("worker", VARINT), ("task", VARINT), ("spent", U16)]
    schema, batch, wanted = Schema("Poll", fields, notes), Batch(), Wanted()
    wire_id = wanted.schema("Poll", fields, notes)
    for n in range(count):
        time, row = 1000 * n + 2**25 * (n // 7), (n % 8, n * n * n, n % 65536)
        batch.add(schema, time, row)
        wanted.event(wire_id, time, [(VARINT, leb128(row[0])), (VARINT, leb128(row[1])), (U16, number(row[2], 2))])
    return batch.bytes(), wanted


def pooled(count):
    """So many events of a pooled text and a pooled stack, of five texts and three stacks."""
    fields = [("at", POOLED_STRING), ("stack", POOLED_STACK)]
    schema, batch, wanted, wire_id = Schema("Sample", fields), Batch(), Wanted(), None
    for n in range(count):
        text, stack = f"GET /{n % 5}", tuple(range(2**40, 2**40 + n % 3))
        batch.add(schema, 5 * n, (text, stack))
        if n < 5:
            wanted.text(n, text.encode())
        if n < 3:
            wanted.stack(n, stack)
        if wire_id is None:
            wire_id = wanted.schema("Sample", fields)
        wanted.event(wire_id, 5 * n, [(POOLED_STRING, number(n % 5, 4)), (POOLED_STACK, number(n % 3, 4))])
    return batch.bytes(), wanted


def one(kind, value, raw):
    """An event of one value, which has these bytes."""
    batch, wanted = Batch(), Wanted()
    batch.add(Schema("One", [("it", kind)]), 7, [value])
    if kind == POOLED_STRING:
        wanted.text(0, raw[4:])
    if kind == POOLED_STACK:
        wanted.stack(0, value)
    spelled = number(0, 4) if kind in (POOLED_STRING, POOLED_STACK) else raw
    wanted.event(wanted.schema("One", [("it", kind)]), 7, [(kind, spelled)])
    return batch.bytes(), wanted


class Ample(unittest.TestCase):
    def is_done(self, batch, wanted, events):
        """The batch becomes the trace that is wanted, and that the batch that is wanted."""
        trace = record_batch(batch)
        self.assertTrue(trace == wanted.trace())
        self.assertEqual(check(trace), events)
        for most in (ALL, events):
            found = read_batch(trace, most=most)
            self.assertTrue(found.batch == wanted.batch() and found.state == wanted.state())
            self.assertEqual((found.events, found.length, found.stop, found.version), (events, len(trace), None, 1))
        return trace

    def test_batches_of_each_count(self):
        for count in COUNTS:
            for notes in ((), ((0, "unit", "ns"), (2, "", "µ"))):
                self.is_done(*numbers(count, notes), count)
            self.is_done(*pooled(count), count)

    def test_lines_of_each_count(self):
        for count in COUNTS:
            wanted = ["trace version 1", 'schema "Poll" "worker":Varint "task":Varint "spent":U16']
            wanted += [f"event 256 {1000 * n + 2**25 * (n // 7)} Varint:{n % 8} Varint:{n ** 3} Varint:{n % 65536}"
                       for n in range(count)]
            trace = record_batch(numbers(count)[0])
            self.assertTrue(dump(trace) == "\n".join([*wanted, "end whole", ""]))
            wanted = [f'event "Poll" timestamp_ns={1000 * n + 2**25 * (n // 7)} "worker"=Varint:{n % 8} '
                      f'"task"=Varint:{n ** 3} "spent"=Varint:{n % 65536}' for n in range(count)]
            self.assertTrue(dump(trace, resolve=True) == "\n".join(["trace version 1", *wanted, "end whole", ""]))

    def test_texts_of_each_size(self):
        for size in SIZES:
            text = ("é" * size)[:size // 2] + "x" * (size % 2)
            self.assertEqual(len(text.encode()), size)
            for kind, value in ((STRING, text), (BYTES, text.encode()), (POOLED_STRING, text)):
                self.is_done(*one(kind, value, counted(text.encode())), 1)

    def test_stacks_of_each_size(self):
        for size in ADDRESSES:
            stack = tuple(2**64 - 1 - n for n in range(size))
            for kind in (STACK, POOLED_STACK):
                self.is_done(*one(kind, stack, addresses(stack)), 1)

    def test_each_type_after_its_tag(self):
        """What is read of a field stands after the tag of its type, also where another type has the same value. No
        clause says so."""
        small = {I64: 8, F64: 8, BOOL: 1, POOLED_STACK: 4, POOLED_STRING: 4, VARINT: 1, U8: 1, U16: 2, U32: 4}
        spelled = {kind: number(1, width) for kind, width in small.items()}
        spelled |= {kind: number(0, 4) for kind in (STRING, BYTES, STACK, STRING_MAP, LIST, MAP)}
        self.assertEqual(len(spelled), 15)
        for kind, raw in spelled.items():
            for of, value in ((kind, raw), (OPTIONAL | kind, b"\1" + raw), (OPTIONAL | kind, b"\0")):
                wanted = Wanted()
                wanted.event(wanted.schema("One", [("it", of)]), 7, [(of, value)])
                self.is_done(wanted.batch(), wanted, 1)

    def test_names_and_fields_of_each_size(self):
        for size in (0, 1, 255, 256, 4097, 65535):
            name = "n" * size
            batch, wanted = Batch(), Wanted()
            batch.add(Schema(name, [(name, VARINT)], [(0, name, name)]), 0, [1])
            wanted.event(wanted.schema(name, [(name, VARINT)], [(0, name, name)]), 0, [(VARINT, b"\1")])
            self.is_done(batch.bytes(), wanted, 1)
            fields, notes = [("", U16)] * size, [(65535, "k", "")] * size
            batch, wanted = Batch(), Wanted()
            batch.add(Schema("F", fields, notes), 0, [258] * size)
            wanted.event(wanted.schema("F", fields, notes), 0, [(U16, b"\2\1")] * size)
            self.is_done(batch.bytes(), wanted, 1)

    def test_schemas_to_the_most(self):
        """As many schemas as there are wire ids from 256 on, each under the number 0, and one more."""
        batch, wanted = bytearray(), Wanted()
        for n in range(65536 - 256):
            batch += b"\1\0\0" + named(str(n)) + number(0, 4)
            wanted.schema(str(n), [])
        self.is_done(bytes(batch), wanted, 0)
        with self.assertRaises(TraceError) as it:
            record_batch(bytes(batch + b"\1\0\0" + named("more") + number(0, 4)))
        self.assertEqual((it.exception.code, it.exception.place), (36, 65536 - 256))

    def test_more_annotations_than_a_record_counts(self):
        """All events before a schema gets more annotations than two bytes count are read, by any number at a time; what
        comes then is refused (TOO_LONG), though the trace reads whole."""
        wanted, note = Wanted(), number(0, 2) + named("k") + counted(b"v")
        wire_id = wanted.schema("A", [("n", VARINT)])
        wanted.event(wire_id, 1, [(VARINT, b"\1")])
        wanted.event(wire_id, 2, [(VARINT, b"\2")])
        trace = wanted.trace()
        for count in (65535, 1):
            trace += b"\6" + leb128(wire_id) + number(count, 2) + note * count
        self.assertEqual(check(trace), 2)
        one_more = len(wanted.trace()) + 1 + len(leb128(wire_id)) + 2 + 65535 * len(note)
        for most, before in ((ALL, b""), (2, b""), (1, read_batch(trace, most=1).state)):
            place = len(wanted.trace()) - 7 if before else 0
            found = read_batch(trace, before, most, place)
            self.assertEqual((found.events, found.stop), (1 if before else 2, None))
            self.assertEqual(place + found.length, one_more)
            with self.assertRaises(TraceError) as it:
                read_batch(trace, found.state, most, one_more)
            self.assertEqual(it.exception.code, 35)
        found = read_batch(trace, most=1)
        self.assertEqual((found.events, found.length, found.stop), (1, len(wanted.trace()) - 7, None))
        self.assertTrue(found.batch == b"".join(wanted.records[:2]))
        times = []
        with self.assertRaises(TraceError) as it:
            for event in gotymbe.read(trace):
                times.append(event.time)
        self.assertEqual((times, it.exception.code), ([1, 2], 35))

    def test_going_on_at_each_count(self):
        """Read by so many events at a time, the events are all, and each batch knows the schema."""
        for count, most in ((10, 1), (100, 1), (1000, 1), (1000, 999), (10000, 100), (100000, 9999)):
            batch, wanted = numbers(count)
            trace, place, state, read = record_batch(batch), 0, b"", []
            while place < len(trace):
                found = read_batch(trace, state, most, place)
                self.assertEqual(found.events, min(most, count - len(read)))
                self.assertTrue(found.batch == wanted.records[0] + b"".join(
                    wanted.records[1 + len(read):1 + len(read) + found.events]))
                self.assertEqual(check(found.state), 0)
                read += gotymbe._Bytes(found.batch).events()
                place, state = place + found.length, found.state
            self.assertEqual(len(read), count)

    def test_room_exactly_enough(self):
        """Room that is enough is filled, and no byte after it is touched; where it is one short, or none, nothing is
        written, and the room needed is told."""
        text = "x" * 10**6
        for batch, wanted in (numbers(1), numbers(1000), numbers(100000), one(STRING, text, counted(text.encode())),
                              one(POOLED_STACK, tuple(range(100000)), b"")):
            trace = wanted.trace()
            self.room(trace, "trace_record", batch, len(batch))
            lines = dump(trace).encode()
            self.room(lines, "trace_dump", trace, len(trace), False)
            found = read_batch(trace, most=ALL)
            self.assertTrue(found.batch == wanted.batch())
            self.room(found.batch + found.state, "trace_read", b"", 0, trace, len(trace), ALL)

    def room(self, wanted, name, *words):
        for size in (len(wanted), len(wanted) + 1, len(wanted) - 1, 0):
            room, report = ctypes.create_string_buffer(b"\xa5" * (size + 8), size + 8), gotymbe._Report()
            code = getattr(gotymbe._library, name)(*words, room, size, ctypes.byref(report))
            self.assertEqual(report.length + report.state, len(wanted))
            enough = size >= len(wanted)
            self.assertEqual(code, 0 if enough else SHORT_ROOM)
            filled = wanted if enough else b""
            self.assertTrue(room.raw == filled + b"\xa5" * (size + 8 - len(filled)))


if __name__ == "__main__":
    unittest.main()
