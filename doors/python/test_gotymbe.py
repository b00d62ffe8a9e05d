"""The Python door: events of every type, refusals, and all recorded traces (docs/RECORDINGS.md), read and written
again.

Run it at the top of the repository by doors/test."""
import glob
import importlib.machinery
import importlib.util
import os
import re
import struct
import unittest
import unittest.mock
from time import process_time

import gotymbe
from gotymbe import (BOOL, BYTES, F64, I64, LIST, MAP, POOLED_STACK, POOLED_STRING, STACK, STRING, STRING_MAP, U8, U16,
                     U32, VARINT, Batch, Schema, TraceError, check, dump, dump_with_status, optional, record,
                     record_batch)

TOP = os.path.join(os.path.dirname(os.path.abspath(__file__)), "..", "..")


def loaded(path, name):
    """A script as a module."""
    loader = importlib.machinery.SourceFileLoader(name, path)
    spec = importlib.util.spec_from_loader(name, loader)
    module = importlib.util.module_from_spec(spec)
    loader.exec_module(module)
    return module


reader = loaded(os.path.join(TOP, "tools", "second_reader"), "second_reader")

# each type with a value and how a resolved dump shows it (docs/FORMAT.md, "Dumps")
KINDS = [
    (I64, -3, "I64:-3"), (F64, 1.5, "F64:0x3ff8000000000000"), (BOOL, True, "Bool:true"),
    (STRING, "a\"b", 'String:"a\\x22b"'), (BYTES, b"\0\xff", 'Bytes:"\\x00\\xFF"'),
    (POOLED_STACK, (16, 255), "StackFrames:[0x10,0xff]"), (POOLED_STRING, "GET /", 'String:"GET /"'),
    (STACK, (1,), "StackFrames:[0x1]"), (VARINT, 2**64 - 1, "Varint:18446744073709551615"),
    (STRING_MAP, {"k": "v"}, 'StringMap:{"k"="v"}'), (U8, 255, "Varint:255"), (U16, 65535, "Varint:65535"),
    (U32, 2**32 - 1, "Varint:4294967295"), (LIST, [(VARINT, 1), (STRING, "x")], 'List:[Varint:1,String:"x"]'),
    (MAP, [((BOOL, False), (LIST, []))], "Map:{Bool:false=List:[]}"),
]


class Copied(reader.Trace):
    """A trace whose events are put into batches: the bytes of each field after the tag of its type. A header begins a
    batch, and so does a second schema of a name, with the texts and stacks that are known there."""

    def __init__(self, data):
        self.batches = []
        super().__init__(data, "borrowed")
        while self.at < len(data) and self.conflict is None:
            try:
                self.frame()
            except reader.NoFrame:
                break

    def forget(self):
        super().forget()
        self.pools = bytearray()
        self.begin()

    def begin(self):
        self.numbers, self.named = {}, {}
        self.batches.append(bytearray(self.pools))

    def pool(self, record):
        self.pools += record
        self.batches[-1] += record

    def frame(self):
        begin = self.at
        super().frame()
        if self.data[begin] == 3:
            at, self.at = self.at, begin + 1
            for _ in range(self.number(4)):
                self.pool(b"\x03" + self.take(4) + gotymbe._counted(self.sized(4)))
            self.at = at
        if self.data[begin] == 4:
            at, self.at = self.at, begin + 1
            for _ in range(self.number(4)):
                key, count = self.take(4), self.take(4)
                self.pool(b"\x04" + key + count + self.take(8 * int.from_bytes(count, "little")))
            self.at = at

    def event(self):
        wire_id = self.number(2)
        if wire_id not in self.types:
            raise reader.NoFrame
        name, fields, timed = self.types[wire_id]
        time = self.base + (self.number(3) if timed else 0)
        tags = {kind: tag for tag, kind in reader.TYPES.items()}
        values = b""
        for _, kind in fields:
            begin = self.at
            self.field(kind)
            values += bytes([tags[kind]]) + self.data[begin:self.at]
        if time >= 2**64:
            raise reader.NoFrame
        self.base = time
        if self.named.get(name, fields) != fields:
            self.begin()
        if self.numbers.get(wire_id) != (name, fields):
            self.numbers[wire_id] = name, fields
            self.named[name] = fields
            schema = Schema(name.decode(), [(field.decode(), tags[kind]) for field, kind in fields])
            self.batches[-1] += schema.record(wire_id)
        self.batches[-1] += b"\x02" + struct.pack("<HQH", wire_id, time, len(fields)) + values


class Shown(gotymbe._Bytes):
    """A batch whose values are read as the words of a dump (docs/FORMAT.md, "Dumps")."""

    def value(self, kind, found):
        if kind in (VARINT, U8, U16, U32):
            return f"Varint:{super().value(kind, found)}"
        if kind == I64:
            return f"I64:{super().value(kind, found)}"
        if kind == F64:
            return f"F64:0x{self.number(8):016x}"
        if kind == BOOL:
            return f"Bool:{str(super().value(kind, found)).lower()}"
        if kind in (STRING, BYTES):
            return f"{'String' if kind == STRING else 'Bytes'}:{reader.quoted(self.counted())}"
        if kind == POOLED_STRING:
            return f"String:{reader.quoted((super().value(kind, found) or '').encode())}"
        if kind in (STACK, POOLED_STACK):
            return f"StackFrames:{reader.listed(super().value(kind, found) or ())}"
        if kind == STRING_MAP:
            pairs = super().value(kind, found)
            return f"StringMap:{{{','.join(f'{reader.quoted(key)}={reader.quoted(text)}' for key, text in pairs)}}}"
        items = super().value(kind, found)
        if kind == LIST:
            return f"List:[{','.join(items)}]"
        return f"Map:{{{','.join(f'{key}={value}' for key, value in items)}}}"

    def lines(self):
        for event in self.events():
            name = reader.quoted(event.name.encode())
            if event.unresolved:
                yield f"event {name} unresolved {event.unresolved}"
            else:
                fields = zip(event.schema.fields, event.row)
                shown = "".join(f" {reader.quoted(field.encode())}={value or 'None'}" for (field, _), value in fields)
                yield f"event {name} timestamp_ns={event.time}{shown}"


def read_lines(data, most):
    """The lines of a resolved dump, but for the place of a conflict, by batches of so many events."""
    try:
        found = gotymbe.read_batch(data, b"", most)
    except TraceError as error:
        assert error.code == 58, error
        return ["no header"]
    lines, place = [f"trace version {found.version}"], 0
    while True:
        assert found.events <= most
        lines += Shown(found.batch).lines()
        place += found.length
        if found.stop:
            return [*lines, "end conflict" if found.stop.code == 57 else f"end stopped at {place}"]
        if place == len(data):
            return [*lines, "end whole"]
        found = gotymbe.read_batch(data, found.state, most, place)


class Doors(unittest.TestCase):
    def test_each_type(self):
        kinds = KINDS + [(optional(kind), value, line) for kind, value, line in KINDS]
        kinds += [(optional(kind), None, "None") for kind, _, _ in KINDS]
        schema = Schema("All", [(f"f{at}", kind) for at, (kind, _, _) in enumerate(kinds)], [(0, "unit", "ns")])
        trace = record([(schema, 5, [value for _, value, _ in kinds])])
        self.assertEqual(check(trace), 1)
        [event] = gotymbe.read(trace)
        read_back = {STRING_MAP: [(b"k", b"v")], LIST: [1, "x"], MAP: [(False, [])]}
        self.assertEqual((event.name, event.time), ("All", 5))
        wanted = [None if value is None else read_back.get(kind & 0x7F, value) for kind, value, _ in kinds]
        self.assertEqual((event.row, event.values), (wanted, {f"f{at}": value for at, value in enumerate(wanted)}))
        shown = " ".join(f'"f{at}"={line}' for at, (_, _, line) in enumerate(kinds))
        self.assertEqual(dump(trace, True), f'trace version 1\nevent "All" timestamp_ns=5 {shown}\nend whole\n')

    def test_times_and_joined_traces(self):
        tick = Schema("Tick", [])
        times = [0, 2**24 - 1, 2**24, 3, 2**64 - 1, 0]
        traces = record([(tick, time, []) for time in times]) + record([(tick, 7, [])])
        wanted = "".join(f'event "Tick" timestamp_ns={time}\n' for time in [*times, 7])
        self.assertEqual(dump(traces, True), f"trace version 1\n{wanted}end whole\n")

    def test_refusals(self):
        schema = Schema("A", [("a", U8)])

        def refused(batch):
            with self.assertRaises(TraceError) as it:
                record_batch(batch)
            return it.exception.code, it.exception.place, it.exception.detail

        defined = schema.record(1)
        event = b"\x02\x01\0" + bytes(8)
        self.assertEqual(refused(b"\x09"), (16, 0, 0))
        self.assertEqual(refused(defined + defined[:-1]), (16, 1, 0))
        self.assertEqual(refused(event + b"\x01\0\x09\x01"), (17, 0, 0))
        self.assertEqual(refused(defined + event + b"\0\0"), (33, 1, 0))
        self.assertEqual(refused(defined + event + b"\x01\0\x0c\0\x01"), (34, 1, 0))
        self.assertEqual(refused(defined + Schema("A", []).record(2)), (32, 1, 0))
        # a value that does not fit, and then no record: an event that names no schema, and a byte
        misfit, unknown = event + b"\x01\0\x0c\0\x01", b"\x02\x02\0" + bytes(10)
        self.assertEqual(refused(defined + misfit + 2 * unknown), (17, 2, 0))
        self.assertEqual(refused(defined + misfit + defined + unknown), (17, 3, 0))
        self.assertEqual(refused(defined + misfit + b"\x09" + unknown), (16, 2, 0))
        with self.assertRaises(TraceError) as it:
            list(gotymbe.read(record([(schema, 1, [1])])[:-1]))
        self.assertLess(it.exception.length, it.exception.place + 1)

    def test_ample(self):
        """Each size of what takes memory, with ample memory: no call wants more."""
        sizes = (0, 1, 255, 256, 4097, 65536)
        sized = [(STRING, lambda n: "x" * n), (BYTES, bytes), (STACK, range), (POOLED_STRING, lambda n: "y" * n),
                 (POOLED_STACK, lambda n: tuple(range(n))), (STRING_MAP, lambda n: [(b"", b"")] * n),
                 (LIST, lambda n: [(BOOL, True)] * n), (MAP, lambda n: [((U8, 1), (U8, 2))] * n)]
        for kind, made in sized:
            schema = Schema("S", [("v", kind)])
            for size in sizes:
                trace = record([(schema, 1, [made(size)])])
                self.assertEqual(check(trace), 1)
                [event] = gotymbe.read(trace)
                self.assertEqual(len(event.values["v"]), size)
        for count in (0, 1, 255, 256, 4097, 65535):
            schema = Schema("C", [(f"f{at}", BOOL) for at in range(count)], [(0, "k", "v")] * count)
            trace = record([(schema, 1, [True] * count)])
            [event] = gotymbe.read(trace)
            self.assertEqual((len(event.values), len(event.schema.annotations)), (count, count))
        tick = Schema("Tick", [("n", VARINT)])
        for count in (0, 1, 256, 65536, 1000001):
            batch = tick.record(0) + b"".join(
                b"\x02\0\0" + struct.pack("<QHB", at, 1, VARINT) + gotymbe._leb128(at) for at in range(count))
            trace = record_batch(batch)
            self.assertEqual(check(trace), count)
            self.assertEqual(dump(trace).count("\nevent "), count)
            found = gotymbe.read_batch(trace, most=2**64 - 1)
            self.assertEqual((found.events, found.length, found.stop), (count, len(trace), None))

    @staticmethod
    def heads(lines):
        """The names and times of the lines of resolved events."""
        events = [re.match(r'event "([^"]*)" timestamp_ns=(\d+)', line) for line in lines]
        byte = re.compile(r"\\x([0-9A-F]{2})")
        return [(byte.sub(lambda it: chr(int(it[1], 16)), it[1]).encode("latin-1").decode(), int(it[2]))
                for it in events if it]

    def test_read_in_batches(self):
        """Each count of events at a time: the events, and the schemas, texts and stacks that each batch knows."""
        for notes in ((), ((0, "unit", "ns"),)):
            self.check_batches(notes)

    def check_batches(self, notes):
        """The same of a schema with these annotations."""
        fields = [("n", VARINT), ("at", POOLED_STRING), ("stack", POOLED_STACK)]
        schema = Schema("Poll", fields, list(notes))
        rows = [(n, "ab"[n % 2] * n, tuple(range(n % 5))) for n in range(50)]
        trace = record([(schema, 2**24 * n, row) for n, row in enumerate(rows)])
        for most in (1, 2, 7, 49, 50, 51, 2**64 - 1):
            place, state, read = 0, b"", []
            while place < len(trace):
                found = gotymbe.read_batch(trace, state, most, place)
                read += gotymbe._Bytes(found.batch).events()
                place, state = place + found.length, found.state
                self.assertLessEqual(found.events, most)
            self.assertEqual([(it.time, tuple(it.row)) for it in read],
                             [(2**24 * n, row) for n, row in enumerate(rows)])
            self.assertEqual(read[-1].schema.annotations, notes)
            # recorded again, also where annotations are told after their schema
            again = list(gotymbe._Bytes(gotymbe.read_batch(record_batch(found.batch)).batch).events())
            self.assertEqual([(it.time, tuple(it.row), it.schema.annotations) for it in again],
                             [(it.time, tuple(it.row), notes) for it in read[-found.events:]])

    def test_schemas_told_again(self):
        """A schema right after another of its number: one where name and fields are the same, and else two."""
        bare, noted = Schema("A", [("n", VARINT)]), Schema("A", [("n", VARINT)], [(0, "unit", "ns")])
        more = Schema("A", [("n", VARINT)], [(0, "unit", "ns"), (0, "kind", "counter")])
        event = b"\x02" + struct.pack("<HQH", 1, 7, 1) + b"\x09\x05"
        for last, notes in ((bare, ()), (noted, noted.annotations), (more, more.annotations)):
            for before in ((), (bare,), (noted, bare), (bare, noted, more)):
                trace = record_batch(b"".join(it.record(1) for it in (*before, last)) + event)
                self.assertEqual(trace, record([(last, 7, [5])]))
                self.assertEqual([tuple(it.schema.annotations) for it in gotymbe.read(trace)], [tuple(notes)])
        other = Schema("A", [("m", VARINT)])
        for records, place in ((bare.record(1) + other.record(1), 1), (bare.record(1) + noted.record(2), 1),
                               (bare.record(1) + event + noted.record(1), 2)):
            with self.assertRaises(TraceError) as it:
                record_batch(records)
            self.assertEqual((it.exception.code, it.exception.place), (32, place))
        two = record_batch(bare.record(1) + Schema("B", [("n", VARINT)]).record(1) + event)
        self.assertEqual([it.name for it in gotymbe.read(two)], ["B"])

    def test_pools_of_batches(self):
        """Texts and stacks of one length are told apart, and told again in the next batch."""
        schema = Schema("S", [("at", POOLED_STRING), ("stack", POOLED_STACK)])
        rows = [("ab", (1, 2)), ("cd", (3, 4)), ("ab", (3, 4)), ("cd", (1, 2)), ("", ())]
        batch, traces = Batch(), b""
        for _ in range(2):
            for time, row in enumerate(rows):
                batch.add(schema, time, row)
            traces += record_batch(batch.bytes())
            batch.clear()
        self.assertEqual([tuple(it.row) for it in gotymbe.read(traces)], rows + rows)
        self.assertEqual(traces, 2 * record([(schema, time, row) for time, row in enumerate(rows)]))

    def test_values_of_a_wrong_kind(self):
        """Each raises what Python raises, and nothing of the event is in the batch."""
        for kind, value in ((POOLED_STRING, 5), (POOLED_STACK, 5), (U8, "x"), (STRING, 5), (STACK, 5), (I64, "x"),
                            (VARINT, -1), (I64, 2**63), (LIST, 5), (STRING_MAP, 5), (STRING_MAP, {"a": 5}), (BYTES, 5),
                            (F64, "x"), (MAP, [5]), (STACK, [-1]), (VARINT, 2**64), (VARINT, 2**70), (U8, 2**64),
                            (U16, 2**64 + 5), (U32, 2**64), (optional(U32), 2**64 + 5), (optional(VARINT), -1),
                            (LIST, [(VARINT, 2**64)]), (MAP, [((U8, 2**64), (U8, 1))]),
                            (MAP, [((U8, 1), (U16, 2**64))])):
            batch = Batch()
            batch.add(Schema("A", [("a", U8)]), 1, [7])
            before = batch.bytes()
            with self.assertRaises((TypeError, ValueError, struct.error, OverflowError, AttributeError)):
                batch.add(Schema("B", [("b", kind)]), 2, [value])
            self.assertEqual(batch.bytes(), before)

    def test_many_schemas(self):
        """More schemas in a batch than a byte counts."""
        schemas = [Schema(f"S{n}", [(f"f{n}", VARINT)]) for n in range(300)]
        events = [(schema, n, [7 * n]) for n, schema in enumerate(schemas * 2)]
        self.assertEqual([(it.name, it.time, it.values) for it in gotymbe.read(record(events))],
                         [(schema.name, time, {schema.fields[0][0]: row[0]}) for schema, time, row in events])

    def test_schemas_that_are_not_kept(self):
        """Of schemas that nothing else holds each is told by its own name, though one may come to lie where another
        lay."""
        trace = record((Schema(f"S{n}", []), n, []) for n in range(300))
        self.assertEqual([(it.name, it.time) for it in gotymbe.read(trace)], [(f"S{n}", n) for n in range(300)])

    def test_schemas_that_are_alike(self):
        """They are one, whatever objects they are: so many that no number would be left."""
        trace = record((Schema("A", [("n", VARINT)]), n, [n]) for n in range(65537))
        self.assertEqual(trace, record([(Schema("A", [["n", VARINT]]), n, [n]) for n in range(65537)]))
        self.assertEqual((check(trace), trace.count(b"TRC\0")), (65537, 1))
        again = record((it.schema, it.time, it.row) for it in gotymbe.read(trace, 1))
        self.assertEqual(again, trace)
        one, each, schema = Batch(), Batch(), Schema("A", [("n", VARINT)])
        for n in range(3):
            one.add(schema, n, [n])
            each.add(Schema("A", [("n", VARINT)]), n, [n])
        self.assertEqual(one.bytes(), each.bytes())

    def test_more_schemas_than_wire_ids(self):
        """A schema for which a trace has no wire id left begins another: ids from 256 on are given to schemas."""
        ids, batch = 65536 - 256, Batch()
        schemas = [Schema(f"S{n}", []) for n in range(ids)]
        for schema in schemas:
            batch.add(schema, 1, [])
        new = Schema("new", [])
        self.assertEqual([batch.takes(it) for it in (schemas[7], Schema("S7", []), new)], [True, True, False])
        self.assertEqual(check(record_batch(batch.bytes())), ids)
        batch.add(new, 1, [])
        with self.assertRaises(TraceError) as it:
            record_batch(batch.bytes())
        self.assertEqual((it.exception.code, it.exception.place), (36, 2 * ids))
        trace = record([*((it, 1, []) for it in schemas), (schemas[7], 2, []), (new, 3, [])])
        self.assertEqual((check(trace), trace.count(b"TRC\0")), (ids + 2, 2))
        self.assertEqual([(it.name, it.time) for it in gotymbe.read(trace)][ids:], [("S7", 2), ("new", 3)])

    def test_many_texts_in_time(self):
        """What is known before a batch is told again by it: so many texts take time with their number, and not with
        its square."""
        count, real, known = 160_000, gotymbe.read_batch, []

        def watched(trace, state, most, place):
            known.append(len(state))
            return real(trace, state, most, place)

        schema = Schema("A", [("at", POOLED_STRING)])
        trace, begun = record((schema, n, [str(n)]) for n in range(count)), process_time()
        with unittest.mock.patch.object(gotymbe, "read_batch", watched):
            self.assertEqual(sum(it.row == [str(it.time)] for it in gotymbe.read(trace)), count)
        self.assertLess(process_time() - begun, 30)
        self.assertLess(sum(known), 4 * len(trace))

    def test_cleared(self):
        batch, first, second = Batch(), Schema("A", [("a", U8)]), Schema("A", [])
        for _ in range(2):
            batch.add(first, 1, [7])
            self.assertEqual((batch.events, batch.takes(first), batch.takes(second)), (1, True, False))
            batch.clear()
            self.assertEqual((batch.events, batch.takes(second), batch.bytes()), (0, True, b""))

    def test_where_a_trace_is_torn(self):
        """The place counts from the beginning of the trace, by whatever number of events it is read."""
        torn = record([(Schema("A", [("n", VARINT)]), n, [n]) for n in range(50)]) + b"\x02\0\x01\0"
        with self.assertRaises(TraceError) as it:
            check(torn)
        wanted = it.exception
        self.assertEqual((wanted.code, wanted.length), (50, len(torn) - 4))
        for most in (1, 7, 49, 50, 51):
            with self.assertRaises(TraceError) as it:
                list(gotymbe.read(torn, most))
            found = it.exception
            self.assertEqual((found.code, found.length, found.place, found.detail),
                             (wanted.code, wanted.length, wanted.place, wanted.detail))

    def test_an_error_in_a_later_batch(self):
        """It tells the place where that batch began: before the annotations that are more than a record counts."""
        trace, note = record([(Schema("A", []), 1, []), (Schema("A", []), 2, [])]), b"\0\0\x01\0k\0\0\0\0"
        most, more = (b"\x06\x80\x02" + struct.pack("<H", count) + count * note for count in (65535, 1))
        read = []
        with self.assertRaises(TraceError) as it:
            for event in gotymbe.read(trace + most + more + b"\x02\0\1\0\0\0"):
                read.append(event.time)
        before, error = len(trace + most), it.exception
        self.assertEqual(read, [1, 2])
        self.assertEqual((error.code, error.length, error.place, error.detail), (35, before, before, 0))

    def test_details_of_errors(self):
        """What an error speaks of: the wire id 257, which has no schema, and a byte 9, with which no frame begins. And
        its text."""
        whole = record([(Schema("A", []), 1, [])])
        for rest, code, detail, text in ((b"\2\1\1\0\0\0", 49, 257, "a wire id has no schema"),
                                         (b"\x09", 56, 9, "no frame stands there")):
            for reads in (check, lambda trace: list(gotymbe.read(trace))):
                with self.assertRaises(TraceError) as it:
                    reads(whole + rest)
                error = it.exception
                self.assertEqual((error.code, error.length, error.detail), (code, len(whole), detail))
                self.assertEqual(str(error), f"{text} (code {code}, place {error.place}, detail {detail})")
        self.assertEqual(str(TraceError(34, 0, 3, 7)), "a value does not fit its type (code 34, place 3, detail 7)")
        self.assertEqual(str(TraceError(99, 5, 8, 9)), "99 (code 99, place 8, detail 9)")

    def test_places_and_counts(self):
        """Places past a trace, and counts that are none."""
        trace = record([(Schema("A", []), 1, [])])
        for most, place in ((1, len(trace) + 1), (1, 10**12), (1, -1), (2**64, 0), (-1, 0)):
            with self.assertRaises(ValueError):
                gotymbe.read_batch(trace, b"", most, place)
        for most in (0, -1, 2**64):
            with self.assertRaises(ValueError):
                list(gotymbe.read(trace, most))
        found = gotymbe.read_batch(trace, b"", 0)
        self.assertEqual((found.events, found.stop), (0, None))
        last = gotymbe.read_batch(trace, gotymbe.read_batch(trace).state, 1, len(trace))
        self.assertEqual((last.events, last.length, last.stop), (0, 0, None))

    def test_what_holds_bytes(self):
        """Traces, batches and states may be of any type that holds bytes, and of no other."""
        batch = Batch()
        batch.add(Schema("A", [("n", VARINT)]), 1, [7])
        batch.add(Schema("A", [("n", VARINT)]), 2, [8])
        trace = record_batch(batch.bytes())
        for made in (bytearray, memoryview, lambda raw: memoryview(b"x" + raw)[1:]):
            self.assertEqual(record_batch(made(batch.bytes())), trace)
            self.assertEqual((check(made(trace)), dump(made(trace))), (2, dump(trace)))
            self.assertEqual([(it.time, it.row) for it in gotymbe.read(made(trace), 1)], [(1, [7]), (2, [8])])
            first = gotymbe.read_batch(made(trace), made(b""), 1)
            last = gotymbe.read_batch(made(trace), made(first.state), 1, first.length)
            self.assertEqual((last.events, first.length + last.length), (1, len(trace)))
        for call in (record_batch, check, dump, gotymbe.read_batch, lambda it: list(gotymbe.read(it))):
            for other in ("TRC", 5, None):
                with self.assertRaises(TypeError):
                    call(other)

    def test_nothing_to_read(self):
        for state, code in ((b"", 58), (b"none", 60), (record([])[:4], 60), (record([(Schema("A", []), 1, [])]), 60)):
            with self.assertRaises(TraceError) as it:
                gotymbe.read_batch(b"no trace", state)
            self.assertEqual(it.exception.code, code)

    def test_recorded_traces(self):
        seen = 0
        for path in sorted(glob.glob(os.path.join(TOP, "crates/trace_replay/data/*.txt"))):
            for name, parts in reader.recordings(path):
                data = bytes.fromhex(parts["bytes"][0])
                for resolve, part in ((False, "dump"), (True, "resolve")):
                    if part in parts:
                        lines, status = dump_with_status(data, resolve)
                        self.assertEqual(lines.decode().split("\n"), [*parts[part], ""], (path, name, part))
                        end = parts[part][-1].split()
                        if resolve:
                            wanted = [*parts[part][:-1], parts[part][-1].split(" at ")[0]
                                      if end[1] == "conflict" else parts[part][-1]]
                            for most in (2**64 - 1, 1, 3):
                                self.assertEqual(read_lines(data, most), wanted, (path, name, most))
                        if resolve and status == 0:
                            self.assertEqual([(it.name, it.time) for it in gotymbe.read(data) if not it.unresolved],
                                             self.heads(wanted), (path, name))
                        self.assertEqual(status, {"header": 1, "whole": 0, "stopped": 2, "conflict": 3}[end[1]])
                        seen += 1
                # (checked by all readers: to that of borrowed values bad UTF-8 is no frame)
                lines = parts.get("borrowed", parts.get("dump", []))
                end = lines[-1].split() if lines else []
                if end[:2] == ["end", "whole"]:
                    self.assertEqual(check(data), sum(it.startswith("event ") for it in lines), (path, name))
                elif end:
                    with self.assertRaises(TraceError) as it:
                        check(data)
                    if end[1] == "stopped":
                        self.assertEqual(it.exception.length, int(end[3]), (path, name))
                    else:
                        self.assertEqual(it.exception.code, 57 if end[1] == "conflict" else 58, (path, name))
        self.assertGreater(seen, 1000)

    def test_recorded_events_again(self):
        """The events of each recorded trace, up to where it ends: none is refused."""
        written, scripts, wrong = 0, 0, []
        for path in sorted(glob.glob(os.path.join(TOP, "crates/trace_replay/data/*.txt"))):
            for name, parts in reader.recordings(path):
                lines = parts.get("resolve", ["no header"])
                if lines == ["no header"]:
                    continue
                copied = Copied(bytes.fromhex(parts["bytes"][0]))
                try:
                    trace = b"".join(record_batch(bytes(batch)) for batch in copied.batches[1:])
                    if dump(trace, True).split("\n") != ["trace version 1", *lines[1:-1], "end whole", ""]:
                        wrong.append(f"{name} differs")
                except TraceError as error:
                    wrong.append(f"{name}: {error}")
                written, scripts = written + 1, scripts + ("script" in parts)
        self.assertEqual(wrong, [])
        self.assertGreater(scripts, 400)
        self.assertGreater(written, scripts)

    def test_schemas_of_one_name(self):
        """Two schemas of one name, in turn: the lines are worked out by hand from docs/FORMAT.md."""
        first, second, other = Schema("A", [("a", U8)]), Schema("A", [("b", BOOL)]), Schema("B", [])
        noted = Schema("A", [("a", U8)], [(0, "unit", "ns")])
        events = [(first, 1, [7]), (other, 2, []), (second, 3, [True]), (first, 4, [8]),
                  (Schema("A", [("a", U8)]), 5, [9]), (noted, 6, [1])]
        trace = record(events)
        shown = ('"A" timestamp_ns=1 "a"=Varint:7', '"B" timestamp_ns=2', '"A" timestamp_ns=3 "b"=Bool:true',
                 '"A" timestamp_ns=4 "a"=Varint:8', '"A" timestamp_ns=5 "a"=Varint:9',
                 '"A" timestamp_ns=6 "a"=Varint:1')
        self.assertEqual(dump(trace, True), "".join(f"{line}\n" for line in (
            "trace version 1", *(f"event {it}" for it in shown), "end whole")))
        # (a header for each turn to another schema of the name)
        self.assertEqual(trace.count(b"TRC\0"), 4)
        batch = Batch()
        for schema, time, values in events[:3]:
            self.assertEqual(batch.takes(schema), schema is not second)
            batch.add(schema, time, values)
        with self.assertRaises(TraceError) as it:
            record_batch(batch.bytes())
        self.assertEqual((it.exception.code, it.exception.place), (32, 4))


if __name__ == "__main__":
    unittest.main()
