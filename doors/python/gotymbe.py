"""Traces of timestamped events, from Python: the calls of the proved library `libgotymbe` (docs/DOORS.md).

    schema = Schema("Poll", [("worker", VARINT), ("site", POOLED_STRING), ("left", optional(U8))])
    data = record([(schema, 1000, [3, "GET /", None]), (schema, 2500, [4, "GET /", 7])])
    check(data)
    for event in read(data):
        print(event.time, event.name, event.values)

It looks for the library in the environment variable GOTYMBE_LIBRARY, and else beside this file.
"""
import ctypes
import os
import struct

(I64, F64, BOOL, STRING, BYTES, POOLED_STACK, POOLED_STRING, STACK, VARINT, STRING_MAP, U8, U16, U32, LIST,
 MAP) = range(1, 16)
OPTIONAL = 0x80

# what a call answers (docs/DOORS.md, "Errors")
DONE, SHORT_ROOM, OUT_OF_MEMORY, NO_RECORD, UNKNOWN_SCHEMA = 0, 1, 2, 16, 17
(CONFLICT, VALUE_COUNT, MISFIT, TOO_LONG, IDS_USED_UP, SLOT_TAKEN, SLOT_UNTIMED, BYTE_COUNT, FAILED) = range(32, 41)
(TRUNCATED_EVENT, UNKNOWN_TYPE, TRUNCATED_DELTA, TIME_OVERFLOW, TRUNCATED_PREFIX, TRUNCATED_OPTIONAL, TRUNCATED_VALUE,
 TRUNCATED_RESET, NO_FRAME, SCHEMA_CONFLICT, NO_HEADER) = range(48, 59)
NO_STATE = 60
STOPS = range(TRUNCATED_EVENT, NO_HEADER)  # why no frame stands after what was read
NAMES = {
    OUT_OF_MEMORY: "out of memory", NO_RECORD: "no record of a batch stands there",
    UNKNOWN_SCHEMA: "no schema has this number", CONFLICT: "a schema of this name has other fields or annotations",
    VALUE_COUNT: "not as many values as fields", MISFIT: "a value does not fit its type",
    TOO_LONG: "a length is past its width", IDS_USED_UP: "no id is left", SLOT_TAKEN: "a slot is taken",
    SLOT_UNTIMED: "a slot has no times", BYTE_COUNT: "too many bytes", FAILED: "the encoder has failed",
    TRUNCATED_EVENT: "an event is cut", UNKNOWN_TYPE: "a wire id has no schema", TRUNCATED_DELTA: "a delta is cut",
    TIME_OVERFLOW: "a time is past 64 bits", TRUNCATED_PREFIX: "the presence byte of a field is cut",
    TRUNCATED_OPTIONAL: "an optional field is no value of its type",
    TRUNCATED_VALUE: "a field is no value of its type", TRUNCATED_RESET: "a reset is cut",
    NO_FRAME: "no frame stands there", SCHEMA_CONFLICT: "a wire id stands for another schema",
    NO_HEADER: "no header stands there", 59: "too many bytes", NO_STATE: "no state stands there",
}
MOST_SCHEMAS = 65_280  # of a batch: as many wire ids does an encoder give to schemas


def optional(kind):
    """The type of a field of this type that may be absent."""
    return kind | OPTIONAL


class TraceError(Exception):
    """Why a batch is refused (`place` is its record) or a trace does not read whole (`place` is in bytes)."""

    def __init__(self, code, length, place, detail):
        super().__init__(f"{NAMES.get(code, code)} (code {code}, place {place}, detail {detail})")
        self.code, self.length, self.place, self.detail = code, length, place, detail

    def moved(self, begin):
        """The same, of a trace that begins so many bytes before."""
        return TraceError(self.code, begin + self.length, begin + self.place, self.detail)


class _Report(ctypes.Structure):
    _fields_ = [("length", ctypes.c_size_t), ("state", ctypes.c_size_t), ("read", ctypes.c_size_t),
                ("place", ctypes.c_size_t), ("detail", ctypes.c_size_t), ("events", ctypes.c_uint64),
                ("version", ctypes.c_uint8)]


def _load():
    path = (os.environ.get("GOTYMBE_LIBRARY")
            or os.path.join(os.path.dirname(os.path.abspath(__file__)), "libgotymbe.so"))
    library = ctypes.CDLL(path)
    size, report = ctypes.c_size_t, ctypes.POINTER(_Report)
    library.trace_record.argtypes = [ctypes.c_char_p, size, ctypes.c_char_p, size, report]
    library.trace_check.argtypes = [ctypes.c_char_p, size, report]
    library.trace_read.argtypes = [ctypes.c_char_p, size, ctypes.c_void_p, size, ctypes.c_uint64, ctypes.c_char_p, size,
                                   report]
    library.trace_dump.argtypes = [ctypes.c_char_p, size, ctypes.c_bool, ctypes.c_char_p, size, report]
    for call in (library.trace_record, library.trace_check, library.trace_read, library.trace_dump):
        call.restype = ctypes.c_uint32
    return library


_library = _load()


def _called(call, guess):
    """What a call answers, reports and puts into room: `guess` bytes are tried, and then as many as it needs."""
    report = _Report()
    room = ctypes.create_string_buffer(guess)
    code = call(room, guess, ctypes.byref(report))
    if code == SHORT_ROOM:
        guess = report.length + report.state
        room = ctypes.create_string_buffer(guess)
        code = call(room, guess, ctypes.byref(report))
    return code, report, ctypes.string_at(room, report.length + report.state) if code in (DONE, *STOPS) else b""


def _in_room(call, guess):
    """What a call puts into room, and its detail."""
    code, report, room = _called(call, guess)
    if code != DONE:
        raise TraceError(code, report.length, report.place, report.detail)
    return room, report.detail


def _number(n, width):
    return n.to_bytes(width, "little")


def _name(text):
    raw = text.encode()
    return _number(len(raw), 2) + raw


def _held(value):
    """Bytes as they are, and a copy of what else holds bytes. (`bytes` would make as many zeros of a number.)"""
    return value if isinstance(value, bytes) else bytes(memoryview(value))


def _raw(value):
    """The bytes of a text, or of what holds bytes."""
    return value.encode() if isinstance(value, str) else _held(value)


def _counted(value):
    raw = _raw(value)
    return _number(len(raw), 4) + raw


def _leb128(n):
    if n >> 64:
        raise OverflowError(f"{n} is no number of 64 bits")
    out = bytearray()
    while n >= 0x80:
        out.append(n & 0x7F | 0x80)
        n >>= 7
    out.append(n)
    return bytes(out)


def _addresses(frames):
    return _number(len(frames), 4) + b"".join(_number(it, 8) for it in frames)


class Schema:
    """A schema: its name, its fields as pairs of a name and a type, annotations as (field index, key, value)."""

    def __init__(self, name, fields, annotations=()):
        self.name, self.fields, self.annotations = name, tuple(fields), tuple(annotations)

    def record(self, number):
        """The record that defines it under a number."""
        return (b"\x01" + _number(number, 2) + _name(self.name) + _number(len(self.fields), 2)
                + b"".join(_name(name) + bytes([kind]) for name, kind in self.fields)
                + _number(len(self.annotations), 2)
                + b"".join(_number(at, 2) + _name(key) + _counted(value) for at, key, value in self.annotations))


class Batch:
    """A batch that is gathered: events of schemas, whose texts and stacks are pooled once each. Schemas that are alike
    are one in it, and there is one of each name (`takes`)."""

    def __init__(self):
        self.clear()

    def clear(self):
        """No records."""
        self._bytes, self._numbers, self._seen, self._named = bytearray(), {}, {}, set()
        self._texts, self._stacks, self.events = {}, {}, 0

    def takes(self, schema):
        """Whether no other schema of its name stands in the batch (else the batch with it is refused, CONFLICT), and it
        is one of at most 65,280 (else IDS_USED_UP)."""
        return (id(schema) in self._seen or schema.record(0) in self._numbers
                or schema.name not in self._named and len(self._numbers) < MOST_SCHEMAS)

    def _number_of(self, schema):
        """The number of a schema, or of one that is alike; of a new one the record is put before it."""
        if id(schema) not in self._seen:
            shape, number = schema.record(0), len(self._numbers)
            if shape not in self._numbers:
                self._bytes += schema.record(number)
                self._numbers[shape] = number
                self._named.add(schema.name)
            # (kept beside its number, so that no other schema gets its identity)
            self._seen[id(schema)] = self._numbers[shape], schema
        return self._seen[id(schema)][0]

    def add(self, schema, time, values):
        """An event of the schema at a time in nanoseconds. A value of `POOLED_STRING` is a text, one of
        `POOLED_STACK` a tuple of addresses."""
        if len(values) != len(schema.fields):
            raise ValueError(f"{len(values)} values for {len(schema.fields)} fields")
        spelled = b"".join(self._field(kind, value) for (_, kind), value in zip(schema.fields, values))
        number = self._number_of(schema)
        self._bytes += b"\x02" + _number(number, 2) + _number(time, 8) + _number(len(values), 2) + spelled
        self.events += 1

    def _pooled(self, pool, kind, key, raw):
        if key not in pool:
            pool[key] = len(pool)
            self._bytes += bytes([kind]) + _number(pool[key], 4) + raw
        return pool[key]

    def _field(self, kind, value):
        if value is None:
            return bytes([OPTIONAL | I64, 0])
        plain = kind & 0x7F
        if plain == POOLED_STRING:
            raw = _raw(value)
            return bytes([POOLED_STRING]) + _number(self._pooled(self._texts, 3, raw, _counted(raw)), 4)
        if plain == POOLED_STACK:
            return bytes([POOLED_STACK]) + _number(self._pooled(self._stacks, 4, tuple(value), _addresses(value)), 4)
        return spelled(plain, value)

    def bytes(self):
        """The batch."""
        return bytes(self._bytes)


def spelled(kind, value):
    """A value after the tag of a plain type. Items of a list, and keys and values of a map, are pairs of a type and a
    value."""
    tag = bytes([kind])
    if kind == I64:
        return tag + struct.pack("<q", value)
    if kind == F64:
        return tag + struct.pack("<d", value)
    if kind == BOOL:
        return tag + bytes([bool(value)])
    if kind in (STRING, BYTES):
        return tag + _counted(value)
    if kind in (POOLED_STACK, POOLED_STRING):
        return tag + _number(value, 4)
    if kind == STACK:
        return tag + _addresses(value)
    if kind in (VARINT, U8, U16, U32):
        return bytes([VARINT]) + _leb128(value)
    if kind == STRING_MAP:
        pairs = value.items() if isinstance(value, dict) else value
        return tag + _number(len(value), 4) + b"".join(_counted(key) + _counted(it) for key, it in pairs)
    if kind == LIST:
        return tag + _number(len(value), 4) + b"".join(spelled(*it) for it in value)
    if kind == MAP:
        return tag + _number(len(value), 4) + b"".join(spelled(*key) + spelled(*it) for key, it in value)
    raise ValueError(f"no type has the tag {kind}")


def record_batch(batch):
    """The trace of a batch of bytes, with a header of its own."""
    batch = _held(batch)
    return _in_room(lambda room, size, report: _library.trace_record(batch, len(batch), room, size, report),
                    len(batch) + 64)[0]


def record(events):
    """The trace of events, each a schema, a time in nanoseconds, and values. Before a second schema of a name,
    and where a trace has no wire id left, one trace ends and another begins: readers take them for one."""
    batch, traces = Batch(), []
    for schema, time, values in events:
        if not batch.takes(schema):
            traces.append(record_batch(batch.bytes()))
            batch.clear()
        batch.add(schema, time, values)
    return b"".join([*traces, record_batch(batch.bytes())])


def check(trace):
    """How many events a trace holds, which reads whole. `TraceError` where it does not, with `length` and `place`."""
    trace, report = _held(trace), _Report()
    code = _library.trace_check(trace, len(trace), ctypes.byref(report))
    if code != DONE:
        raise TraceError(code, report.length, report.place, report.detail)
    return report.events


def dump(trace, resolve=False):
    """The lines of a trace, as `tracedump` prints them."""
    return dump_with_status(trace, resolve)[0].decode()


def dump_with_status(trace, resolve=False):
    """The same as bytes, with the status that `tracedump` ends with."""
    trace = _held(trace)
    return _in_room(lambda room, size, report: _library.trace_dump(trace, len(trace), resolve, room, size, report),
                    16 * len(trace) + 256)


class Event:
    """An event that was read: its `schema`, the `name` of that, its `time` in nanoseconds, its values in order (`row`),
    and by the names of fields (`values`).

    Numbers are `int`, floats `float`, texts `str`, bytes `bytes`, stacks tuples of addresses, maps of texts lists of
    pairs of `bytes`, lists lists, maps lists of pairs, and an absent value is None. Where a text or stack is in no
    pool, `unresolved` tells the first id that is in none, as `pool#7`, and `row` and `values` are None."""

    __slots__ = ("schema", "name", "time", "row", "values", "unresolved")

    def __init__(self, schema, time, row, unresolved=None):
        self.schema, self.name, self.time, self.row, self.unresolved = schema, schema.name, time, row, unresolved
        self.values = None if row is None else {name: value for (name, _), value in zip(schema.fields, row)}

    def __repr__(self):
        return f"Event({self.name!r}, {self.time!r}, {self.values!r})"


class _Bytes:
    """A batch, and a place in it (docs/DOORS.md, "Batches"), with what its records have said."""

    def __init__(self, data):
        self.data, self.at = data, 0
        self.schemas, self.texts, self.stacks = {}, {}, {}

    def take(self, size):
        self.at += size
        return self.data[self.at - size:self.at]

    def number(self, width):
        return int.from_bytes(self.take(width), "little")

    def counted(self):
        return self.take(self.number(4))

    def name(self):
        return self.take(self.number(2)).decode()

    def addresses(self):
        count = self.number(4)
        return struct.unpack(f"<{count}Q", self.take(8 * count))

    def leb128(self):
        number = shift = 0
        while True:
            byte = self.take(1)[0]
            number |= (byte & 0x7F) << shift
            shift += 7
            if byte < 0x80:
                return number & 2**64 - 1

    def schema(self):
        name = self.name()
        fields = [(self.name(), self.number(1)) for _ in range(self.number(2))]
        notes = [(self.number(2), self.name(), self.counted().decode()) for _ in range(self.number(2))]
        return Schema(name, fields, notes)

    def pooled(self, pool, word, found):
        key = self.number(4)
        if key not in pool:
            found.append(f"{word}#{key}")
        return pool.get(key)

    def field(self, found):
        kind = self.number(1)
        if kind & OPTIONAL and self.number(1) == 0:
            return None
        return self.value(kind & ~OPTIONAL, found)

    def item(self, found):
        return self.value(self.number(1) & ~OPTIONAL, found)

    def value(self, kind, found):
        """A value; ids of no text or stack are put into `found`."""
        if kind == VARINT:
            return self.leb128()
        if kind in (U8, U16, U32):
            return self.number({U8: 1, U16: 2, U32: 4}[kind])
        if kind == I64:
            return struct.unpack("<q", self.take(8))[0]
        if kind == F64:
            return struct.unpack("<d", self.take(8))[0]
        if kind == BOOL:
            return self.number(1) != 0
        if kind == STRING:
            return self.counted().decode()
        if kind == BYTES:
            return self.counted()
        if kind == POOLED_STRING:
            return self.pooled(self.texts, "pool", found)
        if kind == POOLED_STACK:
            return self.pooled(self.stacks, "stack", found)
        if kind == STACK:
            return self.addresses()
        if kind == STRING_MAP:
            pairs = [(self.counted(), self.counted()) for _ in range(self.number(4))]
            texts = (_is_text(key) and _is_text(value) for key, value in pairs)
            return pairs[:next((at for at, text in enumerate(texts) if not text), len(pairs))]
        if kind == LIST:
            return [self.item(found) for _ in range(self.number(4))]
        return [(self.item(found), self.item(found)) for _ in range(self.number(4))]

    def events(self):
        """The events, one by one."""
        while self.at < len(self.data):
            kind = self.number(1)
            if kind == 1:
                number = self.number(2)
                self.schemas[number] = self.schema()
            elif kind == 2:
                schema, time, found = self.schemas[self.number(2)], self.number(8), []
                values = [self.field(found) for _ in range(self.number(2))]
                yield Event(schema, time, None if found else values, found[0] if found else None)
            elif kind == 3:
                key, text = self.number(4), self.counted()
                # (of bytes that are not UTF-8 no reader knows)
                if _is_text(text):
                    self.texts[key] = text.decode()
            else:
                key = self.number(4)
                self.stacks[key] = self.addresses()


def _is_text(raw):
    try:
        raw.decode()
    except UnicodeDecodeError:
        return False
    return True


class ReadBatch:
    """What was read of a trace (docs/DOORS.md, "trace_read"): `version`, `batch` and `state` as bytes, `length` in
    bytes of the trace, how many `events`, and why no frame stands after them (`stop`, a TraceError or None)."""

    def __init__(self, report, room, stop):
        self.version, self.length, self.events, self.stop = report.version, report.read, report.events, stop
        self.batch, self.state = room[:report.length], room[report.length:]


def read_batch(trace, state=b"", most=1000, place=0):
    """What comes next in a trace, with at most so many events: of the whole trace with no state, and then of what is
    left of it, from a place on, with the state that was handed out."""
    trace, state = _held(trace), _held(state)
    if not 0 <= place <= len(trace):
        raise ValueError(f"{place} is no place of {len(trace)} bytes")
    if not 0 <= most < 2**64:
        raise ValueError(f"{most} is no count of events")
    begin = ctypes.cast(trace, ctypes.c_void_p).value + place
    guess = 1024 + 2 * len(state) + 64 * min(most, 1000)
    code, report, room = _called(lambda room, size, report: _library.trace_read(
        state, len(state), begin, len(trace) - place, most, room, size, report), guess)
    if code not in (DONE, *STOPS):
        raise TraceError(code, 0, report.place, report.detail)
    return ReadBatch(report, room, TraceError(code, report.read, report.place, report.detail) if code else None)


def read(trace, most=1000):
    """The events of a trace, one by one, texts and stacks in place of the ids of the pools. So many are read at once,
    or more where the schemas and pools before them are large: each batch tells these again. Where the trace does not
    read whole, the events before that place, and then `TraceError`."""
    if most < 1:
        raise ValueError(f"{most} events at once are none")
    trace, place, state = _held(trace), 0, b""
    while True:
        try:
            found = read_batch(trace, state, max(most, len(state) // 32), place)
        except TraceError as error:
            raise error.moved(place) from None
        yield from _Bytes(found.batch).events()
        if found.stop:
            raise found.stop.moved(place)
        place, state = place + found.length, found.state
        if place == len(trace):
            return
