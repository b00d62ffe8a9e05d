#!/usr/bin/env python3
"""What a page makes of its data, by the rules of viewer/DATA.md alone, for the script that tests pages.

`Model` has the events of some data, with their shapes, names, tracks and lengths; the rows and counters of the
timeline; what a search finds; and the text of a value. Nothing of it is fast, and nothing of it is the page's."""
import json
import operator
import re

SCALES = {"ns": 1, "us": 1e3, "ms": 1e6, "s": 1e9, "B": 1, "KiB": 2**10, "MiB": 2**20, "GiB": 2**30}
TIMES = ("ns", "us", "ms", "s")
OPERATORS = {"=": operator.eq, "!=": operator.ne, "<": operator.lt, "<=": operator.le, ">": operator.gt,
             ">=": operator.ge}


KINDS = dict(enumerate("I64 F64 Bool String Bytes StackFrames String StackFrames Varint StringMap Varint Varint Varint "
                       "List Map".split(), 1))


def kind_of(tag):
    """The kind of the values of a field type, by its tag."""
    return KINDS[tag & 0x7F]


def is_number(kind):
    return kind in ("I64", "Varint", "F64")


def unquoted(token):
    """A word without its quotes: letter by letter, two quotes inside of quotes being one of the word."""
    word, at, is_inside = "", 0, False
    while at < len(token):
        if token[at] != '"':
            word += token[at]
        elif is_inside and token[at + 1:at + 2] == '"':
            word += '"'
            at += 1
        else:
            is_inside = not is_inside
        at += 1
    return word


def length_of(number, unit):
    """So many of a unit in whole nanoseconds, half of one rounded up; 0 of what is no finite number above 0."""
    if not 0 < number < float("inf"):
        return 0
    product = min(number * unit, 2**64)
    return int(product) + (product - int(product) >= 0.5)


class Event:
    """An event of some data, by the rules of viewer/DATA.md."""

    def __init__(self, data, number, schema, time, values):
        self.data, self.number, self.schema, self.values = data, number, schema, values
        # (the place on the timeline is a double, as all that a page draws)
        self.time, self.place, self.roles = int(time), float(int(time)), schema["roles"]
        self.group = self.roles["begin"] if self.roles["begin"] is not None else self.roles["end"]
        self.length = self.partner = None
        self.is_slice = self.is_open = False

    def fields(self):
        return [(field["name"], kind_of(field["type"]), field, value)
                for field, value in zip(self.schema["fields"], self.values)]

    def role(self, name):
        return self.fields()[self.roles[name]] if self.roles[name] is not None else (None, None, None, None)

    def is_unknown(self, role):
        """Whether the field of a role is an id of a text that the trace does not hold."""
        _, kind, _, value = self.role(role)
        return kind == "String" and isinstance(value, dict)

    def shape(self):
        if self.is_unknown("tid") or self.is_unknown("name"):
            return "instant"
        order = ("begin", "begin"), ("end", "end"), ("duration", "slice")
        return next((shape for role, shape in order if self.roles[role] is not None), "instant")

    def base_name(self):
        return self.schema["name"] if self.group is None else self.group

    def label(self):
        _, kind, _, value = self.role("name")
        if kind in ("I64", "Varint") and isinstance(value, (int, str)):
            return str(value)
        return self.data["strings"][value] if kind == "String" and isinstance(value, int) else self.base_name()

    def counted(self):
        """The names of its counters, whether each is a gauge, and the number that each shows."""
        for name, kind, field, value in self.fields():
            if field["counter"] is None or not is_number(kind) or value is None or isinstance(value, dict):
                continue
            if field["counter"] != "gauge" and kind != "F64":
                step = min(int(value), 2**63 - 1)
                yield name, False, max(0, step) if field["counter"] == "counter" else step
            elif field["counter"] == "gauge" and float(value) - float(value) == 0:
                yield name, True, float(value)

    def track_said(self):
        """How it says its track, and the name of that, by which it is known."""
        _, kind, _, value = self.role("tid")
        if kind in ("I64", "Varint") and isinstance(value, (int, str)):
            return 0, str(value)
        if kind == "String" and isinstance(value, int):
            return 1, self.data["strings"][value]
        return 2, self.base_name()

    def track(self):
        return self.track_said()[1]

    def track_name(self, tracks):
        """What its track is called: by the first event on it, and by the field if that says a number."""
        sort, field = tracks[self.track()]
        return f"{field} {self.track()}" if sort == 0 else self.track()

    def end(self):
        return self.place + (self.length or 0)


class Model:
    """What a page makes of some data."""

    def __init__(self, data):
        self.data, self.events, at = data, [], 0
        columns = data["events"]
        for number, (schema, time) in enumerate(zip(columns["schema"], columns["time"])):
            schema = data["schemas"][schema]
            size = len(schema["fields"])
            self.events.append(Event(data, number, schema, time, columns["values"][at:at + size]))
            at += size
        # (how the first event on a track says it, and by which field)
        self.tracks = {}
        for event in self.events:
            self.tracks.setdefault(event.track(), (event.track_said()[0], event.role("tid")[0]))
        self.pair()

    def zero(self, event):
        """The nanoseconds since 1970 at the zero of the clock of an event's file, if that is known."""
        return next((zero for first, zero in reversed(self.data["clocks"]) if first <= event.number), None)

    def pair(self):
        opened = {}
        for event in self.events:
            if event.shape() == "slice":
                _, kind, field, value = event.role("duration")
                number = float(value) if is_number(kind) and isinstance(value, (int, float, str)) else 0
                event.length = length_of(number, SCALES[field["unit"]] if field["unit"] in TIMES else 1)
            elif event.shape() == "begin":
                opened.setdefault(event.track(), []).append(event)
            elif event.shape() == "end":
                own = opened.get(event.track(), [])
                at = max((at for at, begin in enumerate(own) if begin.group == event.group), default=len(own))
                for begin in own[at:]:
                    begin.length, begin.is_open = max(0, event.place - begin.place), begin is not own[at]
                if at < len(own):
                    event.partner, own[at].partner = own[at], event
                del own[at:]
        # (no time is greater than 2^64 - 1)
        last = min(max([0, *(event.end() for event in self.events)]), 2**64 - float(self.data["start"]))
        for event in (event for events in opened.values() for event in events):
            event.length, event.is_open = max(0, last - event.place), True

    def lanes(self):
        """The sort, the track and the size of each row of the timeline that has no counter."""
        order, found = {key: at for at, key in enumerate(self.tracks)}, []

        def place(key):
            sort, _ = self.tracks[key]
            # (numbers in texts stand by their size)
            by_size = re.sub("[0-9]+", lambda it: it[0].rjust(20, "0"), key)
            return sort, order[key] if sort == 2 else by_size if sort == 1 else int(key)

        for key in sorted(self.tracks, key=place):
            events = [event for event in self.events if event.track() == key]
            marks = [event for event in events if event.length is None and event.partner is None and not (
                event.shape() == "instant" and any(event.counted()))]
            rows = []
            for event in sorted((event for event in events if event.length is not None),
                                key=lambda it: (it.place, -it.length, it.number)):
                at = next((at for at, row in enumerate(rows) if row[-1].end() <= event.place or at == 63), len(rows))
                rows[at:at + 1] = [rows[at] + [event]] if at < len(rows) else [[event]]
            name = events[0].track_name(self.tracks)
            found += [["marks", name, len(marks)]] * bool(marks) + [["slices", name, len(row)] for row in rows]
        return found

    def counters(self):
        """The schema, field and track of each counter, the events that it shows, and its value at each."""
        found, sums = {}, {}
        for event in self.events:
            for name, is_gauge, number in event.counted():
                key = event.schema["name"], name, event.track_name(self.tracks)
                if not is_gauge:
                    number = sums[key] = max(-2**63, min(2**63 - 1, sums.get(key, 0) + number))
                found.setdefault(key, {})[event] = float(number)
        order = {key: sorted(its, key=lambda it: (it.place, it.number)) for key, its in found.items()}
        return sorted([*key, [it.number for it in order[key]], [its[it] for it in order[key]]]
                      for key, its in found.items())

    # (search)

    def words(self, query):
        names = {"event", "track", "time", "length"}
        names |= {field["name"].lower() for schema in self.data["schemas"] for field in schema["fields"]}
        for token in re.findall(r'(?:[^\s"]|"(?:[^"]|"")*"?)+', query):
            parts = re.fullmatch(r'([^"=<>!]+|"(?:[^"]|"")+")(!=|<=|>=|=|<|>)(.*)', token, re.S)
            if parts and unquoted(parts[1]).lower() in names:
                yield unquoted(parts[1]).lower(), parts[2], unquoted(parts[3]).lower()
            elif unquoted(token):
                yield None, token.startswith('"'), unquoted(token).lower()

    def found(self, query):
        words = list(self.words(query))
        return [event for event in self.events if all(self.finds(word, event) for word in words)]

    def finds(self, word, event):
        name, how, text = word
        if name is None:
            number = None if how else float(text) if re.fullmatch(r"-?\d+(\.\d+)?(e[-+]?\d+)?", text) else None
            own = [event.schema["name"], event.group or ""]
            return any(text in it.lower() for it in own) or any(
                self.holds(text, number, kind, value) for _, kind, _, value in event.fields())
        fields = [(kind, field["unit"], value) for its, kind, field, value in event.fields() if its.lower() == name]
        own = {"event": ("Text", None, event.schema["name"]), "track": ("Text", None, event.track_name(self.tracks)),
               "time": ("I64", "ns", event.time), "length": ("I64", "ns", event.length)}
        return any(self.compares(how, text, *it) for it in fields or [own.get(name, ("Bool", None, None))])

    def holds(self, text, number, kind, value):
        strings, stacks = self.data["strings"], self.data["stacks"]
        if value is None or isinstance(value, dict):
            return False
        match kind:
            case "String" | "Bytes":
                return text in strings[value].lower()
            case "StackFrames":
                return any(text in strings[frame].lower() for frame in stacks[value])
            case "StringMap":
                return any(text in strings[it].lower() for it in value)
            case "List" | "Map":
                return any(self.holds(text, number, kind_of(tag), it) for tag, it in zip(value[::2], value[1::2]))
            case "Bool":
                return False
        return value == text if isinstance(value, str) else number is not None and value == number

    def compares(self, how, text, kind, unit, value):
        if value is None or isinstance(value, dict) or kind in ("StackFrames", "StringMap", "List", "Map"):
            return False
        if not is_number(kind):
            own = {"Text": value, "Bool": str(value).lower()}.get(kind)
            own = self.data["strings"][value] if own is None else own
            return how in ("=", "!=") and OPERATORS[how](own.lower(), text)
        parts = re.fullmatch(r"(-?\d+(?:\.\d+)?(?:e[-+]?\d+)?)(ns|us|ms|s|b|kib|mib|gib)?", text)
        if not parts:
            return False
        if parts[2]:
            scale = {name.lower(): scale for name, scale in SCALES.items()}[parts[2]]
            return OPERATORS[how](float(value) * (SCALES[unit] if unit in TIMES else 1), float(parts[1]) * scale)
        if isinstance(value, str) and how in ("=", "!="):
            return OPERATORS[how](value, parts[1])
        return OPERATORS[how](float(value), float(parts[1]))

    # (what is shown of a value)

    def text(self, kind, value):
        strings = self.data["strings"]

        def listed(items):
            return ", ".join(items[:200] + [f"and {len(items) - 200:,} more"] * (len(items) > 200))

        def inner(pair):
            kind, value = kind_of(pair[0]), pair[1]
            is_text = kind == "String" and isinstance(value, int)
            return json.dumps(strings[value], ensure_ascii=False) if is_text else self.text(kind, value)

        if value is None:
            return "none"
        if isinstance(value, dict):
            return f"unknown id {value['unknown']}"
        match kind:
            case "String":
                return strings[value]
            case "Bytes":
                return strings[value] or "no bytes"
            case "Bool":
                return str(value).lower()
            case "StringMap":
                texts = [json.dumps(strings[it], ensure_ascii=False) for it in value]
                return f"{{{listed(list(map(': '.join, zip(texts[::2], texts[1::2]))))}}}"
            case "List":
                return f"[{listed(list(map(inner, zip(value[::2], value[1::2]))))}]"
            case "Map":
                items = list(map(inner, zip(value[::2], value[1::2])))
                return f"{{{listed(list(map(': '.join, zip(items[::2], items[1::2]))))}}}"
            case "F64" if not isinstance(value, str):
                # (as JavaScript spells it)
                return re.sub(r"e-0?(\d+)", r"e-\1", f"{value!r}".removesuffix(".0"))
        return str(value)


def shown(text, most=4000):
    escape = r"[\x00-\x1f\x7f-\x9f\u2028\u2029\u202a-\u202e\u2066-\u2069\ufeff]"
    return re.sub(escape, lambda it: f"\\u{ord(it[0]):04x}", text if len(text) <= most else text[:most - 1] + "…")
