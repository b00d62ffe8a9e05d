#!/usr/bin/env python3
"""Makes tables of docs/SPEED.md of what `count.py` printed.

table.py [--aims] [--older=COUNTS] COUNTS ..
    The rows, bad ones first. Each of COUNTS is a file. Of the library's rows a later one stands in place of an earlier
    one, and of the original's the least. Those that only --older has are marked by *.
    With --aims the aims, and the rows that miss them; of an aim that many miss, they stand below the table.
"""
import re
import sys
import textwrap

WORKS = {
    "varint3": "three numbers", "stacks": "a stack of 32 and a text", "nested": "a nested list and map",
    "pooled": "a number, two pooled ids, an optional number", "pooled+intern": "the same, with a known text interned",
    "fixed": "I64, F64, Bool, PooledString, Bytes", "two": "two schemas in turn", "robin1000": "1,000 schemas in turn",
    "f0": "no field", "f1": "one number", "f8": "8 numbers", "f16": "16 numbers", "f64": "64 numbers",
    "text1k": "a text of 1 KB", "text64k": "a text of 64 KB", "stack1": "a stack of one", "stack128": "a stack of 128",
    "list100": "a list of 100 numbers", "smap": "a map of texts of four pairs",
}
WRITES = {
    "known-texts": ("intern_string", "a known text"), "new-texts": ("intern_string", "a new text"),
    "register1000": ("register_schema", "one of 1,000 schemas"), "slot": ("write", "three numbers, by a slot"),
    "name": ("write", "three numbers, by a name"), "small10": ("a new encoder", "ten events, whole"),
    "reset10": ("reset_to", "after ten events, whole"),
    "bufwriter": ("write_event` into a `BufWriter", "three numbers"),
    "plainvec": ("write_event` into `Plain", "three numbers"), "spool64": ("write_string_pool", "an entry of 64"),
    "encode-num": ("FieldValue::encode", "a number, after others"),
    "encode-text": ("FieldValue::encode", "a text, after others"),
    "encode-list": ("FieldValue::encode", "a nested list, after others"),
    "known-stack": ("intern_stack_frames", "a known stack of 32"),
    "new-stack": ("intern_stack_frames", "a new stack of 32"),
    "slot-wide": ("write", "U8, PooledString, Varint, by a slot"),
    "slot-sample": ("write", "a stack of 32 and a text, by a slot"),
    "name-sample": ("write", "a stack of 32 and a text, by a name"),
    "name-wide": ("write", "U8, PooledString, Varint, by a name"),
    "known-event": ("write_known_event", "three numbers"), "known-slot": ("write_known", "three numbers"),
    "known-wide": ("write_known", "U8, PooledString, Varint"),
    "known-sample": ("write_known", "a stack of 32 and a text"),
}
WAYS = {
    "clone": "DecodedFrame::clone", "eq": "DecodedFrame`: `==", "ref_clone": "DecodedFrameRef::clone",
    "ref_eq": "DecodedFrameRef`: `==",
    "to_owned": "FieldValueRef::to_owned", "resolve": "RawEvent::resolve", "iterate": "a sink over items and pairs",
}
ALONE = {
    "encode": "FieldValue::encode", "decode": "FieldValue::decode", "clone": "FieldValue::clone",
    "eq": "FieldValue`: `==",
    "ref_decode": "FieldValueRef::decode", "ref_clone": "FieldValueRef::clone", "ref_eq": "FieldValueRef`: `==",
    "to_owned": "FieldValueRef::to_owned", "iterate": "iterators",
}
KINDS = {
    "num": "a number", "i64": "an I64", "bool": "a Bool", "pooled": "a pooled id", "text": "a text",
    "bytes16": "16 bytes",
    "text1k": "a text of 1 KB", "stack32": "a stack of 32", "stack128": "a stack of 128", "smap": "a map of texts",
    "list": "a nested list", "map": "a map", "list100": "a list of 100 numbers",
}
SIZES = {"small": "one byte", "mixed": "one to ten bytes"}


def row_of(name):
    """The call and what it is done with."""
    if name == "read a pooled text":
        return "for_each_event", "a text of a pool of 10,000"
    if name == "into_encoder, a text":
        return "into_encoder", "a text of a pool of 10,000"
    call, _, of = name.partition(" ")
    if of == "of 10 events":
        return call, "ten events, whole"
    if of.startswith("alone "):
        return ALONE[call], KINDS[of.removeprefix("alone ")] + ", alone"
    if of in SIZES:
        return call, SIZES[of]
    if call == "write":
        if of in WRITES:
            return WRITES[of]
        known = of.startswith("known-")
        return ("write_known_event" if known else "write_event"), WORKS[of.removeprefix("known-")]
    return WAYS.get(call, call), WORKS[of]


# The aims of calls: for every workload, and for three numbers
AIMS = {
    "write_event": (0.90, 0.80), "write` by a slot": (0.90, 0.85), "write` by a name": (0.65, 0.62),
    "write_known": (0.80, 0.60), "write_known_event": (0.80, 0.62), "next_frame": (0.90, 0.62),
    "decode_all": (0.90, 0.65), "next_frame_ref": (0.85, 0.58), "decode_all_ref": (0.85, 0.62),
    "for_each_event": (0.80, 0.52), "next_event_into": (0.85, 0.40), "next_event_ref_into": (0.85, 0.40),
}
# Those of the others, of which no row is to be above the original
OTHERS = {
    "FieldValue::encode": "`encode`", "FieldValue::decode": "`decode`", "FieldValueRef::decode": "`decode`, borrowed",
    "FieldValue::clone": "`clone`", "FieldValueRef::clone": "`clone`, borrowed",
    "FieldValueRef::to_owned": "`to_owned`", "FieldValue`: `==": "`==`", "FieldValueRef`: `==": "`==`, borrowed",
    "iterators": "iterators", "a sink over items and pairs": "iterators",
    "DecodedFrame::clone": "`clone` of frames", "DecodedFrameRef::clone": "`clone` of frames",
    "DecodedFrame`: `==": "`==` of frames", "DecodedFrameRef`: `==": "`==` of frames",
    "RawEvent::resolve": "`RawEvent::resolve`",
    "write_event` into a `BufWriter": "a writer that is no `Vec`",
    "write_event` into `Plain": "a writer that is no `Vec`",
}
REST = "pools, interning, registering, small traces, numbers"


def rows(paths):
    """What both took, by the name of the row: of the original the least that was counted."""
    original, here = {}, {}
    for path in paths:
        with open(path, encoding="utf-8") as file:
            for line in file:
                name = re.match(r"(.*?) +(?:orig|port) ", line)[1]
                for who, count in re.findall(r"(orig|port) +([\d.]+)", line):
                    if who == "port":
                        here[name] = float(count)
                    else:
                        original[name] = min(float(count), original.get(name, float("inf")))
    return {name: (original[name], count) for name, count in here.items() if name in original}


def aim_of(call, of):
    """The name of the aim that a row has, its greatest ratio, and that of three numbers."""
    if call == "write":
        call += "` by a name" if of.endswith("by a name") else "` by a slot"
    if call in AIMS and "whole" not in of and "pool of 10,000" not in of:
        return f"`{call}`" if "` by" not in call else f"`{call}", *AIMS[call]
    return OTHERS.get(call, REST), 1.00, None


def aims(found):
    """The table of the aims: in the order of the tables above, with what misses each."""
    missed = {f"`{call}`" if "` by" not in call else f"`{call}": (*aim, []) for call, aim in AIMS.items()}
    missed.update({name: (1.00, None, []) for name in [*OTHERS.values(), REST]})
    for name, (original, here) in sorted(found.items(), key=lambda row: -row[1][1] / row[1][0]):
        call, of = row_of(name)
        aim, most, three = aim_of(call, of)
        if round(here / original, 2) > (three if three and of.startswith("three numbers") else most):
            what = re.sub(", (alone|by a slot|by a name)$", "", of)
            missed[aim][2].append(what if aim != REST else f"`{call}` of {what}")
    print("| Call | Aim | Three numbers | Misses |\n|---|---|---|---|")
    below = []
    for aim, (most, three, what) in missed.items():
        named = "; ".join(dict.fromkeys(what)) or "none"
        row = f"| {aim} | {most:.2f} | {f'{three:.2f}' if three else ''} | "
        if len(row + named) > 155:
            below.append(textwrap.fill(f"- {aim}: {named}.", 120, subsequent_indent="  ", break_on_hyphens=False))
            named = f"{len(dict.fromkeys(what))}, below"
        print(f"{row}{named} |")
    print("", *below, sep="\n")


def main():
    named = [it.removeprefix("--older=") for it in sys.argv[1:] if it != "--aims"]
    fresh = rows([it for it in sys.argv[1:] if not it.startswith("--")])
    # (an older file is named first)
    found = rows(named)
    if "--aims" in sys.argv:
        aims(found)
        return
    print("| Call | Of | Original | Here | Ratio |\n|---|---|---|---|---|")
    for name, (original, here) in sorted(found.items(), key=lambda row: -row[1][1] / row[1][0]):
        call, of = row_of(name)
        shown = call if " " in call and "`" not in call else f"`{call}`"
        mark = "" if name in fresh else "*"
        print(f"| {shown} | {of} | {original:,.0f} | {here:,.0f}{mark} | {here / original:.2f} |")


main()
