#!/usr/bin/env python3
"""Packs recorded traces into the files that the program trace_replay reads (docs/RECORDINGS.md has the format).

Run once for each set, by hand; the gate does not run it:

    python3 tools/pack_recordings.py public crates/trace_replay/data/public.txt RECORDINGS/public
    python3 tools/pack_recordings.py malformed crates/trace_replay/data/malformed.txt RECORDINGS/malformed/public
    python3 tools/pack_recordings.py model crates/trace_replay/data/model.txt RECORDINGS/model/public
    python3 tools/pack_recordings.py types crates/trace_replay/data/types.txt RECORDINGS/types RECORDINGS/types/model

The recordings at the end of model.txt whose name begins with `worked-` are kept by hand: what is packed stands before
them.

A folder of recordings has NAME.bin (the bytes of a trace), NAME.txt (its dump), NAME.script where the trace was made
by calls, and EXTRA.txt, whose parts under `## NAME` are `# replies`, the reply to each call; `# resolve STATUS`, the
dump with resolved events; `# sink STATUS`, what a sink was given; and `# borrowed STATUS`, the dump of the borrowed
reader, where it is another. """
import pathlib
import re
import sys

ABOUT = {
    "public": "Traces that the crate dial9-trace-format 0.5.4 wrote, by calls on which it and this library agree.",
    "malformed": "Damaged traces: one that was written whole, and then cut or changed. They have no script.",
    "model": "Traces of an independent model of this library's rules, where the crate dial9-trace-format has others; "
             "and, named `worked-`, by hand.",
    "types": "Traces of event types that trace_samples has. Those whose name begins with `port-` are of the model, the "
             "others of the crate.",
}


def parts_of(extra):
    """The parts of each recording by its name: their texts by their titles."""
    parts = {}
    for part in re.split(r"(?m)^## ", extra)[1:]:
        name, body = part.split("\n", 1)
        found = re.findall(r"(?ms)^# (\w+)(?: \d)?\n(.*?)(?=^# |\Z)", body)
        parts[name] = dict(found)
    return parts


def section(title, text):
    """A section: its title on a line, and the text without its last line feed."""
    assert not re.search(r"(?m)^(# |== )", text), title
    return f"# {title}\n{text.removesuffix(chr(10))}\n"


def packed(folder, name, extra):
    """One recording, whose other parts these are."""
    parts = [f"== {name}\n"]
    script = folder / f"{name}.script"
    if script.exists():
        parts.append(section("script", script.read_text("ascii")))
    parts.append(section("bytes", (folder / f"{name}.bin").read_bytes().hex()))
    if script.exists():
        parts.append(section("replies", extra["replies"]))
    parts.append(section("dump", (folder / f"{name}.txt").read_text("ascii")))
    parts.extend(section(title, extra[title]) for title in ["borrowed", "resolve", "sink"] if title in extra)
    return "".join(parts) + "# end\n"


def packed_folder(folder):
    """The recordings of a folder, by their names."""
    extra = parts_of((folder / "EXTRA.txt").read_text("ascii"))
    names = sorted(file.stem for file in folder.glob("*.bin"))
    return "".join(packed(folder, name, extra[name]) for name in names)


def worked(target):
    """The recordings at the end of a file that are kept by hand."""
    text = target.read_text("ascii") if target.exists() else ""
    at = text.find("== worked-")
    return "" if at < 0 else text[at:]


def main():
    kind, target, folders = sys.argv[1], pathlib.Path(sys.argv[2]), [pathlib.Path(it) for it in sys.argv[3:]]
    head = f"# {ABOUT[kind]}\n# The format of this file is told in docs/RECORDINGS.md.\n\n"
    target.parent.mkdir(parents=True, exist_ok=True)
    target.write_text(head + "".join(packed_folder(folder) for folder in folders) + worked(target), "ascii")


main()
