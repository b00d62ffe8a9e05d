"""The definitions of specs/ as a graph: which words stand in public contracts, and on which words these stand.

Used by tools/public_words. The model is the words of public contracts and all on which they stand; its definitions
are in the files of specs/. What private contracts alone use is in specs/parts/, by the folder of the sources that use
it."""
import glob
import importlib.machinery
import importlib.util
import os
import re

LIBRARIES = [
    *("trace_tables", "trace_values", "trace_wire", "trace_writer", "dial9_trace_format"),
    *("trace_events", "trace_lines", "trace_json", "trace_csv", "trace_fronts", "trace_stats", "trace_cuts",
      "trace_batch", "trace_door"),
    *("trace_roles", "trace_folded", "trace_chrome", "trace_page"),
    *("rotating_recorder", "trace_converter"),
]
NAME = r"(?:◌\S+?◌|[^\s(){},;:.=]+)"


class Block:
    """A definition with its comment, or several that stand together."""

    def __init__(self, crate, module, lines):
        self.crate, self.module, self.names, self.within, self.comments = crate, module, [], [], {}
        self.text = "\n".join(line for line in lines if not line.strip().startswith("--"))
        kind, comment = None, []
        for line in lines:
            if line.strip().startswith("--"):
                comment.append(line.strip()[2:].strip())
                continue
            count = len(self.names)
            if re.match(r"(\w+ )*mutual$", line):
                kind = "mutual"
                continue
            if kind == "mutual" and re.match(r"  \S", line):
                self.add(line[2:])
            elif line and line[0] not in " })" and not re.match(r"(unfolding|infix)\b", line):
                kind = self.add(line)
            elif kind == "data" and (constructor := re.match(rf"\s+(?:pub )?({NAME}) :", line)):
                self.within.append(constructor[1])
            if len(self.names) > count:
                self.comments[self.names[count]] = " ".join(comment)
            comment = []

    def add(self, line):
        """Notes the name that a line of a definition begins with, if it is its signature; and answers which kind it
        is."""
        begins = re.match(rf"(?:(?:abbrev|unfoldable) )*(?:pub )?(record |data )?({NAME})(.*)$", line)
        if not begins:
            return None
        kind, name, rest = begins.groups()
        if (kind or re.match(r"\s*:", rest) or " : " in line.split(" = ")[0]) and name not in self.names:
            self.names.append(name)
        return (kind or "").strip()


def imports(lines):
    """What `use` lines bring in: names, each as (crate, module, name), and whole modules, each as (crate, module)."""
    names, modules = {}, {}
    for line in lines:
        some = re.match(r"\s*(?:pub )?(?:ghost )?use Rattle\.(\w+)\.specs\.([\w.]+?)\.\{(.*)\};?\s*$", line)
        whole = re.match(r"\s*(?:pub )?(?:ghost )?use Rattle\.(\w+)\.specs\.([\w.]+?)(?: as (\S+?))?;?\s*$", line)
        if some:
            for name in some[3].split(","):
                name, _, here = name.strip().partition(" as ")
                names[here or name] = some[1], some[2], name
        elif whole:
            modules[whole[3] or whole[2].split(".")[-1]] = whole[1], whole[2]
    return names, modules


def tokens(text):
    """The words of a piece of a definition or of a clause, and operators as their names."""
    found = {*re.findall(r"[^\s(){},;:]+", re.sub(r"(?m)^\s*(--|//).*$", "", text))}
    found |= {">>="} if "←" in found else set()
    return found | {it.strip(".") for it in found} | {f"◌{it}◌" for it in found}


class Words:
    """All definitions of the crates' specs/."""

    def __init__(self):
        self.blocks, self.by_name, self.stands_on = [], {}, {}
        imported = {}
        for path in sorted(glob.glob("crates/*/specs/**/*.antt", recursive=True)):
            _, crate, _, rest = path.split("/", 3)
            module = rest[: -len(".antt")].replace("/", ".")
            with open(path, encoding="utf-8") as it:
                text = it.read()
            imported[crate, module] = imports(text.splitlines())
            body = "\n".join(line for line in text.splitlines() if not re.match(r"(pub )?(use|mod) ", line))
            for piece in re.split(r"\n\n+(?=\S)", body.strip("\n")):
                block = Block(crate, module, piece.splitlines())
                if block.names:
                    self.blocks.append(block)
                    for name in block.names + block.within:
                        self.by_name[crate, module, name] = block
        for block in self.blocks:
            own = block.crate, block.module
            self.stands_on[block] = self.named_in(block.text, *imported[own], own) - {block}

    def named_in(self, text, names, modules, own=None):
        """The definitions that a text names."""
        found = set()
        for token in tokens(text):
            first, _, rest = token.partition(".")
            for key in (names.get(token), names.get(first), own and (*own, token), own and (*own, first)):
                found.add(self.by_name.get(key))
            if rest and first in modules:
                found.add(self.by_name.get((*modules[first], rest.split(".")[0])))
        return found - {None}

    def below(self, roots):
        """These definitions and all on which they stand."""
        found, left = set(), [*roots]
        while left:
            block = left.pop()
            if block not in found:
                found.add(block)
                left += self.stands_on[block]
        return found
