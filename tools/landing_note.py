"""The note of a landing: what of each crate came, went, moved and stayed between two states of its files, as markdown."""
import re
import textwrap
from collections import defaultdict

from landing_pairs import Item, changes, counts, likeness
from rattle_source import RattleFile, antt_imports, antt_tokens, definitions, lines_but_imports, module_of

DEFINITIONS, PROMISES, LAWS, PROOFS = "definitions", "promises", "law files", "function proofs"
DECLARATIONS, EDITS, OTHERS = "types and constants", "must-fail edits", "other files"
COUNTED = (DEFINITIONS, PROMISES, LAWS, PROOFS)
KINDS = COUNTED + (DECLARATIONS, EDITS, OTHERS)
FILE_KINDS = (LAWS, PROOFS, EDITS, OTHERS)
SIZES = ("code", "specs", "laws", "proofs", "edits")
WIDTH = 140
NO_NAME = "\0"    # in the place of an item's own name; no text has it

LEGEND = """Definitions, promises, law files and function proofs: came / went / moved / stayed. What moved was changed, renamed or put
elsewhere, and counts where it is now. Bodies: how many changed under the same promise. Code, specs, laws and proofs: lines,
before → after. Edits: how many wrong programs must be refused."""


def kind_of(folder, path):
    """What a file of a crate is counted as."""
    if folder == "src" and path.endswith(".rt"):
        return "code"
    if folder == "specs" and path.endswith(".antt"):
        return "specs"
    if folder == "proofs" and path.endswith(".antt"):
        # A law stands in proofs/ itself; what stands in a folder there belongs to a function.
        return "proofs" if "/" in path else "laws"
    return "edits" if folder == "must-fail" and path.endswith(".edit") else ""


# ---- what the files hold

def definition_items(crate, path, text):
    for name, found in definitions(text).items():
        words = found.split(" ")
        nameless = " ".join(NO_NAME if word == name else word for word in words)
        yield Item(crate, path[:-len(".antt")], name, found, nameless, (("text", nameless),), tuple(words))


def promise_item(crate, place, function):
    contract = function.requires + function.ensures
    promise = function.signature + contract
    parts = tuple((word, getattr(function, word)) for word in ("visibility", "signature", "requires", "ensures"))
    return Item(crate, place, function.name, promise, promise if contract else "", parts, tuple(promise.split(" ")), function.body)


def file_item(crate, path, text, parts, lines):
    place, _, name = path.rpartition("/")
    return Item(crate, place, name, text, "", parts, tuple(lines))


def proof_item(crate, path, text):
    lines = lines_but_imports(text)
    proof = antt_tokens("\n".join(lines))
    path = re.sub(r"(/Proof)?\.antt$", "", path)
    return file_item(crate, path, proof, (("proof", proof), ("imports", antt_imports(text)), ("comments", text)), lines)


def plain_item(crate, path, text):
    return file_item(crate, path, text, (("text", text),), text.splitlines())


class State:
    """What a state of the crates holds. `files` has the bytes of each file by its path below crates/."""

    def __init__(self, files):
        self.items = {kind: [] for kind in KINDS}
        self.sizes = defaultdict(lambda: dict.fromkeys(SIZES, 0))
        self.imports = {}
        self.files = defaultdict(dict)
        for whole, data in files.items():
            crate, _, inside = whole.partition("/")
            self.files[crate][inside] = data
            self.read(crate, inside, data)

    def read(self, crate, inside, data):
        folder, _, path = inside.partition("/")
        kind, text = kind_of(folder, path), data.decode("utf-8", "replace")
        if kind:
            self.sizes[crate][kind] += 1 if kind == "edits" else data.count(b"\n")
        if kind == "code":
            self.read_code(crate, inside, module_of(path), RattleFile(text))
        elif kind == "specs":
            self.items[DEFINITIONS] += definition_items(crate, path, text)
            self.imports[crate, inside] = antt_imports(text)
        elif kind in ("laws", "proofs"):
            self.items[LAWS if kind == "laws" else PROOFS].append(proof_item(crate, path, text))
        elif kind == "edits":
            self.items[EDITS].append(plain_item(crate, path[:-len(".edit")], text))
        else:
            self.items[OTHERS].append(plain_item(crate, inside, text))

    def read_code(self, crate, inside, module, source):
        def place(of):
            return "::".join([*module, *of.scope])
        self.imports[crate, inside] = source.imports
        self.items[PROMISES] += [promise_item(crate, place(function), function) for function in source.functions]
        self.items[DECLARATIONS] += [Item(crate, place(declared), declared.name, declared.text, "", (("text", declared.text),),
                                          tuple(declared.text.split(" "))) for declared in source.declarations]


# ---- names

def label(kind, item, with_crate=False):
    if kind in (PROMISES, DECLARATIONS):
        return "::".join(filter(None, (item.crate, item.place, item.name)))
    inside = f"{item.place}.{item.name}" if kind == DEFINITIONS else "/".join(filter(None, (item.place, item.name)))
    return f"{item.crate}/{inside}" if with_crate else inside


def place_label(kind, item):
    return ("::" if kind in (PROMISES, DECLARATIONS) else "/").join(filter(None, (item.crate, item.place)))


def only(change):
    """Of a proof file in which no proof changed: what did."""
    parts = change.changed_parts()
    if "proof" in parts or "comments" not in parts:
        return ""
    return " in imports only" if "imports" in parts else " in comments only"


def remark(kind, change):
    """What changed in an item, in brackets; nothing where that is plain."""
    words = [part for part in change.changed_parts() if part not in ("text", "proof", "imports", "comments")]
    if change.before.here() != change.after.here() and not words and {"text", "proof"} & set(change.changed_parts()):
        words = [f"{round(100 * likeness(change.before, change.after))} % the same" if kind in FILE_KINDS else "changed"]
    return f" ({', '.join(words)})" if words else ""


def bullet(title, entries):
    text = f"- {title} ({len(entries)}): {', '.join(entries)}"
    return textwrap.fill(text, WIDTH, subsequent_indent="  ", break_long_words=False, break_on_hyphens=False)


# ---- the note

class Landing:
    """The change from one state to another."""

    def __init__(self, before, after):
        self.before, self.after = before, after
        self.changes = {kind: changes(before.items[kind], after.items[kind], kind in FILE_KINDS) for kind in KINDS}
        self.crates = sorted(set(before.files) | set(after.files))
        self.changed = [crate for crate in self.crates if before.files.get(crate) != after.files.get(crate)]
        self.same_as = {(kind, item.nameless): item for kind in KINDS for item in reversed(sorted(after.items[kind])) if item.nameless}

    def of(self, kind, crates):
        return [change for change in self.changes[kind] if change.crate in crates]

    # The table.

    def row(self, name, crates):
        cells = [name]
        for kind in COUNTED:
            found = self.of(kind, crates)
            cells.append(" / ".join(map(str, counts(found))) if found else "–")
            if kind == PROMISES:
                cells.append(str(sum(change.body_changed() for change in found)))
        for size in SIZES:
            was, now = (sum(state.sizes[crate][size] for crate in crates if crate in state.sizes) for state in (self.before, self.after))
            cells.append(f"{was:,}" if was == now else f"{was:,} → {now:,}")
        return f"| {' | '.join(cells)} |"

    def table(self):
        head = ("crate", DEFINITIONS, PROMISES, "bodies", LAWS, PROOFS) + SIZES
        rows = [f"| {' | '.join(head)} |", "|---|" + "---:|" * (len(head) - 1)]
        rows += [self.row(f"`{crate}`", [crate]) for crate in self.changed]
        unchanged = [crate for crate in self.crates if crate not in self.changed]
        if unchanged:
            rows.append(self.row(f"{len(unchanged)} unchanged", unchanged))
        return rows + [self.row("**all**", self.crates)]

    # A crate's section.

    def entry(self, kind, change):
        """The bullet that a change stands in, with a number for its order, and what stands there."""
        old, new = change
        if old is None:
            return 0, f"{kind} that came", f"`{label(kind, new)}`"
        if new is None:
            other = self.same_as.get((kind, old.nameless))
            return 1, f"{kind} that went", f"`{label(kind, old)}`" + (f" (the same as `{label(kind, other, True)}`)" if other else "")
        if old.here() == new.here():
            return 2, f"{kind} that changed{only(change)}", f"`{label(kind, new)}`{remark(kind, change)}"
        if old.name == new.name:
            places = f"now in `{place_label(kind, new)}`, before in `{place_label(kind, old)}`"
            light = f", changed{only(change)}" if only(change) else ""
            return 3, f"{kind} {places}{light}", f"`{new.name}`{remark(kind, change)}"
        apart = old.crate != new.crate
        return 4, f"{kind} under another name", f"`{label(kind, old, apart)}` → `{label(kind, new, apart)}`{remark(kind, change)}"

    def moved(self, kind, crate):
        """The bullets of what didn't stay, of one kind."""
        bullets = defaultdict(list)
        for change in self.of(kind, [crate]):
            if change.state != "stayed":
                order, title, entry = self.entry(kind, change)
                bullets[order, title].append(entry)
            if change.body_changed():
                bullets[5, "bodies that changed under the same promise"].append(f"`{label(kind, change.after)}`")
        return [bullet(title, entries) for (_, title), entries in sorted(bullets.items())]

    def stayed(self, crate):
        for kind in KINDS:
            names = [f"`{label(kind, change.after)}`" for change in self.of(kind, [crate]) if change.state == "stayed"]
            if names:
                yield bullet(f"{kind} that stayed", names)

    def gone_elsewhere(self, crate):
        """What of a crate is in another one now, in numbers: the names stand there."""
        for kind in KINDS:
            places = defaultdict(int)
            for change in self.changes[kind]:
                if change.before and change.after and change.before.crate == crate != change.after.crate:
                    places[change.after.crate] += 1
            if places:
                yield f"- {kind} now in another crate: " + ", ".join(f"{count} in `{place}`" for place, count in sorted(places.items()))

    def other_imports(self, crate):
        """The files where a definition or a promise may name another thing than before by the same text."""
        both = self.before.imports.keys() & self.after.imports.keys()
        paths = sorted(path for of, path in both if of == crate and self.before.imports[of, path] != self.after.imports[of, path])
        if paths:
            yield bullet("files of src/ and specs/ whose imports changed", [f"`{path}`" for path in paths])

    def section(self, crate, with_stayed):
        word = ", new" if crate not in self.before.files else ", gone" if crate not in self.after.files else ""
        lines = [line for kind in KINDS for line in self.moved(kind, crate)]
        lines += [*self.other_imports(crate), *self.gone_elsewhere(crate)]
        if not lines:
            lines = ["- only comments, layout or lists of modules changed" if crate in self.changed else "- unchanged"]
        return ["", f"### {crate}{word}", "", *lines, *(self.stayed(crate) if with_stayed else [])]

    def note(self, with_stayed=False):
        """The lines of the note."""
        lines = textwrap.wrap(LEGEND, WIDTH) + [""] + self.table()
        unchanged = [f"`{crate}`" for crate in self.crates if crate not in self.changed]
        if unchanged and not with_stayed:
            lines += ["", textwrap.fill(f"Unchanged: {', '.join(unchanged)}.", WIDTH, break_long_words=False)]
        for crate in self.crates if with_stayed else self.changed:
            lines += self.section(crate, with_stayed)
        return lines
