"""What the files of a Rattle crate hold: the definitions of an .antt file, and the functions, types and constants of an .rt file.

A text is given as its tokens with one space between, so that two texts are the same where only layout or comments differ.
"""
import re
import textwrap
from collections import namedtuple

# ---- .antt

STRING = r'"(?:\\.|[^"\\])*"'
# A comment begins where a token does, since `a--b` is one name; in a string nothing begins one.
STRING_OR_COMMENT = re.compile(STRING + r"|(?P<comment>\{-.*?-\}|(?<![^\s(){};,@])--[^\n]*)", re.S)
# A dot is no token by itself: `r.size` is one, a field of r or a name of a module.
ANTT_TOKEN = re.compile(STRING + r'|[(){};,@"]|[^\s(){};,@"]+', re.S)

MARKS = r"(?:(?:unfoldable|abbrev|axiom|pub)\s+)*"
NAME = r'(?:«[^»]*»|[^\s(){}.;,@"«»])+'
USE = re.compile(MARKS + r"(?:use|open)\s")
MOD = re.compile(MARKS + r"mod\s")
SECTION = re.compile(MARKS + r"(?:module\s.*?\swhere|mutual)[^\S\n]*(?:\n|$)", re.S)
SIGNATURE = re.compile(
    MARKS + rf"(?:(?:record|data|ruleset)\s+(?P<type>{NAME})|(?P<value>{NAME})(?:\s*\{{[^}}]*\}})?\s+:(?=\s|$))")


def without_comments(text):
    """The text with its comments gone and each line where it was."""
    def kept(match):
        return re.sub(r"[^\n]", "", match.group()) if match["comment"] else match.group()
    return STRING_OR_COMMENT.sub(kept, text)


def antt_tokens(text):
    return " ".join(ANTT_TOKEN.findall(without_comments(text)))


def chunks(text):
    """The parts of a text that begin in its first column."""
    return [chunk for chunk in re.split(r"^(?=\S)", text, flags=re.M) if chunk.strip()]


def definition_texts(text, around):
    """What `definitions` gives, as it is written. `around` is the head of the sections that the text stands in."""
    found, last = {}, None
    for chunk in chunks(text):
        section, signature = SECTION.match(chunk), SIGNATURE.match(chunk)
        if section:
            found.update(definition_texts(textwrap.dedent(chunk[section.end():]), around + section.group()))
            last = None
        elif USE.match(chunk) or MOD.match(chunk):
            last = None
        elif signature:
            last = signature["type"] or signature["value"]
            found[last] = found.get(last, around) + chunk
        else:
            # A clause begins with its name; one of an operator doesn't, and follows its signature.
            first = ANTT_TOKEN.match(chunk).group()
            owner = first if first in found else last
            if owner is not None:
                found[owner] += chunk
    return found


def definitions(text):
    """The text of each definition by its name: marks, signature and clauses, and the parameters of a section around it."""
    return {name: antt_tokens(found) for name, found in definition_texts(without_comments(text), "").items()}


def antt_imports(text):
    return antt_tokens("".join(chunk for chunk in chunks(without_comments(text)) if USE.match(chunk)))


def lines_but_imports(text):
    """The lines of an .antt file, without comments, blank lines and imports."""
    kept = [chunk for chunk in chunks(without_comments(text)) if not USE.match(chunk)]
    return [" ".join(line.split()) for chunk in kept for line in chunk.splitlines() if line.strip()]


# ---- .rt

RT_TOKEN = re.compile(r"""
    (?P<comment> //[^\n]* | /\*.*?\*/ )
  | b?r(?P<hashes>\#*)".*?"(?P=hashes) | b?"(?:\\.|[^"\\])*"
  | b?'(?:\\(?:x[0-9a-fA-F]{2}|u\{[^}]*\}|.)|[^\\'\n])'
  | \w+ | \S
""", re.X | re.S)
OPENING, CLOSING = "([{", ")]}"
CLAUSES = ("ghost", "requires", "ensures")
BLOCKS = ("impl", "mod", "trait", "extern")
TYPES = ("struct", "enum", "union")
VALUES = ("const", "static", "type")
KINDS = ("use",) + BLOCKS + TYPES + VALUES

# `scope` has the names of the mod and impl blocks around it. The signature is without the name.
Function = namedtuple("Function", "scope name visibility signature requires ensures body")
Declaration = namedtuple("Declaration", "scope name text")


class RattleFile:
    """The functions, the types and constants (`declarations`) and the imports of an .rt file."""

    def __init__(self, text):
        self.text = text
        self.tokens = [match for match in RT_TOKEN.finditer(text) if not match["comment"]]
        self.words = [token.group() for token in self.tokens]
        self.functions, self.declarations, self.imports = [], [], ""
        scope, at = (), 0
        while at < len(self.words):
            at, scope = self.read_item(at, scope)

    def read_item(self, at, scope):
        """Reads the item at `at`; the place behind it, or behind the head of a block, and the scope there."""
        if self.words[at] == "}":
            return at + 1, scope[:-1]
        head = self.find(at, ";{}")
        kind, opens = self.kind_of(at, head), self.words[head:head + 1] == ["{"]
        if kind == "use":
            end = self.find(at, ";", inside=True) + 1
            self.imports += self.code(at, end) + " "
        elif kind == "fn":
            end = self.read_function(at, scope)
        elif kind in BLOCKS and opens:
            return head + 1, scope + (block_name(self.words[at:head], kind),)
        else:
            # A constant may have braces in its value; a type ends with its braces.
            end = self.after_block(head) if opens and kind not in VALUES else self.find(at, ";") + 1
            if kind in TYPES + VALUES:
                mark = self.words.index(kind, at)
                self.declarations.append(Declaration(named(scope), self.code(mark + 1, mark + 2), self.code(at, end)))
        return end, scope

    def kind_of(self, at, head):
        """What an item is, by its first words; `fn` first, since a function may be `const` or `extern`."""
        words = self.words[at:head]
        if any(word == "fn" and after.isidentifier() for word, after in zip(words, words[1:])):
            return "fn"
        return next((word for word in words if word in KINDS), "")

    def find(self, at, marks, inside=False):
        """The place of the first of these marks from `at` on: outside of brackets, or also inside."""
        depth = 0
        for place in range(at, len(self.words)):
            word = self.words[place]
            if word in marks and (inside or depth == 0):
                return place
            depth += (word in OPENING) - (word in CLOSING)
        return len(self.words)

    def after_block(self, at):
        """The place behind the block that opens at `at`. Names in a contract may hold other brackets than braces."""
        depth = 0
        for place in range(at, len(self.words)):
            depth += (self.words[place] == "{") - (self.words[place] == "}")
            if depth == 0:
                return place + 1
        return len(self.words)

    def code(self, at, end):
        """The tokens of code. A comma before a closing bracket is layout."""
        words = self.words[at:end]
        return " ".join(word for word, after in zip(words, words[1:] + [""]) if not (word == "," and after and after in CLOSING))

    def contract(self, at, end):
        """The tokens of a part of a contract, which is antt."""
        return antt_tokens(self.text[self.tokens[at].start():self.tokens[end - 1].end()]) if at < end else ""

    def read_function(self, at, scope):
        mark = self.words.index("fn", at)
        end = self.find(mark, CLAUSES + ("{", ";"))
        # A ghost value is a parameter, so it counts as a part of the signature.
        clauses = {"ghost": self.code(mark + 2, end), "requires": "", "ensures": ""}
        while end < len(self.words) and self.words[end] in CLAUSES:
            after = self.after_block(self.find(end, "{"))
            clauses[self.words[end]] += " " + self.contract(end, after)
            end = after
        after = self.after_block(end) if self.words[end:end + 1] == ["{"] else end + 1
        self.functions.append(Function(named(scope), self.words[mark + 1], self.code(at, mark), clauses["ghost"], clauses["requires"],
                                       clauses["ensures"], self.code(end, after)))
        return after


def named(scope):
    """The blocks around an item that have a name."""
    return tuple(filter(None, scope))


def block_name(words, kind):
    """The name that a block gives to what stands in it: a module's, the type's of an impl, or as rt names an impl of a trait, `FourFromU32` for
    `impl From<u32> for Four`; none of `extern`."""
    if kind == "extern":
        return ""
    words = words[words.index(kind) + 1:]
    if "for" not in words:
        return first_name(words)
    trait, of = words[:words.index("for")], words[words.index("for") + 1:]
    name = first_name(of)
    return capital(name) + "".join(capital(word) for word in after_parameters(trait))


def first_name(words):
    depth = 0
    for word in words:
        depth += (word == "<") - (word == ">")
        if depth == 0 and re.fullmatch(r"\w+", word):
            return word
    return ""


def after_parameters(words):
    """The words behind the parameters of an impl."""
    depth = 0
    for place, word in enumerate(words):
        depth += (word == "<") - (word == ">")
        if depth == 0:
            return words[place + (place > 0):]
    return []


def capital(word):
    """A word as a part of an impl's name: an array is told, and brackets are not."""
    if word == "[":
        return "Array"
    return word[:1].upper() + word[1:] if re.fullmatch(r"\w+", word) else ""


def module_of(path):
    """The module that a file of src/ is, as a list of names: none for lib.rt and main.rt."""
    names = path[:-len(".rt")].split("/")
    return names[:-1] if names[-1] in ("lib", "main", "mod") else names
