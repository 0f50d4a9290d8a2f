"""Reads the sources of a crate: what each file declares, and what its root hands out.

It knows the layout of `rt fmt`, comments, strings and brackets, and nothing of types. .ci/api prints what it reads.
"""
import os
import re

TOKEN = re.compile(
    r"""(?P<doc>///[^\n]*)|(?P<inner>//![^\n]*)|(?P<comment>//[^\n]*|/\*.*?\*/)|(?P<space>\s+)"""
    r"""|(?P<string>b?r(?P<hash>\#*)".*?"(?P=hash)|b?"(?:\\.|[^"\\])*"|b?'(?:\\(?:u\{[^}]*\}|x..|.)|[^'\\\n])')"""
    r"""|(?P<lifetime>'[A-Za-z_]\w*)|(?P<arrow>->|=>|::)|(?P<word>\w+)|(?P<mark>.)""",
    re.S | re.X,
)
WIDTH = 96
OPEN, CLOSE = "([{", ")]}"
CLAUSES = {"requires", "ensures", "ghost", "decreases"}


class Unread(Exception):
    """A source that this script doesn't understand."""


class Tokens:
    """The tokens of a file, spaces and comments left out, doc comments kept."""

    def __init__(self, file):
        with open(file, encoding="utf-8") as it:
            self.text = it.read()
        self.file, self.at, self.all, self.inner = file, 0, [], []
        for found in TOKEN.finditer(self.text):
            kind = found.lastgroup if found.lastgroup != "hash" else "string"
            if kind == "inner":
                self.inner.append(found.group()[3:].strip())
            elif kind not in ("comment", "space"):
                self.all.append((kind, found.group(), found.start(), found.end()))

    def peek(self, ahead=0):
        """The text of a token further on, empty at the end."""
        at = self.at + ahead
        return self.all[at][1] if at < len(self.all) else ""

    def kind(self):
        """The kind of the next token."""
        return self.all[self.at][0] if self.at < len(self.all) else "end"

    def take(self):
        """The next token's text; it is taken."""
        if self.at >= len(self.all):
            raise Unread(f"{self.file}: ends within an item")
        self.at += 1
        return self.all[self.at - 1][1]

    def start(self):
        """Where the next token begins."""
        return self.all[self.at][2] if self.at < len(self.all) else len(self.text)

    def end(self):
        """Where the last token that was taken ends."""
        return self.all[self.at - 1][3]

    def group(self):
        """Takes what is between a bracket and its like, both too; answers where it stands."""
        begin, depth = self.start(), 0
        while True:
            token = self.take()
            depth += (token in OPEN) - (token in CLOSE) if len(token) == 1 else 0
            if depth == 0:
                return begin, self.end()

    def until(self, ends):
        """Takes tokens up to one of these outside all brackets, which isn't taken; answers where they stand."""
        begin = self.start()
        while self.peek() not in ends:
            if len(self.peek()) == 1 and self.peek() in OPEN:
                self.group()
            else:
                self.take()
        return begin, self.start()


def plain(text):
    """A piece of source in one line, without comments."""
    text = "".join(
        " " if found.lastgroup in ("space", "comment", "doc") else found.group() for found in TOKEN.finditer(text)
    )
    text = re.sub(r"\s+", " ", text).strip()
    return re.sub(r",? ([)\]])", r"\1", re.sub(r"([(\[]) ", r"\1", text))


def split(text):
    """The parts of a list between commas that stand outside all brackets."""
    parts, depth, angle, begin = [], 0, 0, 0
    for found in TOKEN.finditer(text):
        token = found.group()
        if len(token) == 1:
            depth += (token in OPEN) - (token in CLOSE)
            angle += (token == "<") - (token == ">")
            if token == "," and depth == 0 and angle == 0:
                parts.append(text[begin : found.start()])
                begin = found.end()
    return [part for part in [*parts, text[begin:]] if part.strip()]


def paragraph(docs):
    """The first paragraph of a doc comment, by its lines."""
    lines = []
    for line in docs:
        if not line.strip():
            break
        lines.append(line.strip())
    return lines


class Item:
    """A struct, an enum, a trait, a constant, a type or a function, as it is printed."""

    def __init__(self, kind, name, docs, text, derives=(), clauses=()):
        self.kind, self.name, self.docs, self.text = kind, name, docs, text
        self.derives, self.clauses = list(derives), list(clauses)


class Module:
    """What a file declares."""

    def __init__(self):
        self.items, self.uses, self.inner, self.impls = {}, [], {}, []


def head_of(tokens):
    """Doc lines and attributes in front of an item; inner attributes are passed over."""
    docs, attributes = [], []
    while True:
        if tokens.kind() == "doc":
            docs.append(tokens.take()[3:].strip())
        elif tokens.peek() == "#":
            tokens.take()
            is_inner = tokens.peek() == "!"
            if is_inner:
                tokens.take()
            begin, end = tokens.group()
            if not is_inner:
                attributes.append(plain(tokens.text[begin:end]))
        else:
            return docs, attributes


def visibility(tokens):
    """Whether `pub` stands in front, for everybody."""
    if tokens.peek() != "pub":
        return False
    tokens.take()
    if tokens.peek() == "(":
        tokens.group()
        return False
    return True


def function(tokens, begin, docs):
    """A function from its name's keyword on, with its clauses; the body is passed over."""
    tokens.take()
    name = tokens.peek()
    tokens.until(CLAUSES | {"{", ";"})
    signature, clauses = plain(tokens.text[begin : tokens.start()]), []
    while tokens.peek() in CLAUSES:
        words = plain(tokens.text[slice(*tokens.until({"{", ";"}))]).replace("*", "").split()
        begin, end = tokens.group() if tokens.peek() == "{" else (tokens.start(), tokens.start())
        if words[0] == "requires":
            label = f"{words[1]}: " if len(words) > 1 else ""
            clauses.append((words[0], label + plain(tokens.text[begin + 1 : end - 1])))
        elif words[0] != "ghost":
            clauses.append((words[0], words[1] if len(words) > 1 else "(unnamed)"))
        elif tokens.peek() == ";":
            tokens.take()
    if tokens.peek() == "{":
        tokens.group()
    else:
        tokens.take()
    return Item("fn", name, docs, signature, clauses=clauses)


def fields_of(text):
    """The public fields of a struct, each with its docs, and whether it has private ones."""
    lines, has_private = [], False
    for part in split(text):
        docs = re.findall(r"///\s?([^\n]*)", part)
        field = re.sub(r"#\[[^\]]*\]\s*", "", plain(part))
        if field.startswith("pub "):
            lines += [*(f"    /// {doc.strip()}" for doc in paragraph(docs)), f"    {field},"]
        elif field.startswith("ghost "):
            lines.append(f"    // proved of each: {field[len('ghost '):].partition(':')[0].strip()}")
        else:
            has_private = True
    return lines, has_private


def struct(tokens, begin, docs, attributes):
    """A struct with its public fields."""
    tokens.take()
    name = tokens.peek()
    tokens.until({"{", ";", "("})
    header = plain(tokens.text[begin : tokens.start()])
    if tokens.peek() == "{":
        start, end = tokens.group()
        lines, has_private = fields_of(tokens.text[start + 1 : end - 1])
        lines += ["    // private fields"] if has_private else []
        text = "\n".join([f"{header} {{", *lines, "}"]) if lines else f"{header} {{}}"
    else:
        start, end = tokens.until({";"})
        tokens.take()
        inside = plain(tokens.text[start:end])
        text = header + (inside if "pub " in inside or not inside else "( /* private */ )") + ";"
    return Item("type", name, docs, text, derives_of(attributes))


def derives_of(attributes):
    """The traits that attributes derive."""
    return [
        word.split("::")[-1]
        for attribute in attributes
        if attribute.startswith("[derive(")
        for word in re.findall(r"[\w:]+", attribute[len("[derive(") :])
    ]


def variant_lines(part):
    """A variant of an enum, with its docs and fields."""
    docs = re.findall(r"^\s*///\s?([^\n]*)", part.split("{")[0], re.M)
    body = re.sub(r"#\[[^\]]*\]\s*", "", plain(part))
    lines = [f"    /// {doc.strip()}" for doc in paragraph(docs)]
    if len(body) + 5 <= WIDTH and not re.search(r"\{[^}]*///", part, re.S):
        return [*lines, f"    {body},"]
    name, inside = body.split("{", 1)[0].strip(), part.split("{", 1)[1].rsplit("}", 1)[0] if "{" in part else None
    if inside is None:
        return [*lines, f"    {body},"]
    lines.append(f"    {name} {{")
    for field in split(inside):
        lines += [f"        /// {doc.strip()}" for doc in paragraph(re.findall(r"///\s?([^\n]*)", field))]
        lines.append(f"        {plain(field)},")
    return [*lines, "    },"]


def enumeration(tokens, begin, docs, attributes):
    """An enum with its variants."""
    tokens.take()
    name = tokens.peek()
    tokens.until({"{"})
    header = plain(tokens.text[begin : tokens.start()])
    start, end = tokens.group()
    lines = [line for part in split(tokens.text[start + 1 : end - 1]) for line in variant_lines(part)]
    return Item("type", name, docs, "\n".join([f"{header} {{", *lines, "}"]), derives_of(attributes))


def trait(tokens, begin, docs):
    """A trait with its types and calls, which are kept beside its header."""
    tokens.take()
    name = tokens.peek()
    tokens.until({"{"})
    item = Item("trait", name, docs, plain(tokens.text[begin : tokens.start()]))
    item.members = members(tokens)
    return item


def members(tokens):
    """What stands between the braces of an impl or a trait: each function, with whether it is public; each type."""
    tokens.take()
    found = []
    while tokens.peek() != "}":
        docs, _ = head_of(tokens)
        begin = tokens.start()
        is_public = visibility(tokens)
        while tokens.peek() in ("unsafe", "extern") or (tokens.peek() == "const" and tokens.peek(1) == "fn"):
            tokens.take()
            if tokens.kind() == "string":
                tokens.take()
        if tokens.peek() == "fn":
            item = function(tokens, begin, docs)
            item.is_public = is_public
            found.append(("fn", item))
        elif tokens.peek() == "type":
            start, end = tokens.until({";"})
            tokens.take()
            found.append(("type", plain(tokens.text[start:end]) + ";"))
        else:
            tokens.until({";", "}"})
            if tokens.peek() == ";":
                tokens.take()
    tokens.take()
    return found


def implementation(tokens):
    """An impl block: its header, the trait if there is one, the type's name, and what stands in it."""
    begin = tokens.start()
    tokens.until({"{"})
    header = plain(tokens.text[begin : tokens.start()])
    rest = re.sub(r"^(unsafe )?impl\s*", "", header)
    if rest.startswith("<"):
        depth = 0
        for at, letter in enumerate(rest):
            depth += (letter == "<") - (letter == ">")
            if depth == 0:
                rest = rest[at + 1 :].strip()
                break
    of_trait, _, self_type = rest.partition(" for ") if " for " in rest else ("", "", rest)
    name = re.match(r"&?(?:'\w+ )?(?:mut )?([\w:]+)", self_type)
    return header, of_trait.strip(), name.group(1).split("::")[-1] if name else self_type, members(tokens)


def use_paths(text):
    """The paths of a `use`, each with the name that it brings."""
    text = text.strip()
    found = re.fullmatch(r"(.*?)\{(.*)\}", text, re.S)
    if found:
        return [(found.group(1).strip() + path, name) for part in split(found.group(2)) for path, name in use_paths(part)]
    path, _, alias = text.partition(" as ")
    return [(path.strip(), alias.strip() or path.strip().split("::")[-1])]


def read_module(file, folder):
    """A file, with the modules that it names, of which those of tests are left out."""
    tokens, module = Tokens(file), Module()
    while tokens.kind() != "end":
        docs, attributes = head_of(tokens)
        if tokens.kind() == "end":
            break
        begin = tokens.start()
        is_public = visibility(tokens)
        word = tokens.peek()
        if word == "mod":
            tokens.take()
            name = tokens.take()
            if tokens.peek() == "{":
                tokens.group()
                continue
            tokens.take()
            if not any("cfg(test" in attribute for attribute in attributes):
                module.inner[name] = (read_module(*module_file(folder, name)), is_public)
        elif word == "use":
            tokens.take()
            start, end = tokens.until({";"})
            tokens.take()
            if is_public:
                module.uses += use_paths(plain(tokens.text[start:end]))
        elif word == "struct":
            keep(module, struct(tokens, begin, docs, attributes), is_public)
        elif word == "enum":
            keep(module, enumeration(tokens, begin, docs, attributes), is_public)
        elif word == "trait":
            keep(module, trait(tokens, begin, docs), is_public)
        elif word == "impl" or (word == "unsafe" and tokens.peek(1) == "impl"):
            module.impls.append(implementation(tokens))
        elif word in ("const", "static", "type") and tokens.peek(1) != "fn":
            name = tokens.peek(1)
            start, end = tokens.until({";"})
            tokens.take()
            keep(module, Item("const" if word != "type" else "type", name, docs, plain(tokens.text[begin:end]) + ";"), is_public)
        elif word in ("fn", "const", "unsafe", "extern"):
            while tokens.peek() != "fn":
                tokens.take()
            keep(module, function(tokens, begin, docs), is_public)
        else:
            tokens.until({";", "{", "}"})
            if tokens.peek() == "{":
                tokens.group()
            else:
                tokens.take()
    module.words = tokens.inner
    return module


def keep(module, item, is_public):
    """Keeps an item under its name; a function and a type may share one."""
    item.is_public = is_public
    module.items[(item.name, item.kind == "fn")] = item


def module_file(folder, name):
    """The file of a module, and the folder of those that it names."""
    for file in (f"{folder}/{name}.rt", f"{folder}/{name}/mod.rt"):
        if os.path.exists(file):
            return file, f"{folder}/{name}"
    raise Unread(f"{folder}: there is no file of mod {name}")


def all_impls(module):
    """The impl blocks of a module and of those in it."""
    return module.impls + [block for inner, _ in module.inner.values() for block in all_impls(inner)]


def find(root, module, path, seen=()):
    """The items that a path names: in this crate, none where it leads out of it."""
    parts = [part for part in path.split("::") if part]
    if parts and parts[0] == "crate":
        module, parts = root, parts[1:]
    elif parts and parts[0] == "self":
        parts = parts[1:]
    while len(parts) > 1 and parts[0] in module.inner:
        module, parts = module.inner[parts[0]][0], parts[1:]
    if len(parts) != 1 or (path in seen):
        return []
    here = [item for (name, _), item in module.items.items() if name == parts[0]]
    if here:
        return here
    for further, name in module.uses:
        if name == parts[0]:
            return find(root, module, further, (*seen, path))
    return []
