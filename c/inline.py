#!/usr/bin/env python3
"""Prints komihash_rattle_inline.h: inline.py CRATE, the folder of the crate for Rust.

By hand are inline.h.in, with the bodies of calls, and komihash_rattle.h, which declares them. All
else is the crate's code in C, with its names, comments and order, as far as the calls need it. This
script knows the part of Rust that the crate uses, and refuses all else with the reason. In C:

- A slice is passed as a pointer and a length, of which a function has those that it uses. One that
  is returned or assigned is a struct, as are tuples and arrays. Bounds aren't tested.
- `const V: u8` is a first parameter, which inlining makes a constant. A function that isn't inlined
  has a copy for each version, and one that is generic over a trait a copy for each type.
- A stream is returned by a pointer, because gcc copies it otherwise, with bytes that nothing wrote.
  An optional one comes with a bool. Any other `None` is KOMIHASH_NONE.
- A later `let` of the same name and type is an assignment. A `let` with a type has its value later.
"""
import re
import sys
import textwrap
from pathlib import Path

MODULES = "utils rounds whole_words padding hash pending stream/saved stream/streamed generator"
ITEM = re.compile(r"""\n+|//\ Made.*\n|use\ [^;]*;\n|(?P<closing>\}\n)|(?P<title>(?://!.*\n)+)
    |(?P<note>(?:\ *//.*\n)*)(?P<marks>(?:\ *\#\[.*\]\n)*)
    (?P<indent>\ *)(?:pub(?:\(crate\))?\ )?(?:trait\ (?:.*\n)+?\}\n
    |(?:const\ )?fn\ (?P<fn>\w+)(?:<(?P<of>[^>]*)>)?(?P<begin>\()(?:.*\n)+?(?P=indent)\}\n
    |struct\ (?P<struct>\w+)[^{]*\{\n(?P<fields>(?:.*\n)+?)\}\n
    |const\ (?P<constant>\w+):\ (?P<type>\w+)\ =\ (?P<value>.*);\n
    |impl(?:<(?P<numbers>[^>]*)>)?\ (?:\w+\ for\ )?(?P<owner>[&\w\[\]]+)[^{]*\{\n)""", re.X)
TOKEN = re.compile(r"""(?:\s|'a\b(?!'))*(//[^\n]*(?:\s*//[^\n]*)*|"[^"\\]*"
    |0x[0-9a-f_]+\b|\d[\d_]*\b|[A-Za-z_]\w*|::|->|\.\.|&&|\|\||[=!<>]=|<<|>>|\|=|$
    |[-+*/%^&|!<>=.,;:(){}\[\]#?])""", re.X)
# The operators of Rust, the loosest first.
LEVELS = [ops.split(",") for ops in "|| && ==,!=,<,>,<=,>= | ^ & <<,>> +,- *,/,%".split()]
# How tightly C binds, and what compilers want in parentheses though C doesn't.
BINDS = {op: level for level, ops in enumerate(
    "? || && | ^ & ==,!= <,>,<=,>= <<,>> +,- *,/,% unary atom".split()) for op in ops.split(",")}
UNCLEAR = {"||": "&&", "|": "^ & + -", "^": "& + -", "&": "+ -", "<<": "+ -", ">>": "+ -"}
NUMBERS = {"u8": "uint8_t", "u32": "uint32_t", "u64": "uint64_t", "usize": "size_t"}
TYPES = {**NUMBERS, "bool": "bool", "": "void", "&[u8]": "komi_bytes", "(u64,u64)": "komi_two",
         "[u8;8]": "komi_eight", "[u64;8]": "komi_block", "[usize;8]": "komi_indices",
         "XoredPair": "komi_pair", "Lanes": "komi_lanes", "Pending": "komi_pending",
         "StreamedKomihash": "komi_stream", "Komirand": "komi_rand",
         "Option<usize>": "size_t", "Option<StreamedKomihash>": "bool"}
SCALE = {"[u8;8]": 8, "[u64;2]": 2}  # chunks, which C counts by their elements
SCALARS = {**dict.fromkeys(("wrapping_add", "to_le_bytes", "ilog2", "rotate_left"), "u64"),
           "min": "usize"}  # methods of numbers, and their types
CHUNKS = "first_chunk", "last_chunk", "split_first_chunk"
MARKS = {"inline(always)": "KOMI_INLINE", "inline(never)": "KOMI_APART",
         "cfg_attr(any(debug_assertions,for_c),inline(never))": "KOMI_SHORT"}
IGNORED = re.compile(r"allow\(.*|must_use|track_caller|cfg_attr\(.*debug_assertions.*inline.*")
READ_AGAIN = "C reads this again, as a length or as where to end"
# The bodies of functions whose C is by hand in inline.h.in, where a slice is its pointer alone.
BY_HAND = {
    "read_word": "u64::from_le_bytes(*bytes.first_chunk().unwrap())",
    "half_word_at": """let piece = &bytes[at..];
        u64::from(u32::from_le_bytes([piece[0], piece[1], piece[2], piece[3]]))""",
    "write_word": "*out.first_chunk_mut().unwrap() = word.to_le_bytes();",
    "copy_array": "*out.first_chunk_mut::<N>().unwrap() = *bytes.first_chunk().unwrap();",
    "byte_at": "words[at / 8].to_le_bytes()[at % 8]",
    "multiply128": """let product = x as u128 * y as u128;
        ((product & 0xffff_ffff_ffff_ffff) as u64, (product >> 64) as u64)"""}


class Value:
    """An expression of C: its text, its type in Rust, its operator, its parts if it has braces, as
    a pointer and a length have that stand for a slice, and whether it changes something."""
    def __init__(self, text, type="usize", op="atom", parts=(), changes=False):
        self.text, self.type, self.op, self.parts, self.changes = text, type, op, parts, changes

    def within(self, op, right=False):
        """Returns the text as an operand, in parentheses where these are needed."""
        known(not self.changes, "C chooses the order of evaluation")
        known(not self.parts, "C has this only in parts")
        looser = BINDS[self.op] < BINDS[op] + right
        return f"({self.text})" if looser or self.op in UNCLEAR.get(op, "").split() else self.text

    def joined(self, op, other):
        return self if op in "+-" and other.text == "0" else \
            Value(f"{self.within(op)} {op} {other.within(op, True)}", self.type, op)

    def start(self):
        """Returns the pointer to the first element of a slice or array."""
        return self.parts[0] if self.parts else Value(self.text + ".at")

    def size(self):
        """Returns the length of a slice or array. Of chunks, it counts the bytes."""
        size = element(self.type)[2]
        return Value(size) if size else self.parts[1] if self.parts else \
            Value(self.within("atom") + ".length")

    def times(self, number):
        return self if number == 1 else Value(str(number * int(self.text))) \
            if self.text.isdigit() else Value(str(number)).joined("*", self)

    def part(self, begin, length=None):
        """Returns the slice of `length` elements from `begin` on, or of all from there."""
        reference, of, _ = element(self.type)
        begin, scale = begin.times(SCALE.get(of, 1)), SCALE.get(of, 1)
        length = length.times(scale) if length else self.size().joined("-", begin)
        return pointer(f"{reference or '&'}[{of}]", self.start().joined("+", begin), length)


def known(holds, why="unknown"):
    """Refuses the code that is being read if this doesn't hold. `header` says where that is."""
    if not holds:
        raise LookupError(why)


def element(type):
    """Returns of an array or a slice the reference, the type of elements, and the size."""
    found = re.fullmatch(r"(&(?:mut)?|)\[(.*?)(?:;(\w+))?\]", type)
    return found.groups() if found else (None, None, None)


def declared(type, name, points=False):
    """Returns the declaration of a name, or of a pointer to the elements of a slice."""
    if not points and (type in TYPES or type[0] != "&"):
        return f"{TYPES[type]} {name}"
    reference, of = re.fullmatch(r"(&(?:mut)?)\[*(\w+)[\w;\]]*", type).groups()
    return f"{'' if 'mut' in reference else 'const '}{TYPES[of]} *{name}"


def braces(type, parts):
    texts = [part.text if part.parts else part.within("?") for part in parts]
    return Value("{%s}" % ", ".join(texts), type, parts=parts)


def pointer(type, at, length=None):
    """Returns a reference to an array or a slice, "@" if C has no struct for both its parts."""
    length = length or Value(element(type)[2])
    text = f"{{{at.text}, {length.text}}}" if type == "&[u8]" else "@"
    return Value(text, type, parts=[at, length])


def number_of(text):
    return f"UINT64_C({digits})" if len(digits := text.replace("_", "")) > 9 else digits


def wrapped(text, depth):
    """Returns the lines of a statement or a comment."""
    indent, lines = "    " * depth, []
    if text.startswith("/* "):
        for paragraph in f"{text[3:]}\xa0*/".split("\n"):
            lines += ["", *textwrap.wrap(paragraph, 97 - len(indent), break_on_hyphens=False)]
        return [f"{indent}{' *' if k else '/*'} {line}".replace("\xa0", " ").rstrip()
                for k, line in enumerate(lines[1:])]
    while len(indent + text) > 100:
        # Of the places for a break, the last of those in the fewest brackets, best after a comma.
        places = re.finditer(r", | [|&^:?]+ | \|?= (?!{)|\) (?=KOMI)", text)
        cuts = [it.end() for it in places if 30 < len(indent) + it.end() <= 101]
        cut = max(cuts, key=lambda cut: (
            len(re.findall("[)}]", text[:cut])) - len(re.findall("[({]", text[:cut])),
            text[cut - 2] == ",", cut))
        lines.append(indent + text[:cut].rstrip())
        text, indent = text[cut:], "    " * (depth + 1)
    return [*lines, indent + text] if text else lines


class Expressions:
    """Reads a function's tokens, and makes values of expressions by the names of `Function`."""
    def __init__(self, crate, path, it):
        self.crate, self.tokens, self.places, self.i, place = crate, [], [], 0, it.start("begin")
        while place < it.end():
            crate.place = path, it.string, place
            found = TOKEN.match(it.string, place) or known(False)
            place = found.end()
            self.tokens.append(found[1])
            self.places.append(crate.place)

    def peek(self, ahead=0):
        return self.tokens[self.i + ahead]

    def take(self, *wanted):
        self.crate.place = self.places[self.i]
        token, self.i = self.peek(), self.i + 1
        known(not wanted or token in wanted, f"unknown {token!r}, not {' or '.join(wanted)!r}")
        return token

    def has(self, *texts):
        found = tuple(self.tokens[self.i:self.i + len(texts)]) == texts
        self.i += found * len(texts)
        return found

    def skip(self, *ends):
        """Skips up to one of these tokens that no brackets surround."""
        depth, begin = 0, self.i
        while depth or self.peek() not in ends:
            depth += (self.peek() in ("(", "[", "{")) - (self.peek() in (")", "]", "}"))
            self.take()
        return "".join(self.tokens[begin:self.i])

    def listed(self, brackets, one):
        """Returns what `one` returns of each item in brackets."""
        items = self.take(brackets[0]) and []
        while not self.has(brackets[1]):
            items.append(one())
            known(self.peek() == brackets[1] or self.take(","))
        return items

    def expression(self, level=0):
        if level == len(LEVELS):
            value = self.unary()
            while self.has("as"):
                value = self.converted(value, self.take())
            return value
        left, compares, shifts = self.expression(level + 1), level < 3, level == 6
        while self.peek() in LEVELS[level]:
            op, right = self.take(), self.expression(level + 1)
            type = right.type if left.type == "int" and not shifts else left.type
            known(shifts or right.type in (type, "int"), f"{op} of two types")
            known(compares or type in ("u64", "usize") or op in "&|/%" and type in NUMBERS or
                  type == "int" and not shifts, "C may compute this as an int")
            left = left.joined(op, right)
            left.type = "bool" if compares else type
        return left

    def converted(self, value, type):
        return Value(f"({NUMBERS[type]}){value.within('unary')}", type, "unary")

    def unary(self):
        if self.peek() not in ("&", "*", "!"):
            return self.postfix(self.primary())
        op = self.take() + ("mut" if self.has("mut") else "")
        value = self.unary()
        if op == "!":
            known(value.type == "bool", "! of a number is another operator in C")
            return Value(value.text.replace(" == ", " != "), "bool", "!=") if value.op == "==" \
                else Value("!" + value.within("unary"), "bool", "unary")
        if op != "*" and value.type.startswith("&"):
            return value  # a slice, or what a parameter refers to
        type = re.sub("^&(mut)?", "", value.type) if op == "*" else op + value.type
        if not element(value.type)[1]:
            return Value(op[0] + value.within("unary"), type, "unary")
        known(value.parts or "(" not in value.text, "a reference to what a call returns")
        return pointer(type, value.start())

    def primary(self):
        if self.peek() == "(":
            parts = self.listed("()", self.expression)
            return braces("tuple", parts) if len(parts) > 1 else \
                Value(f"({parts[0].within('?')})", parts[0].type)
        if self.peek() in ("[", "if"):
            return self.array() if self.peek() == "[" else self.choice()
        owner, name = "", self.take()
        while self.peek() == "::" and self.peek(1) != "<":
            owner, name = name.replace("Self", self.owner), self.take() and self.take()
        if name[0].isdigit():
            return Value(number_of(name), "int")
        if name in ("true", "false", "None"):
            return Value("KOMIHASH_NONE", name) if name == "None" else Value(name, "bool")
        given = self.turbofish()
        if self.peek() == "(":
            key = (owner if (owner, name) in self.crate.functions else "", name)
            return self.call(key, given) if key in self.crate.functions else self.made(owner, name)
        if name in self.crate.structs and self.peek() == "{":
            fields = list(self.crate.structs[name])
            parts = self.listed("{}", lambda: self.field(fields))
            return known(not fields, "too few fields") or braces(name, parts)
        self.crate.used.add(name)
        return Value("KOMI_" + name, self.crate.constants[name]) \
            if name in self.crate.constants else self.names[name]

    def turbofish(self):
        numbers = self.listed("<>", self.take) if self.has("::") else []
        return [self.names[text].text if text in self.names else text for text in numbers]

    def made(self, owner, name):
        """Returns the value of a call of what is Rust's own."""
        value = self.listed("()", self.expression)[0]
        if name == "from":
            return self.converted(value, owner)
        if name == "from_le_bytes":
            known((owner, element(value.type)[2]) == ("u64", "8"), "not a u64 of 8 bytes")
            return Value(f"komi_read_word({value.start().text})", owner)
        return known(name == "Some", f"unknown function {name!r}") or value

    def array(self):
        if self.has("[", "0", ";", "8", "]"):
            return Value("{{0}}", "[u64;8]", parts=[Value("0")])
        parts = self.listed("[]", self.expression)
        type = f"[{parts[0].type.replace('int', 'usize')};{len(parts)}]"
        return Value(f"{{{braces(type, parts).text}}}", type, parts=parts)

    def field(self, fields):
        """Returns the value of the next of the fields that are left."""
        name = self.take()
        known(fields and name == fields.pop(0), "not the next field of the struct")
        return self.expression() if self.has(":") else self.names[name]

    def choice(self):
        condition = self.take("if") and self.expression()
        [yes] = self.listed("{}", self.expression)
        [no] = self.take("else") and self.listed("{}", self.expression)
        return self.chosen(condition, yes, no)

    def chosen(self, condition, yes, no):
        if yes.parts:
            parts = [self.chosen(condition, *both) for both in zip(yes.parts, no.parts)]
            known(all(part.op == "atom" for part in parts), "parts of a choice aren't names")
            return braces("tuple", parts)
        type = no.type if yes.type in ("int", "None") else yes.type
        if type == "u64" and re.fullmatch(r"\w+ \w+", f"{yes.text} {no.text}"):
            return Value(f"komi_either({condition.text}, {yes.text}, {no.text})", type)
        return Value(f"{condition.within('||')} ? {yes.within('||')} : {no.within('?')}", type, "?")

    def call(self, key, numbers, of=()):
        it, values = self.crate.functions[key][1], [*of, *self.listed("()", self.expression)]
        bound = re.sub("^&(?=[A-Z])", "", values[1].type) if "W:" in (it["of"] or "") else ""
        done, given = self.crate.printed(key, bound), dict(zip(numbers_in(it["of"]), numbers))
        self.order, self.called = max(self.order, done.order), done
        texts = [given.get(name) or self.names[name].text for name in done.generics]
        for value, type in zip(values, done.types):
            points = element(type)[0]
            texts += [value.start().text, value.size().text] if points else [value.within("?")]
        texts = [text for name, text in zip(done.parameters, texts) if name in done.used]
        call = f"KOMI_COPY_OF({texts[0]}, {done.name}, ({', '.join(texts[1:])}))" \
            if done.is_copied else f"{done.name}({', '.join(texts)})"
        return Value(call, done.result, changes=any(type[:4] == "&mut" for type in done.types))

    def postfix(self, value):
        while self.peek() in ("[", "."):
            if self.take() == "[":
                value = self.indexed(value)
            elif self.peek().isdigit():
                value = value.parts[int(self.take())]
            elif self.peek(1) in ("(", "::"):
                value = self.method(value, self.take())
            else:
                arrow, name = "->" if value.type.startswith("&") else ".", self.take()
                value = Value(f"{value.within('atom')}{arrow}{name}",
                              self.crate.structs[re.sub("^&(mut)?", "", value.type)][name])
        return value

    def indexed(self, value):
        start = Value("0") if self.peek() == ".." else self.expression()
        is_range = self.has("..")
        end = self.expression() if is_range and self.peek() != "]" else None
        self.take("]")
        if is_range:
            return value.part(start, end and end.joined("-", start))
        of = element(value.type)[1]
        return pointer(of, value.part(start).start()) if of in SCALE else \
            Value(f"{value.start().within('atom')}[{start.within('?')}]", of)

    def method(self, value, name):
        key = (re.sub("^&(mut)?(?=[A-Z])", "", value.type), name)
        numbers = self.turbofish()
        if key in self.crate.functions:
            return self.call(key, numbers, [value if value.type[0] == "&" else Value(
                "&" + value.within("unary"), "&mut" + value.type, "unary")])
        given = self.listed("()", self.expression)
        if name == "unwrap":  # of a chunk, which is there
            return known(value.parts, "unwrap of what is no chunk") or value
        known(value.type == SCALARS.get(name, value.type), f"no {name} of {value.type} in C")
        if name == "wrapping_add":
            return value.joined("+", given[0])
        if name in SCALARS:
            return Value(f"komi_{name}({', '.join(part.within('?') for part in [value] + given)})",
                         {"ilog2": "u32", "to_le_bytes": "[u8;8]"}.get(name, value.type))
        return self.of_slice(value, name, [*numbers, *given], element(value.type))

    def of_slice(self, value, name, given, array):
        """Returns the value of a method of slices and arrays, with a length in <..> or (..)."""
        scale, length = SCALE.get(array[1], 1), value.size()
        if name == "len":
            return length.joined("/", Value(str(scale))) if scale > 1 else length
        if name == "is_empty":
            return Value(f"{length.text} == 0", "bool", "==")
        if name == "as_chunks":
            type = f"&[[{array[1]};{given[0]}]]"
            known(element(type)[1] in SCALE, f"unknown chunks {element(type)[1]}")
            return braces("tuple", [pointer(type, value.start(), length)])
        if name == "split_at":
            return braces("tuple", [value.part(Value("0"), given[0]), value.part(given[0])])
        known(name in CHUNKS and array[1] == "u8", f"unknown method {name!r} of {value.type}")
        size, at = Value(given[0] if given else "8"), value.start()
        at = at.joined("+", length).joined("-", size) if name == "last_chunk" else at
        chunk = pointer(f"{array[0] or '&'}[u8;{size.text}]", at)
        rest = Value(f"komi_bytes_after({value.part(size).text[1:-1]})", "&[u8]")
        return braces("tuple", [chunk, rest]) if name[0] == "s" else chunk


class Function(Expressions):
    """Reads the statements of a function, and prints it after those that it calls."""
    def __init__(self, crate, item, bound):
        path, it, self.owner, self.generics, self.mark, self.order = item
        super().__init__(crate, path, it)
        self.bound, self.lines, self.depth, self.read_again = bound, [], 1, set()
        self.called = self.stands_for = self
        self.names = {name: Value({"V": "version"}.get(name, name.lower()), type)
                      for name, type in self.generics.items()}
        self.parameters = {value.text: declared(value.type, value.text)
                           for value in self.names.values()}
        self.types = self.listed("()", self.parameter)
        self.result = self.type("where", "{") if self.has("->") else ""
        self.skip("{")
        self.name = c_name(self.owner, it["fn"]) + (TYPES[bound][4:] if bound else "")
        self.used = [name for name in self.parameters if not name.endswith("length")]
        if it["fn"] not in BY_HAND:
            return self.print(self.name, it["note"])
        self.is_copied, body = False, "{%s}" % re.sub(r"\s", "", BY_HAND[it["fn"]])
        known("".join(self.tokens[self.i:-1]) == body, "C has it by hand, for the body in BY_HAND")

    def type(self, *ends):
        type = self.skip(*ends).replace("Self", self.owner)
        return "&" + self.bound.lstrip("&") if type == "&W" else type

    def parameter(self):
        reference = "&mut" if self.has("&", "mut") else "&" if self.has("&") else ""
        name = self.take()
        type = self.type(",", ")") if self.has(":") else \
            self.owner if self.owner[0] == "&" else reference + self.owner
        points, length = element(type)[0], "length" if name == "bytes" else name + "_length"
        self.know(name, pointer(type, Value(name), Value(length)) if points else Value(name, type))
        self.parameters[name] = declared(type, name, points)
        if points:
            self.parameters[length] = f"size_t {length}"
            self.read_again.add(length)
        return type

    def print(self, name, note):
        self.block("return" if self.result else None)
        code = " ".join(text for _, text in self.lines if text[:2] != "/*")
        self.used = [name for name in self.parameters if re.search(rf"\b{name}\b", code)]
        if code == f"return {self.called.name}({', '.join(self.used)});":
            self.stands_for = self.called  # Its callers call that.
            return
        own, given = [self.parameters[name] for name in self.used], ", ".join(self.used[1:])
        self.is_copied = self.mark != "KOMI_INLINE" and "version" in self.used
        type = "" if self.result == "StreamedKomihash" else self.result
        lines = wrapped(self.crate.comment(note, self.names), 0)
        for end in ("", "_v4", "_v5") if self.is_copied else ("",):
            mark = "KOMI_INLINE" if self.is_copied and not end else self.mark
            head = ", ".join(own[bool(end):]) or "void"
            lines += wrapped(f"{mark} {declared(type, f'{name}{end}({head})')} {{", 0)
            call = f"    {'return ' if type else ''}{name}({end[2:]}, {given});"
            lines += [call] if end else [
                line for depth, text in self.lines for line in wrapped(text, depth)]
            lines += ["}", ""]
        self.crate.output.append((self.order, "\n".join(lines[:-1])))

    def emit(self, *texts):
        known("@" not in "".join(texts), "C has only a pointer to this")
        self.lines += [(self.depth, text) for text in texts]

    def block(self, target):
        """Prints what is in braces. The value at its end goes to `target`."""
        outer, self.names = self.take("{") and self.names, dict(self.names)
        while not self.has("}"):
            self.statement(target)
        self.names = outer

    def inner(self, head, target=None):
        self.emit(head)
        self.depth += 1
        self.block(target)
        self.depth -= 1
        self.emit(*["}"] if self.peek() != "else" else [])

    def statement(self, target):
        if self.peek()[:2] == "//":
            self.emit(self.crate.comment(self.take(), self.names))
        elif self.has("let"):
            self.let()
        elif self.has("if"):
            self.conditional(target)
        elif self.has("while"):
            self.inner(f"while ({self.expression().text}) {{")
        elif self.has("for"):
            name = self.take()
            known(self.has("in", "0", ".."), "a loop that isn't in 0..n")
            end = self.expression().within("<")
            self.read_again.update(re.findall(r"[a-z]\w*", end))
            self.know(name, Value(name))
            self.inner(f"for (size_t {name} = 0; {name} < {end}; {name}++) {{")
        elif self.has("assert", "!"):
            known(self.skip(";") and self.take())
        else:
            self.simple(target, self.has("return"))

    def simple(self, target, returns):
        value = Value("", "") if self.peek() == ";" else self.expression()
        if self.peek() in ("=", "|=") and not returns:
            known(re.sub(r".*\W", "", value.text) not in self.read_again, READ_AGAIN)
            op, other = self.take(), self.expression()
            self.emit(f"{value.text} {op} {self.unbraced(other, 'value')};")
        else:
            self.give("return" if returns else self.peek() == "}" and target, value)
        known(self.peek() == "}" or self.take(";"))

    def unbraced(self, value, name):
        """Returns the text of a value. One in braces becomes a constant of this name."""
        if not value.parts:
            return value.text
        self.emit(f"const {TYPES[value.type]} {name} = {value.text};")
        return name

    def give(self, target, value):
        """Prints what becomes of the value at the end of a block."""
        if target == "return" and "StreamedKomihash" in self.result:
            self.parameters["result"] = "komi_stream *result"
            known(value.parts or value.type == "None", "a stream that another function returns")
            fields = zip(self.crate.structs["StreamedKomihash"], value.parts)
            self.emit(*[f"result->{field} = {part.text};" for field, part in fields], *[
                f"return {'true' if value.parts else 'false'};"] * ("Option" in self.result))
        elif target == "return":
            value.type = self.result
            self.emit(f"return {self.unbraced(value, 'result')}".rstrip() + ";")
        else:
            self.emit((f"{target} = " if target else "") + self.unbraced(value, "value") + ";")

    def conditional(self, target, begin="if"):
        condition = self.expression().text
        if self.has("{", "unreachable", "!", "(", ")", "}"):
            return  # The prover has shown that the condition never holds.
        self.inner(f"{begin} ({condition}) {{", target)
        if self.has("else", "if"):
            self.conditional(target, "} else if")
        elif self.has("else"):
            self.inner("} else {", target)

    def let(self):
        names = self.listed("()", self.take) if self.peek() == "(" else []
        is_fixed, name = not self.has("mut"), names or self.take()
        known(not {*names} & {*self.names}, "a name that hides another")
        if self.has(":"):  # A value with statements, or a later one, has its type.
            known(name not in self.names, "a name that hides another")
            self.know(name, Value(name, self.type("=", ";")))
            self.emit(declared(self.names[name].type, name) + ";")
            if self.has("=", "if"):
                self.conditional(name)
            return self.take(";")
        value = self.take("=") and self.expression()
        if self.has("?"):
            self.bind(name, Value(value.text, re.fullmatch("Option<(.*)>", value.type)[1]))
            self.emit(f"if ({name} == KOMIHASH_NONE) {{", "    return KOMIHASH_NONE;", "}")
        else:
            if names and not value.parts:
                both = "_and_".join(names)
                self.emit(f"const {TYPES[value.type]} {both} = {value.text};")
                value = Value("", parts=[Value(both + end, "u64") for end in (".first", ".second")])
            for name, part in zip(names, value.parts) if names else [(name, value)]:
                self.bind(name, part, is_fixed)
        return self.take(";")

    def know(self, name, value):
        """Notes a name, which may be there only in this block and with this type."""
        other, value.depth = self.names.get(name, value), self.depth
        known(name not in self.read_again, READ_AGAIN)
        known(other.type == value.type, "a name that hides one of another type")
        known(other.depth == value.depth, "a name that hides one of an outer block")
        self.names[name] = value

    def bind(self, name, value, is_fixed=True):
        """Prints the declaration of a name, unless it is one for a slice that begins at another."""
        refers, at = element(value.type)[0] and value.parts, value.start().text
        is_named = re.fullmatch(r"[\w.>-]+", at)
        if is_fixed and refers and (is_named or value.type not in TYPES):
            self.read_again.update(re.findall(r"[a-z]\w*", f"{at} {value.size().text}"))
            if not is_named:
                self.emit(f"{declared(value.type, name)} = {at};")
                value = pointer(value.type, Value(name), value.size())
                self.know(name, value)
            self.names[name] = value
        else:
            text = name if name in self.names else declared(value.type, name)
            self.know(name, Value(name, value.type))
            self.emit(f"{text} = {value.text};")


class Crate:
    """The crate's modules, and what is printed of them."""
    def __init__(self):
        self.structs, self.constants, self.functions, self.types = {}, {}, {}, []
        self.items, self.used, self.done, self.output = [], set(), {}, []

    def read(self, sources):
        for path, text in sources.items():
            place, owner, numbers = 0, "", {}
            while place < len(text):
                self.place = path, text, re.compile(r"( *(//|#\[).*\n)*").match(text, place).end()
                it = ITEM.match(text, place) or known(False, "unknown item")
                self.item(it, owner, numbers)
                place = it.end()
                if it["owner"] or it["closing"]:
                    owner, numbers = it["owner"] or "", numbers_in(it["numbers"])

    def item(self, it, owner, numbers):
        """Notes an item of a file."""
        name = it["fn"] or it["constant"] or it["struct"]
        lines = wrapped(self.comment(it["title"] or it["note"] or ""), 0)
        if it["title"]:
            self.items.append((self.place[0], "\n".join([f"/* {'-' * 93} */", *lines])))
        elif it["fn"]:
            marks = [mark for mark in re.findall(r"#\[(.*)\]", it["marks"].replace(" ", ""))
                     if mark in MARKS or known(IGNORED.fullmatch(mark), f"unknown #[{mark}]")]
            known((owner, name) not in self.functions, "two functions of this name")
            numbers = {**numbers, **numbers_in(it["of"])}
            mark = MARKS[(marks + ["inline(always)"])[0]]
            self.functions[owner, name] = self.place[0], it, owner, numbers, mark, len(self.items)
            self.items.append((None, ""))
        elif it["constant"] and it["value"][0].isdigit():
            self.constants[name] = it["type"]
            lines.append(f"#define KOMI_{name} {number_of(it['value'])}")
            self.items.append((name, "\n".join(lines)))
        elif it["struct"]:
            self.struct(it, name, [*lines, "typedef struct {"])

    def struct(self, it, name, lines):
        fields = self.structs[name] = {}
        for found in re.finditer(r"((?: *//.*\n)*)    (\w+): (.*),\n", it["fields"]):
            self.place = self.place[0], it.string, it.start("fields") + found.start(2)
            note, field, fields[field] = found[1], found[2], found[3].replace(" ", "")
            lines += [*wrapped(self.comment(note), 1), f"    {declared(fields[field], field)};"]
        self.types.append("\n".join([*lines, f"}} KOMI_ALIAS {TYPES[name]};"]))

    def comment(self, text, names=()):
        """Returns a comment as it is in C, without examples and what begins with `In Rust,`. Names
        become those in C, but for a function's where a variable has it."""
        text = re.sub(r"^ *//[/!]? ?", "", text, flags=re.M) + "\n"
        text = re.sub(r"```.*?```|# Panics\n\n.*?\n\n", "", text, flags=re.S)
        text = re.sub(r"\[(.*?)\]\(.*?\)", r"\1", text).strip()
        text = re.sub(r"\s*\n\s*\n\s*", "@", text).replace("\n", " ").replace("@", "\n")
        text = re.sub(r"\bIn Rust, [^.]*\.", "", text)
        text = text.replace("version V", "the version").replace("`None`", "KOMIHASH_NONE")
        functions = {it[1]: c_name(*it) for it in self.functions if it[1] not in names}
        text = re.sub("`[A-Z]+`", lambda it: it[0].lower(), text)  # constant parameters
        text = re.sub(r"`(\w+)`", lambda it: f"`{functions.get(it[1], it[1])}`", text)
        text = re.sub("  +", " ", text).strip()
        return f"/* {text}" if text else ""

    def printed(self, key, bound=""):
        """Prints a function once, and returns it."""
        at = *key, bound
        if at not in self.done:
            self.done[at], place = None, self.place  # None while it is being printed
            self.done[at] = Function(self, self.functions[key], bound).stands_for
            self.place = place
        return self.done[at] or known(False, "a function that calls itself")

    def code(self, calls):
        """Returns the constants and functions that calls need, each after those that it needs."""
        for owner, name in self.functions:
            if c_name(owner, name) in calls:
                self.printed((owner, name))
        needed = {*self.used, *(self.functions[key[:2]][0] for key in self.done)}
        self.output += [(order, text) for order, (key, text) in enumerate(self.items)
                        if key in needed]
        text = "\n\n".join(text for _, text in sorted(self.output, key=lambda item: item[0]))
        return re.sub(r"(#define .*\n)\n(?=#define)", r"\1", text)


def numbers_in(text):
    return dict(re.findall(r"const (\w+): (\w+)", text or ""))


def c_name(owner, name):
    return f"komi_{TYPES[owner][5:] + '_' if owner else ''}{name}"


def calls_of(header):
    """Returns the part of komihash_rattle.h that declares its functions, for the inline header."""
    text = re.search(r"(/\* Marks of functions.*\n#endif\n)\n#endif\n", header, re.S)[1]
    text = re.sub(r"^(KOMIHASH_\w+) (?!KOMI)", r"\1\n", text, flags=re.M)
    return re.sub(r"^\w+ \*?komihash_v\d\w*\([^;]*;", lambda it: "\n".join(
        wrapped("KOMI_API " + " ".join(it[0].split()), 0)), text, flags=re.M)


def header(sources, licence=""):
    calls = Path(__file__).with_name("komihash_rattle.h").read_text()
    template, bodies = Path(__file__).with_name("inline.h.in").read_text().split("@bodies\n")
    crate = Crate()
    try:
        crate.read(sources)
        parts = {"functions": crate.code(set(re.findall(r"\bkomi_\w+(?=\()", template + bodies))),
                 "types": "\n\n".join(crate.types), "calls": calls_of(calls),
                 "rules": re.search(r" \* What a caller.*?(?=\s*\*/)", calls, re.S)[0],
                 "licence": re.sub("^", " * ", licence.strip(), flags=re.M).replace("* \n", "*\n")}
    except (AttributeError, LookupError, TypeError, ValueError) as error:
        path, text, place = crate.place
        line = text.count("\n", 0, re.compile(r"(\s*\S)?").match(text, place).end())
        why = {LookupError: str(error), KeyError: f"unknown {error}"}.get(type(error), "unknown")
        raise SystemExit(f"{path}:{line + 1}: {why}: {text.splitlines()[line].strip()!r}") from None
    parts["version"] = " * komihash_rattle " + re.search(r'VERSION "(.*)"', calls)[1]
    names = sorted(set(re.findall(r"\b(komihash_v\d\w*)[(;]", parts["calls"])))
    parts["names"] = "\n".join(f"#define {name} KOMI_NAME({name})" for name in names)
    bodies = dict(re.findall(r"^komihash(\w*)\n((?: .*\n)+)", bodies, re.M))
    made = re.findall(r"(KOMI_API [^;]*?\bkomihash_v(\d)(\w*)\([^;]*)", parts["calls"])
    parts["definitions"] = "\n\n".join("\n".join([
        *wrapped(" ".join(call.split()) + " {", 0), bodies[name].replace("@", version) + "}"])
        for call, version, name in sorted(made, key=lambda it: it[1], reverse=True))
    return re.sub(r"^@(\w+)$", lambda found: parts[found[1]], template, flags=re.M)


def sources_of(crate):
    return {it: Path(it).read_text() for it in (f"{crate}/src/{at}.rs" for at in MODULES.split())}


if __name__ == "__main__":
    print(header(sources_of(sys.argv[1]), Path(sys.argv[1], "LICENSE").read_text()), end="")
