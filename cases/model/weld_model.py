#!/usr/bin/env python3
"""A slow model of Weld, written from the rules of docs/LANGUAGE.md and docs/DATA.md and from nothing else.

    cases/model/weld_model.py FILE.job [run|check]      answers as `weld run` or `weld check` does, where the data fit

It knows nothing of the program: it tokenizes with a regular expression, parses by recursive descent, checks and
evaluates with Python's whole numbers, lists and dicts. The answers of most cases below cases/ were worked out with it, and those that were worked out by hand agree with it.
"""
import re
import sys

KINDS = {"bool": (0, 1)}
for bits in (8, 16, 32, 64):
    KINDS[f"i{bits}"] = (-2**(bits - 1), 2**(bits - 1) - 1)
    KINDS[f"u{bits}"] = (0, 2**bits - 1)
TOKEN = re.compile(
    rb"(?P<skip>[ \t\r\n]+|#[^\n]*)|(?P<word>[A-Za-z_][A-Za-z_0-9]*)|(?P<number>[0-9]+L?)|(?P<field>\$[0-9]{1,9})"
    rb'|(?P<string>"(?:[\x20-\x21\x23-\x5b\x5d-\x7e]|\\["\\nt]|\\x[0-9A-Fa-f]{2})*")|(?P<symbol>\|\||&&|==|!=|<=|>=|[()\[\]{},;:.|!=<>+\-*/%])')


class Fault(Exception):
    pass


def wrap(kind, x):
    low, high = KINDS[kind]
    return (x - low) % (high - low + 1) + low


def string_bytes(token):
    out, i, body = [], 0, token[1:-1]
    while i < len(body):
        if body[i] != "\\":
            out.append(ord(body[i])); i += 1
        elif body[i + 1] == "x":
            out.append(int(body[i + 2:i + 4], 16)); i += 4
        else:
            out.append({"n": 10, "t": 9}.get(body[i + 1], ord(body[i + 1]))); i += 2
    return [wrap("i8", b) for b in out]


RESERVED = set("""let if select lookup keyexists len slice merge result for iterate zip iter vec dict bool i8 i16 i32
i64 u8 u16 u32 u64 vecbuilder appender merger dictmerger vecmerger groupbuilder groupmerger true false min max macro""".split())
BUILDERS = ("vecbuilder", "appender", "merger", "dictmerger", "vecmerger", "groupbuilder", "groupmerger")


class Refused(Exception):
    """A code, and a place (line, column) where it has one."""

    def __init__(self, code, place=None):
        super().__init__(code, place)
        self.code, self.place = code, place


class Node(tuple):
    """A form and its parts; `at` is its place."""
    at = None


def node(at, *parts):
    made = Node(parts)
    made.at = at
    return made


def place_at(text, at):
    return text.count(b"\n", 0, at) + 1, at - text.rfind(b"\n", 0, at)


def tokens_of(text):
    tokens, at = [], 0
    while at < len(text):
        found = TOKEN.match(text, at)
        if not found:
            raise Refused("X1", place_at(text, at))
        if found.lastgroup != "skip":
            tokens.append((found.lastgroup, found.group().decode(), place_at(text, at)))
        at = found.end()
    return tokens, place_at(text, len(text))


def check_token_limits(tokens):
    if len(tokens) > 16384:
        raise Refused("M3")
    brackets = run = 0
    for group, word, _ in tokens:
        if group == "symbol" and word in "([{":
            brackets += 1
        behind = run
        run = run + 1 if group == "symbol" and word in ("-", "!") else 0
        if brackets + max(run, behind) > 100:
            raise Refused("M3")
        if group == "symbol" and word in ")]}":
            brackets = max(brackets - 1, 0)


class Parser:
    """Reads a program, strictly by the grammar; X2 is raised at once, the others are noted with their places."""

    def __init__(self, text):
        if len(text) > 262144:
            raise Refused("M2")
        self.tokens, self.end = tokens_of(text)
        check_token_limits(self.tokens)
        self.at, self.noted = 0, {}

    def note(self, code, place):
        if code not in self.noted or place < self.noted[code]:
            self.noted[code] = place

    def group(self):
        return self.tokens[self.at][0] if self.at < len(self.tokens) else "end"

    def peek(self):
        return self.tokens[self.at][1] if self.at < len(self.tokens) else ""

    def place(self):
        return self.tokens[self.at][2] if self.at < len(self.tokens) else self.end

    def broken(self):
        raise Refused("X2", self.place())

    def next(self):
        self.at += 1
        return self.tokens[self.at - 1][1]

    def sees(self, *words):
        return self.group() in ("symbol", "word") and self.peek() in words

    def want(self, word):
        if not self.sees(word):
            self.broken()
        self.at += 1

    def listed(self, item, close, most=None, code=None):
        count, items = 0, []
        while True:
            count += 1
            if most and count == most + 1:
                self.note(code, self.place())
            items.append(item())
            if not self.sees(","):
                break
            self.next()
        self.want(close)
        return items

    def program(self):
        params = []
        if self.sees("||"):
            self.next()
        elif self.sees("|"):
            self.next()
            params = self.listed(self.param, "|", 16, "M7")
        scope = {}
        for param in params:
            scope = {**scope, param[0]: param}
        body = self.expr(scope, 1)
        if self.group() != "end":
            self.broken()
        return params, body

    def word(self):
        if self.group() != "word":
            self.broken()
        place, word = self.place(), self.next()
        if word in RESERVED:
            self.note_name("N2", place)
        if len(word) > 64:
            self.note("M9", place)
        return word, place

    def note_name(self, code, place):
        if "N" not in self.noted or place < self.noted["N"][1]:
            self.noted["N"] = (code, place)

    def param(self):
        word, place = self.word()
        self.want(":")
        at = self.place()
        return word, self.written_type(), place, at

    def bind(self):
        word, place = self.word()
        if self.sees(":"):
            self.next()
            at = self.place()
            return word, self.written_type(), place, at
        return word, None, place, None

    def written_type(self):
        place = self.place()
        ty = self.type()
        if depth_of(ty) > 16 or nodes_of(ty) > 256:
            self.note("M6", place)
        return ty

    def op(self):
        if not self.sees("+", "*", "min", "max"):
            self.broken()
        return self.next()

    def type(self, inner=None):
        inner = inner or self.type
        if not (self.group() == "word" and (self.peek() in KINDS or self.peek() in ("vec", "dict") + BUILDERS)) and not self.sees("{"):
            self.broken()
        word = self.next()
        if word in KINDS:
            return word
        if word == "{":
            return ("struct", self.listed(self.type, "}", 16, "M8"))
        self.want("[")
        if word in ("vec", "vecbuilder", "appender"):
            item = inner(); self.want("]")
            return ("vec" if word == "vec" else "list", item)
        if word in ("merger", "vecmerger"):
            item = inner(); self.want(","); op = self.op(); self.want("]")
            return ("total" if word == "merger" else "cells", item, op)
        key = inner(); self.want(","); value = inner()
        if word == "dictmerger":
            self.want(","); op = self.op(); self.want("]")
            return ("keyed", key, value, op)
        self.want("]")
        return ("dict" if word == "dict" else "groups", key, value)

    # Depths are found afterwards, on the tree.
    def expr(self, scope, depth=0):
        if self.sees("let"):
            at = self.place(); self.next(); binder = self.bind(); self.want("=")
            value = self.chain(scope, 0); self.want(";")
            return node(at, "let", binder, value, self.expr({**scope, binder[0]: binder}))
        return self.chain(scope, 0)

    LEVELS = [["||"], ["&&"], ["==", "!="], ["<", "<=", ">", ">="], ["+", "-"], ["*", "/", "%"]]

    def chain(self, scope, level):
        if level == len(self.LEVELS):
            return self.unary(scope)
        left = self.chain(scope, level + 1)
        while self.group() == "symbol" and self.peek() in self.LEVELS[level]:
            at, op = self.place(), self.next()
            left = node(at, "binary", op, left, self.chain(scope, level + 1))
        return left

    def unary(self, scope):
        at = self.place()
        if self.sees("-"):
            self.next()
            if self.group() == "number":
                return self.number(at, "-")
            return node(at, "neg", self.unary(scope))
        if self.sees("!"):
            self.next()
            return node(at, "not", self.unary(scope))
        base = self.primary(scope)
        while self.sees("."):
            at = self.place(); self.next()
            if self.group() != "field":
                self.broken()
            base = node(at, "field", base, int(self.next()[1:]))
        return base

    def number(self, at, sign=""):
        place, text = self.place(), self.next()
        kind, value = "i64" if text.endswith("L") else "i32", int(sign + text.rstrip("L"))
        if not KINDS[kind][0] <= value <= KINDS[kind][1]:
            self.note("X3", place)
        return node(at, "number", kind, value)

    def arguments(self, scope, count):
        self.want("(")
        items = [self.expr(scope)]
        for _ in range(count - 1):
            self.want(","); items.append(self.expr(scope))
        self.want(")")
        return items

    COUNTS = {"if": 3, "select": 3, "lookup": 2, "keyexists": 2, "len": 1, "slice": 3, "merge": 2, "result": 1}

    def primary(self, scope):
        at, group, word = self.place(), self.group(), self.peek()
        if group == "number":
            return self.number(at)
        if group == "string":
            self.next()
            return node(at, "value", ("vec", "i8"), string_bytes(word))
        if self.sees("("):
            self.next(); inner = self.expr(scope); self.want(")")
            return inner
        if self.sees("["):
            self.next()
            return node(at, "vector", self.listed(lambda: self.expr(scope), "]"))
        if self.sees("{"):
            self.next()
            return node(at, "struct", self.listed(lambda: self.expr(scope), "}", 16, "M8"))
        if group != "word":
            self.broken()
        if word in ("true", "false"):
            self.next()
            return node(at, "value", "bool", int(word == "true"))
        if word in self.COUNTS:
            self.next()
            return node(at, word, self.arguments(scope, self.COUNTS[word]))
        if word in KINDS and word != "bool":
            self.next()
            return node(at, "cast", word, self.arguments(scope, 1)[0])
        if word == "for":
            return self.loop(scope, at)
        if word == "iterate":
            self.next(); self.want("("); start = self.expr(scope); self.want(","); self.want("|")
            binder = self.bind(); self.want("|")
            body = self.expr({**scope, binder[0]: binder}); self.want(")")
            return node(at, "iterate", start, binder, body)
        if word in BUILDERS:
            ty = self.type(self.written_type)
            if ty[0] == "cells" or ty[0] == "total" and self.sees("("):
                return node(at, "builder", ty, self.arguments(scope, 1)[0])
            return node(at, "builder", ty, None)
        if word in RESERVED:
            self.broken()
        self.next()
        if len(word) > 64:
            self.note("M9", at)
        if word not in scope:
            self.note_name("N1", at)
        return node(at, "name", word)

    def loop(self, scope, at):
        self.next(); self.want("(")
        if self.sees("zip"):
            self.next(); self.want("(")
            self.zip_at = None
            legs = [self.leg(scope)]
            self.want(",")
            self.at -= 1
            count = 1
            while self.sees(","):
                self.next(); count += 1
                if count == 17:
                    self.note("M8", self.place())
                legs.append(self.leg(scope))
            self.want(")")
        else:
            legs = [self.leg(scope)]
        self.want(","); builder = self.expr(scope); self.want(","); self.want("|")
        binders = [self.bind()]
        for _ in range(2):
            self.want(","); binders.append(self.bind())
        self.want("|")
        body = self.expr({**scope, **{b[0]: b for b in binders}}); self.want(")")
        return node(at, "for", legs, builder, binders, body)

    def leg(self, scope):
        if self.sees("iter"):
            self.next()
            return ("iter", self.arguments(scope, 4))
        return ("whole", [self.expr(scope)])


def depth_of(ty):
    return 1 if isinstance(ty, str) else 1 + max([depth_of(t) for t in parts_of(ty)])


def nodes_of(ty):
    return 1 if isinstance(ty, str) else 1 + sum(nodes_of(t) for t in parts_of(ty))


def parts_of(ty):
    if ty[0] == "struct":
        return ty[1]
    return [t for t in ty[1:] if not (isinstance(t, str) and t in ("+", "*", "min", "max"))]


def children(e):
    if e[0] in ("number", "value", "name"):
        return []
    if e[0] == "for":
        return [p for _, parts in e[1] for p in parts] + [e[2], e[4]]
    if e[0] in ("vector", "struct") or e[0] in Parser.COUNTS:
        return e[1]
    return [p for p in e[1:] if isinstance(p, Node)]


def check_tree_limits(parser, body):
    lets, deep, left = 0, [], [(body, 1)]
    while left:
        e, depth = left.pop()
        if depth > 100:
            deep.append(e.at)
        lets += e[0] == "let"
        if e[0] == "let":
            left += [(e[2], depth + 1), (e[3], depth)]
        else:
            left += [(c, depth + 1) for c in children(e)]
    if deep:
        parser.noted["M4"] = min(deep)
    if lets > 1024:
        parser.noted["M5"] = None


def read_program(text):
    """The program, or the first refusal up to the names."""
    parser = Parser(text)
    params, body = parser.program()
    check_tree_limits(parser, body)
    for code in ("X3", "M4", "M5", "M6", "M7", "M8", "M9"):
        if code in parser.noted:
            raise Refused(code, parser.noted[code])
    if "N" in parser.noted:
        raise Refused(*parser.noted["N"])
    return params, body


# ---- types

BUILDER_FORMS = ("list", "total", "cells", "keyed", "groups")
INTEGERS = tuple(kind for kind in KINDS if kind != "bool")


def is_one_builder(ty):
    return not isinstance(ty, str) and ty[0] in BUILDER_FORMS


def is_builder(ty):
    return is_one_builder(ty) or not isinstance(ty, str) and ty[0] == "struct" and all(map(is_builder, ty[1]))


def is_free(ty):
    return isinstance(ty, str) or not is_one_builder(ty) and all(map(is_free, parts_of(ty)))


def is_key(ty):
    def simple(t):
        return isinstance(t, str) or t[0] == "vec" and isinstance(t[1], str)
    return simple(ty) or ty[0] == "struct" and all(map(simple, ty[1]))


def is_well_formed(ty):
    if isinstance(ty, str):
        return True
    if ty[0] in ("vec", "list"):
        return is_well_formed(ty[1]) and is_free(ty[1])
    if ty[0] in ("dict", "groups"):
        return is_key(ty[1]) and is_well_formed(ty[2]) and is_free(ty[2])
    if ty[0] == "total" and not isinstance(ty[1], str):
        return ty[1][0] == "struct" and all(field in INTEGERS for field in ty[1][1] if isinstance(field, str)) and all(isinstance(field, str) for field in ty[1][1])
    if ty[0] in ("total", "cells"):
        return ty[1] in INTEGERS
    if ty[0] == "keyed":
        return is_key(ty[1]) and ty[2] in INTEGERS
    return all(map(is_well_formed, ty[1])) and (all(map(is_free, ty[1])) or all(map(is_builder, ty[1])))


def taken_by(ty):
    return {"list": lambda: ty[1], "total": lambda: ty[1], "keyed": lambda: ("struct", [ty[1], ty[2]]),
            "cells": lambda: ("struct", ["i64", ty[1]]), "groups": lambda: ("struct", [ty[1], ty[2]])}[ty[0]]()


def given_by(ty):
    return {"list": lambda: ("vec", ty[1]), "total": lambda: ty[1], "keyed": lambda: ("dict", ty[1], ty[2]),
            "cells": lambda: ("vec", ty[1]), "groups": lambda: ("dict", ty[1], ("vec", ty[2]))}[ty[0]]()


def demand(holds, code, place):
    if not holds:
        raise Refused(code, place)


def is_vec(ty):
    return not isinstance(ty, str) and ty[0] == "vec"


def noted(binder, ty):
    if binder[1] is not None:
        demand(is_well_formed(binder[1]), "Y1", binder[3])
        demand(binder[1] == ty, "Y4", binder[2])


def type_of(e, env):
    ty = type_under(e, env)
    demand(depth_of(ty) <= 16 and nodes_of(ty) <= 256, "Y14", e.at)
    e.ty = ty
    return ty


def type_under(e, env):
    form, at = e[0], e.at
    if form in ("number", "value"):
        return e[1]
    if form == "name":
        return env[e[1]]
    if form == "let":
        ty = type_of(e[2], env)
        noted(e[1], ty)
        return type_of(e[3], {**env, e[1][0]: ty})
    if form == "neg":
        ty = type_of(e[1], env)
        demand(ty in INTEGERS, "Y5", at)
        return ty
    if form == "not":
        demand(type_of(e[1], env) == "bool", "Y6", at)
        return "bool"
    if form == "binary":
        op, x, y = e[1], type_of(e[2], env), type_of(e[3], env)
        if op in ("+", "-", "*", "/", "%"):
            demand(x == y and x in INTEGERS, "Y7", at)
            return x
        if op in ("==", "!="):
            demand(x == y and isinstance(x, str), "Y8", at)
        elif op in ("<", "<=", ">", ">="):
            demand(x == y and x in INTEGERS, "Y9", at)
        else:
            demand(x == y == "bool", "Y10", at)
        return "bool"
    if form == "cast":
        demand(isinstance(type_of(e[2], env), str), "Y11", at)
        return e[1]
    if form == "field":
        ty = type_of(e[1], env)
        demand(not isinstance(ty, str) and ty[0] == "struct" and e[2] < len(ty[1]), "Y20", at)
        return ty[1][e[2]]
    if form == "builder":
        start_ty = None if e[2] is None else type_of(e[2], env)
        demand(is_well_formed(e[1]), "Y1", at)
        if start_ty is not None:
            demand(start_ty == (e[1][1] if e[1][0] == "total" else ("vec", e[1][1])), "Y28", at)
        return e[1]
    if form == "for":
        return type_of_loop(e, env)
    if form == "iterate":
        state = type_of(e[1], env)
        demand(is_free(state), "Y27", at)
        noted(e[2], state)
        demand(type_of(e[3], {**env, e[2][0]: state}) == ("struct", [state, "bool"]), "Y27", at)
        return state
    types = [type_of(x, env) for x in e[1]]
    if form == "vector":
        demand(all(t == types[0] for t in types) and is_free(types[0]), "Y21", at)
        return ("vec", types[0])
    if form == "struct":
        demand(all(map(is_free, types)) or all(map(is_builder, types)), "Y22", at)
        return ("struct", types)
    return type_of_call(form, types, at)


def type_of_call(form, types, at):
    first = types[0]
    if form in ("if", "select"):
        demand(first == "bool", "Y12", at)
        if form == "if":
            demand(types[1] == types[2], "Y13", at)
        else:
            demand(types[1] == types[2] and is_free(types[1]), "Y15", at)
        return types[1]
    if form == "lookup":
        if is_vec(first) and types[1] == "i64":
            return first[1]
        demand(not isinstance(first, str) and first[0] == "dict" and types[1] == first[1], "Y16", at)
        return first[2]
    if form == "keyexists":
        demand(not isinstance(first, str) and first[0] == "dict" and types[1] == first[1], "Y17", at)
        return "bool"
    if form == "len":
        demand(is_vec(first), "Y18", at)
        return "i64"
    if form == "slice":
        demand(is_vec(first) and types[1] == types[2] == "i64", "Y19", at)
        return first
    if form == "merge":
        demand(is_one_builder(first) and types[1] == taken_by(first), "Y29", at)
        return first
    demand(is_one_builder(first), "Y30", at)
    return given_by(first)


def type_of_loop(e, env):
    legs = [[type_of(p, env) for p in parts] for _, parts in e[1]]
    builder = type_of(e[2], env)
    demand(all(is_vec(leg[0]) for leg in legs), "Y23", e.at)
    demand(all(t == "i64" for leg in legs for t in leg[1:]), "Y24", e.at)
    demand(is_builder(builder), "Y25", e.at)
    row = legs[0][0][1] if len(legs) == 1 else ("struct", [leg[0][1] for leg in legs])
    demand(depth_of(row) <= 16 and nodes_of(row) <= 256, "Y14", e.at)
    for binder, ty in zip(e[3], (builder, "i64", row)):
        noted(binder, ty)
    body = type_of(e[4], {**env, **{b[0]: ty for b, ty in zip(e[3], (builder, "i64", row))}})
    demand(body == builder, "Y26", e.at)
    return builder


def check_types(params, body):
    for _, ty, _, at in params:
        demand(is_well_formed(ty), "Y1", at)
        demand(is_free(ty), "Y2", at)
    ty = type_of(body, {p[0]: p[1] for p in params})
    demand(is_free(ty), "Y3", body.at)
    return ty


# ---- the use of builders. A binder in scope is (number, type, origin, level of lambdas); a path is (number, fields..)

def leaves(ty, path):
    return [path] if is_one_builder(ty) else [p for n, t in enumerate(ty[1]) for p in leaves(t, path + (n,))]


def own(ty, path):
    return ("own", path) if is_one_builder(ty) else [own(t, path + (n,)) for n, t in enumerate(ty[1])]


def chain_of(e):
    fields = []
    while e[0] == "field":
        fields.insert(0, e[2]); e = e[1]
    return (e, fields) if e[0] == "name" else None


class Linear:
    def __init__(self):
        self.count = 0

    def fresh(self):
        self.count += 1
        return self.count

    def walk(self, e, scope, left, level):
        """What is left of the paths, and the origin of what comes out (None of a value)."""
        form = e[0]
        if is_builder(e.ty) and form in ("name", "field"):
            return self.use(e, scope, left, level)
        if form in ("number", "value", "name"):
            return left, None
        if form == "let":
            left, origin = self.walk(e[2], scope, left, level)
            return self.body(e[1], e[2].ty, origin, e[3], scope, left, level)
        if form == "if":
            left, _ = self.walk(e[1][0], scope, left, level)
            first, x = self.walk(e[1][1], scope, left, level)
            second, y = self.walk(e[1][2], scope, left, level)
            demand(first == second, "L2", e.at)
            demand(x == y, "L4", e.at)
            return first, x
        if form == "binary" and e[1] in ("&&", "||"):
            left, _ = self.walk(e[2], scope, left, level)
            after, _ = self.walk(e[3], scope, left, level)
            demand(after == left, "L2", e.at)
            return left, None
        if form == "for":
            return self.loop(e, scope, left, level)
        if form == "iterate":
            left, _ = self.walk(e[1], scope, left, level)
            inner = {**scope, e[2][0]: None}
            self.walk(e[3], inner, frozenset(), level + 1)
            return left, None
        origins = []
        for child in children(e):
            left, origin = self.walk(child, scope, left, level)
            origins.append(origin)
        if form == "builder":
            return left, ("made", self.fresh())
        if form == "merge":
            return left, origins[0]
        if form == "result":
            demand(origins[0][0] != "own", "L5", e.at)
            return left, None
        if form == "struct" and is_builder(e.ty):
            return left, origins
        return left, None

    def use(self, e, scope, left, level):
        chain = chain_of(e)
        if chain is None:
            innermost = e
            while innermost[1][0] == "field" and is_builder(innermost[1].ty):
                innermost = innermost[1]
            self.walk(innermost[1], scope, left, level)
            raise Refused("L1", innermost.at)
        name, fields = chain
        number, ty, origin, home = scope[name[1]]
        for f in fields:
            ty, origin = ty[1][f], origin[f]
        paths = leaves(ty, (number,) + tuple(fields))
        demand(home == level, "L3", name.at)
        demand(all(p in left for p in paths), "L1", name.at)
        return left - frozenset(paths), origin

    def body(self, binder, ty, origin, e, scope, left, level):
        number = self.fresh()
        if not is_builder(ty):
            return self.walk(e, {**scope, binder[0]: None}, left, level)
        paths = frozenset(leaves(ty, (number,)))
        left, out = self.walk(e, {**scope, binder[0]: (number, ty, origin, level)}, left | paths, level)
        demand(not (left & paths), "L1", binder[2])
        return left, out

    def loop(self, e, scope, left, level):
        for _, parts in e[1]:
            for part in parts:
                left, _ = self.walk(part, scope, left, level)
        left, origin = self.walk(e[2], scope, left, level)
        number, ty = self.fresh(), e[2].ty
        builder, index, row = e[3]
        inner = {**scope, builder[0]: (number, ty, own(ty, (number,)), level + 1)}
        inner = {**inner, index[0]: None}
        inner = {**inner, row[0]: None}
        after, out = self.walk(e[4], inner, frozenset(leaves(ty, (number,))), level + 1)
        demand(not after, "L1", builder[2])
        demand(out == own(ty, (number,)), "L6", e.at)
        return left, origin


def check_linear(body):
    Linear().walk(body, {}, frozenset(), 0)


def type_text(ty):
    if isinstance(ty, str):
        return ty
    if ty[0] == "struct":
        return "{" + ",".join(map(type_text, ty[1])) + "}"
    word = {"vec": "vec", "dict": "dict", "list": "vecbuilder", "total": "merger", "cells": "vecmerger", "keyed": "dictmerger", "groups": "groupbuilder"}[ty[0]]
    return word + "[" + ",".join(t if isinstance(t, str) else type_text(t) for t in ty[1:]) + "]"


# ---- meaning

# A thing is (type, value). Values: numbers; lists; structs as lists of things' values; dicts by a key made hashable.
def frozen(value):
    return tuple(frozen(v) for v in value) if isinstance(value, list) else value


def combined(op, kind, x, y):
    if not isinstance(kind, str):
        return [combined(op, field, a, b) for field, a, b in zip(kind[1], x, y)]
    return {"+": lambda: wrap(kind, x + y), "*": lambda: wrap(kind, x * y), "min": lambda: min(x, y), "max": lambda: max(x, y)}[op]()


def neutral(op, kind):
    if not isinstance(kind, str):
        return [neutral(op, field) for field in kind[1]]
    return {"+": 0, "*": 1, "min": KINDS[kind][1], "max": KINDS[kind][0]}[op]


def start(ty, value):
    if ty[0] == "list":
        return []
    if ty[0] == "total":
        return [neutral(ty[2], ty[1]) if value is None else value]
    if ty[0] == "cells":
        return list(value)
    return {}


def merged(ty, builder, item):
    if ty[0] == "list":
        builder.append(item)
    elif ty[0] == "total":
        builder[0] = combined(ty[2], ty[1], builder[0], item)
    elif ty[0] == "cells":
        at, x = item
        if not 0 <= at < len(builder):
            raise Fault
        builder[at] = combined(ty[2], ty[1], builder[at], x)
    elif ty[0] == "keyed":
        key = frozen(item[0])
        builder[key] = (item[0], combined(ty[3], ty[2], builder[key][1], item[1]) if key in builder else item[1])
    else:
        key = frozen(item[0])
        builder.setdefault(key, (item[0], []))[1].append(item[1])
    return builder


def finished(ty, builder):
    if ty[0] == "list":
        return ("vec", ty[1]), builder
    if ty[0] == "total":
        return ty[1], builder[0]
    if ty[0] == "cells":
        return ("vec", ty[1]), builder
    if ty[0] == "keyed":
        return ("dict", ty[1], ty[2]), builder
    return ("dict", ty[1], ("vec", ty[2])), builder


def binary(op, kind, x, y):
    if op in ("/", "%"):
        if y == 0:
            raise Fault
        quotient = abs(x) // abs(y) * (1 if (x < 0) == (y < 0) else -1)
        return kind, wrap(kind, quotient if op == "/" else x - quotient * y)
    if op in ("+", "-", "*"):
        return kind, wrap(kind, {"+": x + y, "-": x - y, "*": x * y}[op])
    return "bool", int({"==": x == y, "!=": x != y, "<": x < y, "<=": x <= y, ">": x > y, ">=": x >= y}[op])


def rows_of(legs, env):
    lists = []
    for form, parts in legs:
        things = [evaluate(p, env) for p in parts]
        (_, item), vector = things[0]
        if form == "iter":
            s, e, d = (t[1] for t in things[1:])
            if not (0 <= s <= e <= len(vector) and d >= 1 and (e - s) % d == 0):
                raise Fault
            vector = vector[s:e:d]
        lists.append((item, vector))
    if len({len(v) for _, v in lists}) != 1:
        raise Fault
    if len(lists) == 1:
        return lists[0]
    return ("struct", [t for t, _ in lists]), [list(row) for row in zip(*(v for _, v in lists))]


def loop(legs, builder, names, body, env):
    item, rows = rows_of(legs, env)
    state = evaluate(builder, env)
    for number, row in enumerate(rows):
        state = evaluate(body, {**env, names[0][0]: state, names[1][0]: ("i64", wrap("i64", number)), names[2][0]: (item, row)})
    return state


def evaluate(e, env):
    form = e[0]
    if form == "number":
        return e[1], e[2]
    if form == "value":
        return e[1], e[2]
    if form == "name":
        return env[e[1]]
    while form == "let":
        env = {**env, e[1][0]: evaluate(e[2], env)}
        e = e[3]
        form = e[0]
    if form in ("number", "value", "name"):
        return evaluate(e, env)
    if form == "neg":
        kind, x = evaluate(e[1], env)
        return kind, wrap(kind, -x)
    if form == "not":
        return "bool", 1 - evaluate(e[1], env)[1]
    if form == "binary":
        kind, x = evaluate(e[2], env)
        if e[1] in ("&&", "||"):
            decides = (e[1] == "||") == bool(x)
            return ("bool", x) if decides else evaluate(e[3], env)
        return binary(e[1], kind, x, evaluate(e[3], env)[1])
    if form == "cast":
        return e[1], wrap(e[1], evaluate(e[2], env)[1])
    if form == "field":
        ty, fields = evaluate(e[1], env)
        return ty[1][e[2]], fields[e[2]]
    if form == "vector":
        items = [evaluate(x, env) for x in e[1]]
        return ("vec", items[0][0]), [v for _, v in items]
    if form == "struct":
        items = [evaluate(x, env) for x in e[1]]
        return ("struct", [t for t, _ in items]), [v for _, v in items]
    if form == "if":
        return evaluate(e[1][1] if evaluate(e[1][0], env)[1] else e[1][2], env)
    if form == "for":
        return loop(e[1], e[2], e[3], e[4], env)
    if form == "iterate":
        state = evaluate(e[1], env)
        for _ in range(1000000):
            ty, (value, again) = evaluate(e[3], {**env, e[2][0]: state})
            state = (ty[1][0], value)
            if not again:
                return state
        raise Fault
    if form == "builder":
        return e[1], start(e[1], None if e[2] is None else evaluate(e[2], env)[1])
    parts = [evaluate(x, env) for x in e[1]]
    if form == "select":
        return parts[1] if parts[0][1] else parts[2]
    if form == "lookup":
        ty, where = parts[0]
        if ty[0] == "vec":
            if not 0 <= parts[1][1] < len(where):
                raise Fault
            return ty[1], where[parts[1][1]]
        if frozen(parts[1][1]) not in where:
            raise Fault
        return ty[2], where[frozen(parts[1][1])][1]
    if form == "keyexists":
        return "bool", int(frozen(parts[1][1]) in parts[0][1])
    if form == "len":
        return "i64", wrap("i64", len(parts[0][1]))
    if form == "slice":
        ty, vector = parts[0]
        i, n = parts[1][1], parts[2][1]
        if not (0 <= i and 0 <= n and i + n <= len(vector)):
            raise Fault
        return ty, vector[i:i + n]
    if form == "merge":
        return parts[0][0], merged(parts[0][0], parts[0][1], parts[1][1])
    if form == "result":
        return finished(*parts[0])
    raise AssertionError(form)


def shown(ty, value):
    if ty == "bool":
        return "true" if value else "false"
    if isinstance(ty, str):
        return str(value)
    if ty == ("vec", "i8"):
        return '"' + "".join(shown_byte(v % 256) for v in value) + '"'
    if ty[0] == "vec":
        return "[" + ",".join(shown(ty[1], v) for v in value) + "]"
    if ty[0] == "struct":
        return "{" + ",".join(shown(t, v) for t, v in zip(ty[1], value)) + "}"
    return "dict{" + ",".join(f"{shown(ty[1], k)}:{shown(ty[2], v)}" for _, (k, v) in sorted(value.items())) + "}"


def shown_byte(b):
    return {34: '\\"', 92: "\\\\"}.get(b, chr(b)) if 0x20 <= b <= 0x7e else f"\\x{b:02x}"


class Data:
    """A value by the data grammar."""
    TOKEN = re.compile(rb'[ \t\r\n]*(-?[0-9]+|true|false|dict|[\[\]{},:]|"(?:[\x20-\x21\x23-\x5b\x5d-\x7e]|\\["\\nt]|\\x[0-9A-Fa-f]{2})*")[ \t\r\n]*')

    def __init__(self, text):
        self.tokens, at = [], 0
        while at < len(text):
            found = self.TOKEN.match(text, at)
            self.tokens.append(found.group(1).decode()); at = found.end()
        self.at = 0

    def next(self):
        self.at += 1
        return self.tokens[self.at - 1]

    def value(self, ty):
        if ty == "bool":
            return int(self.next() == "true")
        if isinstance(ty, str):
            return int(self.next())
        if ty == ("vec", "i8") and self.tokens[self.at].startswith('"'):
            return string_bytes(self.next())
        if ty[0] == "struct":
            return [(self.next(), self.value(t))[1] for t in ty[1]] + self.skip()
        if ty[0] == "dict":
            self.next(); self.next()
            entries = {}
            while self.tokens[self.at] != "}":
                key = self.value(ty[1]); self.next(); entries[frozen(key)] = (key, self.value(ty[2]))
                if self.tokens[self.at] == ",":
                    self.next()
            self.next()
            return entries
        self.next()
        items = []
        while self.tokens[self.at] != "]":
            items.append(self.value(ty[1]))
            if self.tokens[self.at] == ",":
                self.next()
        self.next()
        return items

    def skip(self):
        self.next()
        return []


def answer(job, command="run"):
    lines = job.splitlines(keepends=True)
    cut = next((n for n, line in enumerate(lines) if line.rstrip(b" \t\r\n") == b"%%"), len(lines))
    text, data = b"".join(lines[:cut]), b"".join(lines[cut + 1:])
    try:
        params, body = read_program(text)
        ty = check_types(params, body)
        check_linear(body)
    except Refused as r:
        return f"refused {r.code}" + (f" at {r.place[0]}:{r.place[1]}" if r.place else "")
    if command == "check":
        return "ok " + type_text(ty)
    blocks = [b.partition(b"\n")[2] for b in (b"\n" + data).split(b"\n%value")[1:]]
    env = {param[0]: (param[1], Data(block).value(param[1])) for param, block in zip(params, blocks)}
    try:
        return shown(*evaluate(body, env))
    except Fault:
        return "fault"


if __name__ == "__main__":
    sys.setrecursionlimit(100000)
    print(answer(open(sys.argv[1], "rb").read(), *sys.argv[2:]))
