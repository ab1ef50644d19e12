#!/usr/bin/env python3
"""Makes the JSON schemas (2020-12) of docs/schemas from the tables of docs/FORMATS.md: the lines in, the lines out and
statements, with addresses in hexadecimal digits, and in `bech32/` with those of the word `bech32`.

  checks/schemas.py           writes them
  checks/schemas.py --check   ends with 1 where a file is not what the page says, or where a line of `cases` or of
                              `examples` does not meet its schema, or one whose fault is one of form does

What a schema can't say is said by three words that validators pass over: `x-unique` (no two elements of a list have this
member alike), `x-span` (the entries of a statement are a span) and the format `bech32` (the last letters check the
others). `fault_of` judges these too; and it knows of the validating words only those that stand here.
"""
from __future__ import annotations

import datetime
import functools
import json
import pathlib
import re
import sys
from fractions import Fraction
from typing import Any, Iterator

ROOT = pathlib.Path(__file__).resolve().parent.parent
sys.path[:0] = [str(ROOT / "checks"), str(ROOT / "python" / "src")]

import tables  # noqa: E402
from stakeplay.addresses import MODULES, bech32, from_bech32  # noqa: E402

Schema = Any
FOLDER = ROOT / "docs" / "schemas"
MOST = 2 ** 63 - 1
MOST_BRACKETS = 127
DAY = (r"(?:19[7-9]\d|[2-9]\d{3})-(?:0[1-9]|1[0-2])-(?:0[1-9]|[12]\d|3[01])"
       r"T(?:[01]\d|2[0-3]):[0-5]\d:[0-5]\d").replace(r"\d", "[0-9]")


# ---- the forms of members, by their names on the page

def text(pattern: str, **more: Any) -> Schema:
    """A string of a pattern."""
    return {"type": "string", "pattern": f"^{pattern}$", **more}


FORMS: dict[str, tuple[str, Schema]] = {    # what the page says of each, and its schema
    "number": ("a JSON number that is whole, from 0 to 2^63 - 1, written with digits alone: no sign, point or exponent",
               {"type": "integer", "minimum": 0, "maximum": MOST}),
    "amount": ("a string of 1 to 38 digits", text("[0-9]{1,38}")),
    "decimal": ("a string of 1 to 20 digits, optionally a point and 1 to 18 digits", text(r"[0-9]{1,20}(?:\.[0-9]{1,18})?")),
    "moment": ("a string YYYY-MM-DDTHH:MM:SS, optionally a point and 1 to 9 digits, then Z; "
               "the years 1970 to 9999, a date that exists",
               text(DAY + r"(?:\.[0-9]{1,9})?Z", format="date-time")),
    "denomination": ("a string: a letter, then 2 to 127 of a-z A-Z 0-9 / : . _ -", text("[a-zA-Z][a-zA-Z0-9/:._-]{2,127}")),
    "truth value": ("true or false", {"type": "boolean"}),
}
WRITTEN: dict[str, Schema] = {   # of lines out, where a form is narrower than that of lines in
    "written amount": text("(?:0|[1-9][0-9]*)"),
    "written decimal": text(r"(?:0|[1-9][0-9]*)\.[0-9]{18}"),
    "written moment": text(DAY + r"(?:\.[0-9]{0,8}[1-9])?Z", format="date-time"),
    "status": {"enum": ["bonded", "unbonding", "unbonded"]},
    "true": {"const": True},
    "over": {"enum": ["sum", "quotient", "period"]},
    "digits": text("[0-9]+"),
}


def addresses(is_bech32: bool) -> dict[str, Schema]:
    """The forms of addresses: without the word `bech32`, and behind it."""
    own = [bytes(19) + bytes([place]) for place in (1, 2, 3, 4)]
    if not is_bech32:
        account, modules = text("[0-9a-f]{40}"), "(?!0{39}[1-4])"
        user = text(modules + "[0-9a-f]{40}")
        found = {"account": account, "user": user, "operator": user, "consensus address": account}
    else:
        def spelled(prefix: str, others: list[bytes] = []) -> Schema:
            left_out = {"not": {"enum": [bech32(prefix, address) for address in others]}} if others else {}
            return text(f"{prefix}1[02-9ac-hj-np-z]{{38}}", format="bech32", **left_out)
        found = {"account": spelled("cosmos"), "user": spelled("cosmos", own),
                 "operator": spelled("cosmosvaloper", own), "consensus address": spelled("cosmosvalcons")}
    return found | {"written account": {"anyOf": [found["account"], {"enum": list(MODULES)}]}}


# ---- what stands in the tables

MEMBER = re.compile(r"(\d+) (\w+)(\?)? \((.*?)\)(?:, |$)")


@functools.cache
def operators() -> frozenset[int]:
    """The numbers of the members that behind `bech32` are of an operator."""
    rows = dict((row[0], row[2]) for row in tables.rows_below("Words", ["address", "prefix", "where"]))
    told = re.match(r"the members ([\d, and]+);", rows["of an operator"])
    return frozenset(map(int, re.findall(r"\d+", told[1])))


def ref(name: str) -> Schema:
    """The schema of a name."""
    return {"$ref": f"#/$defs/{name.replace(' ', '-')}"}


def form_of(number: int, told: str) -> Schema:
    """The schema of a member, from what the page says of its form."""
    bare = re.split(r"[,;:]", told)[0].removeprefix("a ").strip()
    if found := re.fullmatch(r"(?:the string|a string|string) (.*)", told):
        return {"enum": re.split(r", | or ", found[1])} if " or " in found[1] else {"const": found[1]}
    if found := re.fullmatch(r"list of objects: (.*)", told):
        return {"type": "array", "items": object_of(found[1])}
    named = {"list of messages": "message", "list of entries": "entry"}.get(bare)
    if named:
        span = {"x-span": True} if named == "entry" else {}
        return {"type": "array", "items": ref(named), **span}
    if bare == "object":
        return ref("params")
    if bare == "user" and number in operators():
        bare = "operator"
    if bare not in (*FORMS, *addresses(False), "coins", "coin", "decimal coins"):
        sys.exit(f"schemas: docs/FORMATS.md has a form that is not known here: {told}")
    return ref(bare)


def closed(members: dict[str, Schema], optional: tuple[str, ...] = ()) -> Schema:
    """An object of these members and no others."""
    due = [name for name in members if name not in optional]
    return {"type": "object", "properties": members, "required": due, "additionalProperties": False}


def object_of(told: str) -> Schema:
    """An object from the members of a cell: `91 from (user), 92 to (account)`."""
    found = MEMBER.findall(told)
    if not found or MEMBER.sub("", told).strip():
        sys.exit(f"schemas: docs/FORMATS.md has members that are not known here: {told}")
    return closed({name: form_of(int(number), form) for number, name, _, form in found},
                  tuple(name for _, name, is_optional, _ in found if is_optional))


def numbered(heading: str, columns: list[str]) -> Schema:
    """An object from a table that has a row for each member."""
    return closed({row[1]: form_of(int(row[0]), row[2]) for row in tables.rows_below(heading, columns)})


def one_of_kinds(heading: str, columns: list[str]) -> Schema:
    """One of the objects of a table that has a row for kinds and their members."""
    found = []
    for row in tables.rows_below(heading, columns):
        members = object_of(row[-1]) if row[-1] else closed({})
        for kind in row[0].split(", "):
            own = closed({"kind": {"const": kind}, **members["properties"]})
            found.append(own | {"required": ["kind", *members["required"]]})
    return {"oneOf": found}


# ---- the schemas of lines in

def read_forms(is_bech32: bool) -> dict[str, Schema]:
    """What lines in are made of."""
    told = {row[0]: row[1] for row in tables.rows_below("How a line is judged", ["form", "accepted"])}
    for name, (words, _) in FORMS.items():
        if told.get(name) != words:
            sys.exit(f"schemas: docs/FORMATS.md says of the form {name}: {told.get(name)}")
    coin = object_of(told["coin"].removeprefix("an object: "))
    of_decimals = object_of(told["decimal coins"].partition("objects with ")[2].replace(" and ", ", "))
    forms = {name: schema for name, (_, schema) in FORMS.items()} | addresses(is_bech32)
    lists = {"coin": coin, "coins": {"type": "array", "items": ref("coin"), "x-unique": "denom"},
             "decimal coin": of_decimals, "decimal coins": {"type": "array", "items": ref("decimal coin"), "x-unique": "denom"}}
    params = numbered("The genesis", ["number", "member of `params`", "form", "range"])
    return forms | lists | {"params": params}


# ---- the schemas of lines out

WHERE: dict[str, str] = {   # the form of each member that is written, where its kind has no other
    "height": "number", "tx": "number", "msg": "number", "number": "number", "member": "number", "until": "written moment",
    "a": "digits", "b": "digits", "c": "digits", "over": "over", "time": "written moment", "supply": "written coins",
    "coins": "written coins", "from": "written account", "to": "written account", "amount": "written amount",
    "denom": "denomination", "validator": "operator", "operator": "operator", "source": "operator", "target": "operator",
    "cons": "consensus address", "period": "number", "ratio": "written decimal coins", "delegator": "user",
    "stake": "written decimal", "burned": "written amount", "fraction": "written decimal", "reward": "written decimal coins",
    "status": "status", "authority": "user", "address": "written account", "jailed": "truth value", "tokens": "written amount",
    "shares": "written decimal", "rate": "written decimal", "commission": "written decimal coins",
    "outstanding": "written decimal coins", "created": "number", "completes": "written moment", "initial": "written amount",
    "balance": "written amount", "start": "number", "counted": "number", "missed": "number", "jailed_until": "written moment",
    "tombstoned": "truth value", "limit": "true", "line": "number", "yes": "written decimal", "no": "written decimal",
    "abstain": "written decimal", "no_with_veto": "written decimal", "bonded": "written amount", "accepted": "number",
    "refused": "number", "blocks": "number", "pool": "written decimal coins",
}


def written(kind: str, names: list[str], decimals: tuple[str, ...] = (), **others: Schema) -> Schema:
    """A line that is written, of these members."""
    members = {name: ref("written decimal coins" if name in decimals else WHERE[name]) for name in names}
    return closed(dict(sorted(({"kind": {"const": kind}} | members | others).items())))


def lines_of_table(heading: str, columns: list[str], first: list[str]) -> Iterator[Schema]:
    """The lines of a table that has a row for kinds and their members; `(decimals)` stands behind lists of such coins."""
    for row in tables.rows_below(heading, columns):
        cell = re.sub(r" \((?!decimals)[^)]*\)|, or limit \(true\).*", "", row[-1])
        decimals = tuple(re.findall(r"(\w+) \(decimals\)", cell))
        names = re.sub(r" \(decimals\)", "", cell).split(", ")
        for kind in row[0].split(", "):
            yield written(kind, first + names, decimals)
            if "limit (true)" in row[-1]:
                yield written(kind, [name for name in names if name != "coins"] + ["limit"])


def refused() -> Iterator[Schema]:
    """The lines of refusals, whose members hang on their numbers."""
    rows = {row[0]: row[1] for row in tables.rows_below("Lines out", ["outcome", "members"])}
    told = rows["a message was refused"]
    more = [(r"for 30 also until", [30], ["until"]), (r"for 35 also a, b, c \(strings\) and over", [35], ["a", "b", "c", "over"]),
            (r"for 38 and 39 also member", [38, 39], ["member"])]
    is_known = all(re.search(words, told) for words, _, _ in more)
    if not is_known or rows["the fee was not paid"] != "height, kind (refused), number (40), tx":
        sys.exit("schemas: docs/FORMATS.md has other members of refusals than are known here")
    numbers = [int(row[0]) for row in tables.rows_below("Refusals", ["number", "name", "the condition", "the SDK's error"])]
    special = [number for _, own, _ in more for number in own]
    yield written("refused", ["height", "tx"], number={"const": 40})
    yield written("refused", ["height", "msg", "tx"], number={"enum": [n for n in numbers if n not in (*special, 40)]})
    for _, own, names in more:
        yield written("refused", ["height", "msg", "tx", *names], number={"enum": own})


def output() -> Schema:
    """Any line of an output."""
    kinds = [written("genesis", ["supply"], height={"const": 0}), written("block", ["height", "time"]),
             written("accepted", ["height", "tx"]), *refused(),
             *lines_of_table("Lines out", ["`kind`", "further members"], ["height"]),
             *lines_of_table("The report, and answers", ["`kind`", "for", "further members"], []),
             written("tally", ["yes", "abstain", "no", "no_with_veto", "bonded"]),
             written("checked", ["line"], yes=ref("truth value")),
             written("trial", ["accepted", "blocks", "burned", "refused", "supply", "pool"], burned=ref("written coins"))]
    return {"oneOf": kinds}


# ---- all of them

def schema(name: str, title: str, is_bech32: bool, body: Schema, forms: dict[str, Schema]) -> Schema:
    """A schema with what it leads to, and no more."""
    due, found = [body], {}
    while due:
        for name_of in re.findall(r'"#/\$defs/([a-z-]+)"', json.dumps(due.pop())):
            if name_of not in found:
                found[name_of] = next(value for key, value in forms.items() if key.replace(" ", "-") == name_of)
                due.append(found[name_of])
    form = "bech32" if is_bech32 else "hexadecimal"
    return {"$schema": "https://json-schema.org/draft/2020-12/schema", "$id": f"urn:stakeplay:{form}:{name}",
            "title": f"{title}; addresses in {'the spelling of BIP 173' if is_bech32 else 'hexadecimal digits'}",
            **body, "$defs": dict(sorted(found.items()))}


@functools.cache
def schemas(is_bech32: bool) -> dict[str, Schema]:
    """The schemas of one form of addresses, by the names of their files."""
    forms = read_forms(is_bech32) | WRITTEN
    forms["written coin"] = closed({"amount": ref("written amount"), "denom": ref("denomination")})
    forms["written coins"] = {"type": "array", "items": ref("written coin"), "x-unique": "denom"}
    forms["written decimal coin"] = closed({"amount": ref("written decimal"), "denom": ref("denomination")})
    forms["written decimal coins"] = {"type": "array", "items": ref("written decimal coin"), "x-unique": "denom"}
    forms["message"] = one_of_kinds("A block", ["kind", "members"])
    forms["entry"] = one_of_kinds("A statement", ["kind", "what happened", "members"])
    made = {
        "genesis": ("The first line of an input", numbered("The genesis", ["number", "member", "form"])),
        "block": ("A further line of an input", numbered("A block", ["number", "member", "form"])),
        "ballot": ("A line of ballots", numbered("A ballot", ["number", "member", "form"])),
        "statement": ("A reward statement", numbered("A statement", ["number", "member", "form"])),
        "output": ("A line of an output", output()),
    }
    return {name: schema(name, title, is_bech32, body, forms) for name, (title, body) in made.items()}


def files() -> dict[pathlib.Path, str]:
    """The text of each file."""
    return {FOLDER / ("bech32" if is_bech32 else "") / f"{name}.json": json.dumps(made, indent=1) + "\n"
            for is_bech32 in (False, True) for name, made in schemas(is_bech32).items()}


# ---- whether a value meets a schema

TYPES = {"object": dict, "array": list, "string": str, "boolean": bool}
KNOWN = {"$schema", "$id", "$defs", "title", "$ref", "type", "const", "enum", "pattern", "format", "minimum", "maximum",
         "properties", "required", "additionalProperties", "items", "oneOf", "anyOf", "not", "x-unique", "x-span"}


def meets(value: Any, one: Schema, defs: Schema) -> bool:
    """Whether a value meets a schema."""
    return not next(faults(value, one, defs, ""), "")


def faults(value: Any, one: Schema, defs: Schema, where: str) -> Iterator[str]:
    """Where a value does not meet a schema."""
    if unknown := one.keys() - KNOWN:
        raise ValueError(f"words of schemas that are not known here: {unknown}")
    if "$ref" in one:
        yield from faults(value, defs[one["$ref"].removeprefix("#/$defs/")], defs, where)
    if "type" in one and not (type(value) is int if one["type"] == "integer" else type(value) is TYPES[one["type"]]):
        yield f"{where}: is no {one['type']}"
        return
    if "const" in one and (value != one["const"] or type(value) is not type(one["const"])):
        yield f"{where}: is another value"
    if "enum" in one and value not in one["enum"]:
        yield f"{where}: is none of the values"
    if "pattern" in one and not re.search(one["pattern"].replace("$", r"\Z"), value):
        yield f"{where}: is not of the pattern"
    elif "format" in one and not is_of_format(value, one["format"]):
        yield f"{where}: is no {one['format']}"
    if type(value) is int and not one.get("minimum", value) <= value <= one.get("maximum", value):
        yield f"{where}: is out of its range"
    if isinstance(value, dict) and "properties" in one:
        yield from (f"{where}: has no {name}" for name in one["required"] if name not in value)
        yield from (f"{where}: may not have {name}" for name in value.keys() - one["properties"].keys())
        for name in value.keys() & one["properties"].keys():
            yield from faults(value[name], one["properties"][name], defs, f"{where}.{name}")
    if isinstance(value, list) and "items" in one:
        for place, element in enumerate(value):
            yield from faults(element, one["items"], defs, f"{where}[{place}]")
    yield from faults_of_several(value, one, defs, where)


def faults_of_several(value: Any, one: Schema, defs: Schema, where: str) -> Iterator[str]:
    """Where a value does not meet what several schemas say, or several elements."""
    if "oneOf" in one or "anyOf" in one:
        count = sum(meets(value, other, defs) for other in one.get("oneOf", one.get("anyOf")))
        if not count or count > 1 and "oneOf" in one:
            kind = f" of the kind {value['kind']}" if isinstance(value, dict) and "kind" in value else ""
            yield f"{where}: is {'none' if not count else 'several'} of what may stand there{kind}"
    if "not" in one and meets(value, one["not"], defs):
        yield f"{where}: may not stand there"
    if "x-unique" in one:
        names = [element[one["x-unique"]] for element in value if isinstance(element, dict) and one["x-unique"] in element]
        if len({str(name) for name in names}) < len(names):
            yield f"{where}: has a {one['x-unique']} twice"
    if "x-span" in one and all(meets(element, ref("entry"), defs) for element in value) and not is_span(value):
        yield f"{where}: is no span"


def is_of_format(value: str, name: str) -> bool:
    """Whether a text of the right pattern is of a format: a date that exists, or checked by its last letters."""
    if name == "bech32":
        return from_bech32(value) is not None
    try:
        return bool(datetime.date.fromisoformat(value[:10]))
    except ValueError:
        return False


def is_span(entries: list[Any]) -> bool:
    """Whether entries of their forms are a span."""
    kinds = [entry["kind"] for entry in entries]
    if kinds.count("started") != 1 or kinds[0] != "started" or kinds[-1] != "ended":
        return False
    tokens = [(int(entry["tokens"]), entry) for entry in entries if "tokens" in entry]
    return (0 < Fraction(entries[0]["shares"]) <= Fraction(entries[0]["total"])
            and all(amount <= 10 ** 18 for amount, _ in tokens)
            and all(0 < amount and int(entry["burned"]) <= amount for amount, entry in tokens if entry["kind"] == "slashed"))


def number(digits: str) -> int | float:
    """A number of JSON: one with a sign is none of the form number."""
    return float(digits) if digits[0] == "-" else int(digits)


def depth(value: Any) -> int:
    """How many brackets are open at once in a value's text."""
    within = value.values() if isinstance(value, dict) else value if isinstance(value, list) else None
    return 0 if within is None else 1 + max(map(depth, within), default=0)


def fault_of(line: bytes, one: Schema) -> str:
    """The first place where a line does not meet a schema; nothing where it meets it. A `ValueError` where it is no JSON."""
    value = json.loads(line.decode(), parse_int=number)
    if depth(value) > MOST_BRACKETS:
        raise ValueError("more brackets are open than the program reads")
    return next(faults(value, one, one["$defs"], "line"), "")


# ---- the cases

def wanted(end: str) -> tuple[int, str]:
    """The line at which an input ends, and why; behind all lines where it ends well."""
    found = re.search(r"line (\d+): (.*)", end)
    return (int(found[1]), found[2]) if found else (10 ** 9, "")


def hold_case(path: pathlib.Path, is_bech32: bool) -> Iterator[str]:
    """Where the lines of a case do not meet or fail their schemas as they should."""
    place, why = wanted(path.with_suffix(".end").read_text())
    of = schemas(is_bech32)
    for number_of, line in enumerate(path.read_bytes().splitlines(), 1):
        try:
            fault = fault_of(line, of["genesis" if number_of == 1 else "block"])
        except (ValueError, RecursionError):
            fault = "not JSON"
        is_due = number_of == place and why.startswith(("bad shape", "not JSON"))
        if bool(fault) != is_due or (fault == "not JSON") != (is_due and why == "not JSON"):
            found = f"fails: {fault}" if fault else "meets its schema"
            yield f"{path}: line {number_of} {found}, and the program says {why or 'nothing'}"
        if number_of == place:
            break
    for number_of, line in enumerate(path.with_suffix(".out").read_bytes().splitlines(), 1):
        if fault := fault_of(line, of["output"]):
            yield f"{path.with_suffix('.out')}: line {number_of} fails: {fault}"


def hold_cases() -> tuple[int, list[str]]:
    """How many lines were held, and those at fault."""
    bad, count = [], 0
    for folder, is_bech32 in (("cases", False), ("cases/bech32", True), ("examples", False)):
        for path in sorted((ROOT / folder).glob("*.jsonl")):
            bad += hold_case(path, is_bech32)
            count += len(path.read_bytes().splitlines()) + len(path.with_suffix(".out").read_bytes().splitlines())
    for path in sorted((ROOT / "examples/recipes").glob("*statements.jsonl")):
        for line in path.read_bytes().splitlines():
            count += 1
            if fault := fault_of(line, schemas(False)["statement"]):
                bad.append(f"{path}: {fault}")
    return count, bad


def main(words: list[str]) -> int:
    if words not in ([], ["--check"]):
        print(__doc__, end="", file=sys.stderr)
        return 2
    status = 0
    for path, made in files().items():
        if not words:
            path.parent.mkdir(parents=True, exist_ok=True)
            path.write_text(made, encoding="utf-8")
        elif not path.exists() or path.read_text(encoding="utf-8") != made:
            print(f"schemas: {path.relative_to(ROOT)} is not what docs/FORMATS.md says; run checks/schemas.py")
            status = 1
    if words:
        count, bad = hold_cases()
        for fault in bad:
            print(f"schemas: {fault}")
        print(f"schemas: {len(files())} made of docs/FORMATS.md, {count} lines held against them, "
              f"{len(bad)} not as they should be")
        status = 1 if bad else status
    return status


if __name__ == "__main__":
    sys.exit(main(sys.argv[1:]))
