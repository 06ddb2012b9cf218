"""A model of flagplane's definitions, rules, evaluations, edits and imports: tools/second-rules compares the program with it.

It is written apart from the program, after docs/FORMATS.md, the READMEs of crates/fp_operators, crates/fp_targeting and crates/fp_ofrep, and the
pages of JsonLogic, Semantic Versioning and MurmurHash3 that those follow; who changes what they say changes the model. It gives:

  parsed(bytes)                               the value that JSON writes, or NotJson
  State(most_bytes).line(bytes)               the reply to an edit line, or None; `show` then gives the line of `show`
  puts_of_document(bytes)                     the edits that a flagd document comes to, or DocumentFault; `take` of a State takes each
  reply_for_all(flags, body, moment)          the status and the body of a bulk evaluation; reply_for_one those of one flag
  judge_definition, judge_rule, result        the first fault of a definition or a rule; what a rule gives for data

A value of JSON is None, a bool, an int, a str, a list or a dict, as the library has them; a number that isn't whole is a NotWhole.

It hasn't what needs a failure or a limit that no trial reaches: memory and disks that fail, `stopped`, `revisions-used`, `queue-full`, bodies that
are too long. Nor has it requests but for their bodies, nor batches, nor the bytes of a disk (tools/second-reading has these).
"""
import json
import math
import re
import sys
from collections import namedtuple
from itertools import accumulate

sys.setrecursionlimit(10_000)  # Evaluators of the deepest JSON stand in one another.

LEAST, GREATEST, GREATEST_GROUP = -(1 << 63), (1 << 63) - 1, (1 << 64) - 1
DEEPEST_JSON, DEEPEST, DEEPEST_REFERENCE = 127, 32, 8
LONGEST_LINE, LONGEST_SET, LONGEST_DEFINITION, LONGEST_KEY = 32_768, 32_752, 16_384, 256
MOST_FLAGS, MOST_EDITS, MOST_VARIANTS, MOST_METADATA, MOST_RULE_VALUES, MOST_PUT_IN = 4096, 64, 64, 32, 1024, 16_384
GREATEST_WEIGHT = (1 << 31) - 1


# ---- JSON as it is read

class NotJson(ValueError):
    """The bytes are no JSON."""


class NotWhole:
    """A number that isn't whole, written so, from LEAST to GREATEST: as it is written."""

    def __init__(self, text):
        self.text = text


def need(holds, fault):
    if not holds:
        raise fault


def read_float(text):
    need(math.isfinite(float(text)), NotJson())
    return NotWhole(text)


def read_integer(text):
    is_short = len(text) <= len(str(LEAST))
    return int(text) if is_short and text != "-0" and LEAST <= int(text) <= GREATEST else read_float(text)


READER = json.JSONDecoder(parse_int=read_integer, parse_float=read_float, parse_constant=read_float)
STRING = re.compile(r'"(?:[^"\\]|\\.)*"', re.DOTALL)
BRACKET = re.compile(r"[][{}]")
ESCAPE = re.compile(r"\\(?:u[dD][89abAB]..\\u[dD][c-fC-F]..|(u[dD][89a-fA-F])|.)", re.DOTALL)


def deepest_bracket(text):
    """How deep brackets stand in one another, in members too that another one of the name replaces."""
    steps = [1 if it in "[{" else -1 for it in BRACKET.findall(STRING.sub("", text))]
    return max(accumulate(steps), default=0)


def parsed(data):
    """The value that the bytes write. The library takes escapes of half a character, which isn't UTF-8."""
    try:
        text = data.decode("utf-8")
        value = READER.decode(text)
    except (ValueError, RecursionError):
        raise NotJson from None
    need(not any(ESCAPE.findall(text)) and deepest_bracket(text) <= DEEPEST_JSON, NotJson())
    return value


# ---- definitions

class Fault(Exception):
    """The first fault of a definition or of a rule: its word, and the operator that is unknown, if that is it."""


def canonical(value):
    return json.dumps(value, sort_keys=True, separators=(",", ":"), ensure_ascii=False)


def length(text):
    return len(text.encode())


def items_of(value):
    if isinstance(value, dict):
        return value.values()
    return value if isinstance(value, list) else ()


def nesting(value):
    return 1 + max(map(nesting, items_of(value)), default=0) if isinstance(value, (list, dict)) else 0


def is_whole(value):
    return type(value) is not NotWhole and all(map(is_whole, items_of(value)))


def count_values(value):
    return 1 + sum(map(count_values, items_of(value)))


def are_variants(value):
    if type(value) is not dict or not 1 <= len(value) <= MOST_VARIANTS:
        return False
    kinds = set(map(type, value.values()))
    return len(kinds) == 1 and kinds <= {bool, str, int, dict}


def is_metadata(value):
    return type(value) is dict and len(value) <= MOST_METADATA and all(type(it) in (bool, str, int) for it in value.values())


def judge_definition(value):
    """Raises the first fault of what is no definition."""
    need(nesting(value) <= DEEPEST, Fault("too-deep"))
    need(is_whole(value), Fault("whole-numbers-only"))
    need(length(canonical(value)) <= LONGEST_DEFINITION, Fault("too-large"))
    need(type(value) is dict, Fault("not-object"))
    need(value.get("state", "ENABLED") in ("ENABLED", "DISABLED"), Fault("bad-state"))
    variants, default, targeting = (value.get(it) for it in ("variants", "defaultVariant", "targeting"))
    need(are_variants(variants), Fault("bad-variants"))
    need(type(default) is str and default in variants, Fault("bad-default"))
    need(is_metadata(value.get("metadata", {})), Fault("bad-metadata"))
    if targeting is not None and targeting != {}:
        need(type(targeting) is dict, Fault("bad-rule"))
        judge_rule(targeting)


# ---- rules: which there are

# The fewest and the most arguments of each operator.
OPERATORS = {
    "var": (0, 2), "if": (0, math.inf), "cat": (0, math.inf), "and": (1, math.inf), "or": (1, math.inf), "!": (1, 1), "!!": (1, 1),
    "===": (2, 2), "!==": (2, 2), "==": (2, 2), "!=": (2, 2), ">": (2, 2), ">=": (2, 2), "in": (2, 2), "%": (2, 2), "starts_with": (2, 2),
    "ends_with": (2, 2), "<": (2, 3), "<=": (2, 3), "sem_ver": (3, 3), "fractional": (1, math.inf)}


def is_operation(rule):
    return type(rule) is dict and len(rule) == 1


def operation(rule):
    """Its operator and its arguments."""
    (operator, argument), = rule.items()
    return operator, argument if type(argument) is list else [argument]


def parts_of(rule):
    """What of a rule is a rule itself. The pairs of `fractional` are looked at too."""
    if is_operation(rule):
        return operation(rule)[1]
    return rule if type(rule) is list else ()


def unknown_operators(rule):
    """In reading order."""
    if is_operation(rule) and operation(rule)[0] not in OPERATORS:
        yield operation(rule)[0]
    else:
        for part in parts_of(rule):
            yield from unknown_operators(part)


def is_pair(value):
    if type(value) is not list or not 1 <= len(value) <= 2 or type(value[0]) is not str:
        return False
    return len(value) == 1 or type(value[1]) is int and 0 <= value[1] <= GREATEST_WEIGHT


def weight(pair):
    return pair[1] if len(pair) == 2 else 1


def bucketing_and_pairs(arguments):
    """The bucketing rules of `fractional`, one or none, and its pairs."""
    count = 1 if arguments and type(arguments[0]) is not list else 0
    return arguments[:count], arguments[count:]


def has_right_arguments(rule):
    """Whether each operator of a rule, all of which are known, has arguments as it wants them."""
    if not is_operation(rule):
        return all(map(has_right_arguments, parts_of(rule)))
    operator, arguments = operation(rule)
    if operator == "fractional":
        bucketing, pairs = bucketing_and_pairs(arguments)
        are_pairs = bool(pairs) and all(map(is_pair, pairs))
        return are_pairs and sum(map(weight, pairs)) <= GREATEST_WEIGHT and all(map(has_right_arguments, bucketing))
    fewest, most = OPERATORS[operator]
    return fewest <= len(arguments) <= most and all(map(has_right_arguments, arguments))


def judge_rule(rule):
    """Raises the first fault of what is no rule."""
    need(nesting(rule) <= DEEPEST, Fault("too-deep"))
    for operator in unknown_operators(rule):
        raise Fault("unsupported-operator", operator)
    need(count_values(rule) <= MOST_RULE_VALUES and is_whole(rule) and has_right_arguments(rule), Fault("bad-rule"))


# ---- rules: what they give

NUMERAL = re.compile(r"(-?)0*([0-9]{1,19})", re.ASCII)
PLACE = re.compile(r"0|[1-9][0-9]{0,18}", re.ASCII)
ABSENT = object()


def numeral(text):
    """The number that a text writes, or None."""
    found = NUMERAL.fullmatch(text)
    if not found:
        return None
    number = int("".join(found.groups()))
    return number if LEAST <= number <= GREATEST else None


def are_texts(*values):
    return all(type(it) is str for it in values)


def is_true(value):
    return not (value is None or value is False or value == "" or value == [] or type(value) is int and value == 0)


def strictly_equal(one, two):
    return type(one) is type(two) and type(one) not in (list, dict) and one == two


def number_meant(value):
    """The number that a value is or means, or None."""
    return numeral(value) if type(value) is str else int(value) if type(value) in (bool, int) else None


def loosely_equal(one, two):
    are_of_number = int in (type(one), type(two)) and number_meant(one) is not None
    return are_of_number and number_meant(one) == number_meant(two) or strictly_equal(one, two)


def difference(one, two):
    """Below, at or above 0 as the first is below, equal to or above the second, or None where they have no order."""
    if are_texts(one, two):
        one, two = one.encode(), two.encode()
    else:
        one, two = (numeral(it) if type(it) is str else it for it in (one, two))
        if not type(one) is type(two) is int:
            return None
    return (one > two) - (one < two)


BELOW, AT_MOST = (-1,), (-1, 0)


def are(differences, *values):
    """Whether each value and the next differ so."""
    return all(difference(one, two) in differences for one, two in zip(values, values[1:]))


def remainder(one, two):
    if type(one) is not int or type(two) is not int or two == 0:
        return None
    size = abs(one) % abs(two)
    return -size if one < 0 else size


def is_in(one, two):
    if type(two) is list:
        return any(strictly_equal(one, it) for it in two)
    return are_texts(one, two) and one in two


def joined(*values):
    if any(type(it) in (list, dict) for it in values):
        return None
    return "".join("" if it is None else it if type(it) is str else canonical(it) for it in values)


def step(value, part):
    """What one part of a path names in a value."""
    if type(value) is dict:
        return value.get(part, ABSENT)
    if type(value) is list and PLACE.fullmatch(part) and int(part) < len(value):
        return value[int(part)]
    return ABSENT


def variable(data, path=None, default=None, *_):
    if path is None or path == "":
        return data
    value = data if type(path) in (int, str) else ABSENT
    for part in str(path).split("."):
        value = step(value, part)
    return default if value is ABSENT else value


IDENTIFIERS = r"[0-9A-Za-z-]+(?:\.[0-9A-Za-z-]+)*"
GROUP = r"(0|[1-9][0-9]{0,19})"
VERSION = re.compile(r"%s\.%s\.%s(?:-(%s))?(?:\+%s)?" % (GROUP, GROUP, GROUP, IDENTIFIERS, IDENTIFIERS), re.ASCII)
ONE_OR_TWO_GROUPS = re.compile(r"[0-9]+(\.[0-9]+)?", re.ASCII)


def rank_of_identifier(text):
    """Its place among identifiers: numbers by value, then texts. None for a number that begins by 0."""
    if text.isdigit():
        return (0, len(text), text) if text == "0" or text[0] != "0" else None
    return 1, 0, text


def version(text):
    """The groups of a version, and the rank of what is before its release, which is behind all those; None if it is none."""
    text = text.removeprefix("v")
    short = ONE_OR_TWO_GROUPS.fullmatch(text)
    if short:
        text += ".0" if short.group(1) else ".0.0"
    found = VERSION.fullmatch(text)
    if not found:
        return None
    groups = [int(found.group(it)) for it in (1, 2, 3)]
    ranks = [rank_of_identifier(it) for it in found.group(4).split(".")] if found.group(4) is not None else []
    if max(groups) > GREATEST_GROUP or None in ranks:
        return None
    return groups, (0, ranks) if ranks else (1,)


def compare_versions(one, sign, two):
    one, two = (version(one), version(two)) if are_texts(one, sign, two) else (None, None)
    if one is None or two is None:
        return False
    holds = {"=": one == two, "!=": one != two, "<": one < two, "<=": one <= two, ">": one > two, ">=": one >= two,
             "~": one[0][:2] == two[0][:2], "^": one[0][:1] == two[0][:1]}
    return holds.get(sign, False)


WORD = 0xFFFF_FFFF


def turned(word, count):
    return (word << count | word >> 32 - count) & WORD


def mixed(block):
    return turned(int.from_bytes(block, "little") * 0xCC9E2D51 & WORD, 15) * 0x1B873593 & WORD


def hash_of(data):
    """MurmurHash3 (x86, 32 bits, seed 0)."""
    word, end = 0, len(data) // 4 * 4
    for at in range(0, end, 4):
        word = (turned(word ^ mixed(data[at:at + 4]), 13) * 5 + 0xE6546B64) & WORD
    word ^= mixed(data[end:])
    word ^= len(data)
    for shift, factor in ((16, 0x85EBCA6B), (13, 0xC2B2AE35), (16, 1)):
        word = (word ^ word >> shift) * factor & WORD
    return word


def share(arguments, data):
    """What `fractional` gives."""
    bucketing, pairs = bucketing_and_pairs(arguments)
    if bucketing:
        text = result(bucketing[0], data)
    else:
        text = data.get("targetingKey")
        text = data["$flagd"]["flagKey"] + text if type(text) is str else None
    total = sum(map(weight, pairs))
    if type(text) is not str or total == 0:
        return None
    place = hash_of(text.encode()) * total >> 32
    for pair in pairs:
        place -= weight(pair)
        if place < 0:
            return pair[0]


def first_case(arguments, data):
    """What `if` gives."""
    for at in range(0, len(arguments) - 1, 2):
        if is_true(result(arguments[at], data)):
            return result(arguments[at + 1], data)
    return result(arguments[-1], data) if len(arguments) % 2 else None


def first_that_is(wanted, arguments, data):
    """The first argument that is true, or false, else the last."""
    for argument in arguments:
        value = result(argument, data)
        if is_true(value) is wanted:
            break
    return value


CHOICES = {"if": first_case, "fractional": share, "and": lambda arguments, data: first_that_is(False, arguments, data),
           "or": lambda arguments, data: first_that_is(True, arguments, data)}
FUNCTIONS = {
    "!": lambda one: not is_true(one), "!!": is_true, "===": strictly_equal, "!==": lambda one, two: not strictly_equal(one, two),
    "==": loosely_equal, "!=": lambda one, two: not loosely_equal(one, two), "<": lambda *values: are(BELOW, *values),
    "<=": lambda *values: are(AT_MOST, *values), ">": lambda one, two: are(BELOW, two, one), ">=": lambda one, two: are(AT_MOST, two, one),
    "in": is_in, "cat": joined, "%": remainder, "starts_with": lambda one, two: are_texts(one, two) and one.startswith(two),
    "ends_with": lambda one, two: are_texts(one, two) and one.endswith(two), "sem_ver": compare_versions}


def result(rule, data):
    """What a rule gives for data that have `$flagd`."""
    if type(rule) is list:
        return [result(it, data) for it in rule]
    if not is_operation(rule):
        return rule
    operator, arguments = operation(rule)
    if operator in CHOICES:
        return CHOICES[operator](arguments, data)
    values = [result(it, data) for it in arguments]
    return variable(data, *values) if operator == "var" else FUNCTIONS[operator](*values)


# ---- evaluation, and its replies

class Refusal(Exception):
    """Why a request's body is refused: a code and details."""


def context_of(body):
    try:
        value = parsed(body) if body else {}
    except NotJson:
        raise Refusal("PARSE_ERROR", "body is not JSON") from None
    need(type(value) is dict, Refusal("INVALID_CONTEXT", "body is not an object"))
    context = {} if value.get("context") is None else value["context"]
    need(type(context) is dict, Refusal("INVALID_CONTEXT", "context is not an object"))
    need(type(context.get("targetingKey", "")) is str, Refusal("INVALID_CONTEXT", "targetingKey is not a text"))
    need(is_whole(context), Refusal("INVALID_CONTEXT", "context holds a number that is not whole"))
    return context


def variant_and_reason(definition, key, context, moment):
    """The variant may be one that isn't there, or what is no text."""
    if not definition.get("targeting"):
        return definition["defaultVariant"], "STATIC"
    given = result(definition["targeting"], dict(context, **{"$flagd": {"flagKey": key, "timestamp": moment}}))
    if given is None:
        return definition["defaultVariant"], "DEFAULT"
    return canonical(given) if type(given) is bool else given, "TARGETING_MATCH"


def failure(code, details, **more):
    return dict(more, errorCode=code, errorDetails=details)


def reply_of_flag(definition, key, context, moment):
    """The status and the reply for a flag."""
    if definition is None:
        return 404, failure("FLAG_NOT_FOUND", "flag not found", key=key)
    if definition.get("state") == "DISABLED":
        return 404, failure("FLAG_NOT_FOUND", "flag disabled", key=key)
    variant, reason = variant_and_reason(definition, key, context, moment)
    if type(variant) is not str or variant not in definition["variants"]:
        return 400, failure("GENERAL", "targeting names no variant", key=key)
    metadata = {"metadata": definition["metadata"]} if "metadata" in definition else {}
    return 200, dict(metadata, key=key, reason=reason, value=definition["variants"][variant], variant=variant)


def reply_for_one(flags, key, body, moment):
    try:
        definition = flags[key].definition if key in flags else None
        status, reply = reply_of_flag(definition, key, context_of(body), moment)
    except Refusal as refusal:
        status, reply = 400, failure(*refusal.args, key=key)
    return status, canonical(reply)


def reply_for_all(flags, body, moment):
    try:
        context = context_of(body)
    except Refusal as refusal:
        return 400, canonical(failure(*refusal.args))
    replies = [reply_of_flag(flags[key].definition, key, context, moment) for key in sorted(flags)]
    return 200, canonical({"flags": [reply for status, reply in replies if status != 404]})


# ---- edits, sets of changes, and their replies

Edit = namedtuple("Edit", "op key expected definition")  # of one flag
Flag = namedtuple("Flag", "definition text revision")


class LineFault(Exception):
    """A line that is no edit: its reply."""


def error(word, **more):
    return dict(more, error=word)


def is_set(value):
    return type(value) is dict and value.get("op") == "set"


def edit_of(value):
    """The edit of one flag that a value writes."""
    need(type(value) is dict, LineFault(error("not-object")))
    need(set(value) <= {"op", "key", "if", "flag"}, LineFault(error("bad-member")))
    op, key, expected, definition = (value.get(it) for it in ("op", "key", "if", "flag"))
    need(op in ("put", "delete"), LineFault(error("bad-op")))
    need(type(key) is str and 1 <= length(key) <= LONGEST_KEY, LineFault(error("bad-key")))
    need(expected in (None, "any", "absent") or type(expected) is int and 1 <= expected <= GREATEST, LineFault(error("bad-if")))
    try:
        if op == "put":
            judge_definition(definition)
    except Fault as fault:
        raise LineFault(error("flag", **dict(zip(("detail", "operator"), fault.args)))) from None
    return Edit(op, key, expected or "any", definition)


def spelled_length(edit):
    """In a batch."""
    return 3 + length(edit.key) + (4 + length(canonical(edit.definition)) if edit.op == "put" else 0)


def edits_of_set(value):
    need(set(value) <= {"op", "edits"}, LineFault(error("bad-member")))
    items = value.get("edits")
    need(type(items) is list and 1 <= len(items) <= MOST_EDITS, LineFault(error("bad-set")))
    edits = []
    for at, item in enumerate(items):
        try:
            need(not is_set(item), LineFault(error("bad-op")))
            edits.append(edit_of(item))
        except LineFault as fault:
            raise LineFault(dict(fault.args[0], at=at)) from None
    need(len({it.key for it in edits}) == len(edits), LineFault(error("bad-set")))
    need(3 + sum(map(spelled_length, edits)) <= LONGEST_SET, LineFault(error("bad-set")))
    return edits


class State:
    """A set of flags."""

    def __init__(self, most_bytes=1 << 23):
        self.flags, self.revision, self.bytes, self.most_bytes = {}, 0, 4, most_bytes

    def show(self):
        return '%d {"flags":{%s}}' % (self.revision, ",".join(canonical(key) + ":" + self.flags[key].text for key in sorted(self.flags)))

    def conflict(self, edit, **more):
        """The reply if what the edit expects isn't so, else None."""
        current = self.flags[edit.key].revision if edit.key in self.flags else None
        is_met = current is None if edit.expected == "absent" else edit.expected in ("any", current)
        if is_met and (edit.op == "put" or current is not None):
            return None
        return error("conflict", current=current, **more)

    def changed(self, edits):
        """The flags behind these edits, and their bytes."""
        flags, size = dict(self.flags), self.bytes
        for edit in edits:
            if edit.key in flags:
                size -= 14 + length(edit.key) + length(flags.pop(edit.key).text)
            if edit.op == "put":
                flags[edit.key] = Flag(edit.definition, canonical(edit.definition), self.revision + 1)
                size += 14 + length(edit.key) + length(flags[edit.key].text)
        return flags, size

    def take(self, edits):
        flags, size = self.changed(edits)
        if any(it.op == "put" for it in edits) and (len(flags) > MOST_FLAGS or size > self.most_bytes):
            return error("set-too-large")
        self.flags, self.bytes = flags, size
        self.revision += 1
        return {"revision": self.revision}

    def judge(self, value):
        if not is_set(value):
            edit = edit_of(value)
            return self.conflict(edit) or self.take([edit])
        edits = edits_of_set(value)
        conflicts = (self.conflict(edit, at=at) for at, edit in enumerate(edits))
        return next(filter(None, conflicts), None) or self.take(edits)

    def line(self, data):
        if len(data) > LONGEST_LINE:
            return error("line-too-long")
        if not data.strip(b" \t\r"):
            return None
        try:
            return self.judge(parsed(data))
        except NotJson:
            return error("not-json")
        except LineFault as fault:
            return fault.args[0]


# ---- flagd documents, with evaluators

class DocumentFault(Exception):
    """The first fault of a document, as `import` says it."""


class PutIn:
    """Puts evaluators in for references, and counts what it comes to."""

    def __init__(self, evaluators):
        self.evaluators, self.count = evaluators, 0

    def walk(self, value, depth=0):
        if is_operation(value) and type(value.get("$ref")) is str:
            need(depth < DEEPEST_REFERENCE, DocumentFault("evaluators nested too deep"))
            need(value["$ref"] in self.evaluators, DocumentFault("unknown evaluator " + value["$ref"]))
            return self.walk(self.evaluators[value["$ref"]], depth + 1)
        self.count += 1
        need(self.count <= MOST_PUT_IN, Fault("too-large"))
        if type(value) is dict:
            return {name: self.walk(value[name], depth) for name in sorted(value)}
        return [self.walk(it, depth) for it in value] if type(value) is list else value


def puts_of_document(data):
    """By ascending keys."""
    try:
        document = parsed(data)
    except NotJson:
        document = None
    evaluators = document.get("$evaluators", {}) if type(document) is dict else None
    need(type(evaluators) is dict and type(document.get("flags")) is dict, DocumentFault("not a flag document"))
    puts = []
    for key, definition in sorted(document["flags"].items()):
        need(1 <= length(key) <= LONGEST_KEY, DocumentFault("bad key"))
        try:
            if type(definition) is dict and "targeting" in definition:
                definition = dict(definition, targeting=PutIn(evaluators).walk(definition["targeting"]))
            judge_definition(definition)
        except Fault as fault:
            raise DocumentFault("flag %s: %s" % (key, fault.args[0])) from None
        puts.append(Edit("put", key, "any", definition))
    return puts
