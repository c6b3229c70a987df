"""JSON objects as `serde_json` reads them: RFC 8259, less than 128 levels deep, no lone surrogate, no number that floating point of 64
bits hasn't."""
import json
import re

STRING = re.compile(r'"(?:[^"\\]|\\.)*"', re.DOTALL)
DEEPEST = 127
MOST = 2**64 - 1


class NotJson(Exception):
    """The text isn't one JSON object."""


class Other:
    """A number that isn't a whole one below 2^64 in digits alone."""


def whole_number(text):
    if text.startswith("-") or len(text) > 20 or int(text) > MOST:
        return other_number(text)
    return int(text)


def other_number(text):
    if abs(float(text)) == float("inf"):
        raise NotJson
    return Other()


def refuse_constant(_):
    raise NotJson


def check_text(value):
    """Refuses a text, or a list that has one, with a lone surrogate; objects within were seen before."""
    if isinstance(value, str):
        value.encode("utf-8")
    elif isinstance(value, list):
        for it in value:
            check_text(it)


def members(pairs):
    for name, value in pairs:
        check_text(name)
        check_text(value)
    return dict(pairs)


def check_depth(text):
    depth = 0
    for it in re.findall(r"[\[\]{}]", STRING.sub("", text)):
        depth += 1 if it in "[{" else -1
        if depth > DEEPEST:
            raise NotJson


def object_of(data):
    """The members of the one object that bytes are; NotJson where they are none."""
    try:
        text = data.decode("utf-8")
        check_depth(text)
        numbers = {"parse_int": whole_number, "parse_float": other_number, "parse_constant": refuse_constant}
        found = json.loads(text, object_pairs_hook=members, **numbers)
    except (ValueError, RecursionError) as error:
        raise NotJson from error
    if not isinstance(found, dict):
        raise NotJson
    return found
