"""What is wrong with the form of a log of SARIF 2.1.0, as its standard describes the objects that the log has."""
import re

# Of each kind of object what it has to have, and what it may have besides, with the kind of each value. A list stands in brackets. An
# object has nothing that is not told here: the standard knows more of them, and nothing of ours is one of these.
OBJECTS = {
    "log": ({"version": "2.1.0", "runs": ["run"]}, {"$schema": "uri"}),
    "run": ({"tool": "tool"}, {"invocations": ["invocation"], "results": ["result"]}),
    "tool": ({"driver": "component"}, {}),
    "component": ({"name": "text"}, {"version": "text", "rules": ["rule"]}),
    "rule": ({"id": "text"}, {"shortDescription": "message", "fullDescription": "message", "help": "message"}),
    "invocation": ({"executionSuccessful": "truth"}, {"toolExecutionNotifications": ["notification"]}),
    "notification": ({"message": "message"}, {"level": "level"}),
    "result": ({"message": "message"}, {"ruleId": "text", "level": "level", "locations": ["location"]}),
    "location": ({}, {"physicalLocation": "place"}),
    "place": ({"artifactLocation": "artifact"}, {"region": "region"}),
    "artifact": ({"uri": "uri"}, {}),
    "region": ({"startLine": "count"}, {"startColumn": "count"}),
    "message": ({"text": "text"}, {}),
}

VALUES = {
    "2.1.0": lambda it: it == "2.1.0",
    "text": lambda it: isinstance(it, str) and it != "",
    "truth": lambda it: isinstance(it, bool),
    "count": lambda it: isinstance(it, int) and it is not True and it >= 1,
    "level": lambda it: it in ("none", "note", "warning", "error"),
    # (a reference by RFC 3986: a percent sign stands before two digits, and the first part of a path has no colon unless it is a scheme)
    "uri": lambda it: isinstance(it, str) and re.fullmatch(r"([a-zA-Z][a-zA-Z0-9+.-]*:)?(?![^/?#]*:)([\w.~!$&'()*+,;=:@/?#-]|%[0-9A-F]{2})+", it, re.ASCII) is not None,
}


def faults(value, kind="log", at="log"):
    """Each place where a value is none of its kind."""
    if isinstance(kind, list):
        if not isinstance(value, list):
            return [f"{at} is no list"]
        return [it for place, part in enumerate(value) for it in faults(part, kind[0], f"{at}[{place}]")]
    if kind in VALUES:
        return [] if VALUES[kind](value) else [f"{at} is no {kind}: {value!r}"]
    if not isinstance(value, dict):
        return [f"{at} is no object"]
    needed, allowed = OBJECTS[kind]
    found = [f"{at} lacks {it}" for it in needed.keys() - value.keys()]
    for name, part in value.items():
        known = {**needed, **allowed}
        found += faults(part, known[name], f"{at}.{name}") if name in known else [f"{at} has {name}"]
    return found
