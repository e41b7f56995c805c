"""Whether what `nozzlegorse check` writes has the form that its readers want: by a schema, by what a standard requires, by a parser.
Each check gives the first thing that is wrong, or ''. Readers of Debian's packages look too, where they are installed."""

import importlib
import json
import re
import sys
from xml.etree import ElementTree


def installed(name):
    """A module of Python's or of a package of Debian's; None where it isn't there."""
    sys.path.append("/usr/lib/python3/dist-packages")
    try:
        return importlib.import_module(name)
    except ImportError:
        return None
    finally:
        sys.path.pop()


# python3-jsonschema, python3-junitparser, python3-sarif-python-om
READERS = {name: installed(name) for name in ("jsonschema", "junitparser", "sarif_om")}

_TYPES = {"object": dict, "array": list, "string": str, "null": type(None)}


def _is_type(value, name):
    return isinstance(value, int) and not isinstance(value, bool) if name == "integer" else isinstance(value, _TYPES[name]) if name in _TYPES else isinstance(value, bool)


def wrong(value, schema, whole=None, at="it"):
    """The first fault of a value by a JSON schema, of which only these words are used: $ref, oneOf, type, enum, const, pattern, least
    and most, properties, required, additionalProperties, items."""
    whole = whole or schema
    if "$ref" in schema:
        return wrong(value, whole["$defs"][schema["$ref"].removeprefix("#/$defs/")], whole, at)
    if "oneOf" in schema:
        said = [wrong(value, it, whole, at) for it in schema["oneOf"]]
        return "" if said.count("") == 1 else f"{at}: {said.count('')} of {len(said)} forms fit: {min(said, key=len)}"
    if "type" in schema and not _is_type(value, schema["type"]):
        return f"{at}: {value!r} is no {schema['type']}"
    for name, holds in (("enum", lambda of: value in of), ("const", lambda of: value == of), ("pattern", lambda of: re.search(of, value)), ("minLength", lambda of: len(value) >= of),
                        ("minItems", lambda of: len(value) >= of), ("minimum", lambda of: value >= of), ("maximum", lambda of: value <= of)):
        if name in schema and not holds(schema[name]):
            return f"{at}: {value!r} by {name} {schema[name]}"
    return _wrong_within(value, schema, whole, at)


def _wrong_within(value, schema, whole, at):
    if isinstance(value, list):
        return next(filter(None, (wrong(it, schema.get("items", {}), whole, f"{at}[{number}]") for number, it in enumerate(value))), "")
    if not isinstance(value, dict):
        return ""
    known = schema.get("properties", {})
    if missing := [it for it in schema.get("required", ()) if it not in value]:
        return f"{at}: no {missing[0]}"
    if schema.get("additionalProperties") is False and (others := value.keys() - known.keys()):
        return f"{at}: {min(others)} is none of it"
    return next(filter(None, (wrong(it, known.get(name, {}), whole, f"{at}.{name}") for name, it in value.items())), "")


def _object(required, **properties):
    return {"type": "object", "properties": properties, "required": required.split(), "additionalProperties": False}


def _array(of):
    return {"type": "array", "items": of}


_TEXT, _COUNT = {"type": "string", "minLength": 1}, {"type": "integer", "minimum": 0}
_MESSAGE = _object("text", text=_TEXT)
# A reference of RFC 3986.
_ARTIFACT = _object("uri", uri={"type": "string", "pattern": r"^([A-Za-z0-9._~!$&'()*+,;=@/-]|%[0-9A-F]{2})+$"})
_LOCATION = _object("physicalLocation", logicalLocations=_array(_object("fullyQualifiedName", fullyQualifiedName=_TEXT)),
                    physicalLocation=_object("artifactLocation", artifactLocation=_ARTIFACT, region=_object("byteOffset byteLength", byteOffset=_COUNT, byteLength=_COUNT)))
_LEVEL = {"enum": ["none", "note", "warning", "error"]}
# What SARIF 2.1.0 requires of the objects that are used (3.13, 3.14, 3.18 to 3.20, 3.27 to 3.30, 3.49, 3.58), and no property that it hasn't.
SARIF = _object(
    "version runs",
    **{"$schema": {"type": "string", "pattern": "^https://.*sarif-2.1.0.json$"}},
    version={"const": "2.1.0"},
    runs={**_array(_object(
        "tool invocations results",
        tool=_object("driver", driver=_object("name version rules", name=_TEXT, version=_TEXT, rules=_array(_object("id", id=_TEXT, shortDescription=_MESSAGE)))),
        invocations=_array(_object("executionSuccessful", executionSuccessful={"type": "boolean"},
                                   toolExecutionNotifications=_array(_object("message", level=_LEVEL, message=_MESSAGE, locations=_array(_LOCATION))))),
        results=_array(_object("message", ruleId=_TEXT, ruleIndex=_COUNT, level=_LEVEL, message=_MESSAGE, locations=_array(_LOCATION))))), "minItems": 1})
# https://docs.gitlab.com/ci/testing/code_quality, report format
GITLAB = _array(_object("description check_name fingerprint severity location", description=_TEXT, check_name=_TEXT, fingerprint=_TEXT, severity={"enum": ["info", "minor", "major", "critical", "blocker"]},
                        location=_object("path lines", path=_TEXT, lines=_object("begin", begin={"type": "integer", "minimum": 1}))))


def sarif(text):
    """A log of SARIF."""
    log = json.loads(text)
    if said := wrong(log, SARIF):
        return said
    run = log["runs"][0]
    rules = [it["id"] for it in run["tool"]["driver"]["rules"]]
    if len(set(rules)) < len(rules):
        return "a rule is there twice"
    if READERS["sarif_om"]:
        _read(log, READERS["sarif_om"].SarifLog)
    return next((f"{it['ruleId']} at {it['ruleIndex']}" for it in run["results"] if rules[it["ruleIndex"]] != it["ruleId"]), "")


# The class that sarif_om, which is made of the standard's schema, has of an object by the property that holds it.
_CLASSES = {"runs": "Run", "tool": "Tool", "driver": "ToolComponent", "rules": "ReportingDescriptor", "shortDescription": "MultiformatMessageString",
            "invocations": "Invocation", "toolExecutionNotifications": "Notification", "results": "Result", "message": "Message", "locations": "Location",
            "physicalLocation": "PhysicalLocation", "artifactLocation": "ArtifactLocation", "region": "Region", "logicalLocations": "LogicalLocation"}


def _read(value, of):
    """The object of this class. A property that it hasn't is a KeyError, one that lacks a TypeError."""
    if isinstance(value, list):
        return [_read(it, of) for it in value]
    if not isinstance(value, dict):
        return value
    known = {it.metadata["schema_property_name"]: it.name for it in of.__attrs_attrs__}
    return of(**{known[name]: _read(it, getattr(READERS["sarif_om"], _CLASSES.get(name, ""), None)) for name, it in value.items()})


def gitlab(text):
    """A report of Code Quality."""
    issues = json.loads(text)
    prints = [it["fingerprint"] for it in issues]
    return wrong(issues, GITLAB) or "a fingerprint is there twice" * (len(set(prints)) < len(prints))


def github(text):
    """Commands of a workflow, a line each."""
    form = r"::(error|warning) file=([^\s:,%]|%[0-9A-F]{2}| )+(,title=[VR]\d+)?::[^\r\n]+"
    return next((line for line in text.splitlines() if not re.fullmatch(form, line)), "")


def junit(text):
    """A report of JUnit: its counts are those of its cases. Where junitparser is installed it reads the same."""
    root = ElementTree.fromstring(text.encode())
    (suite,) = root.iter("testsuite")
    counts = {"tests": len(list(suite.iter("testcase"))), **{f"{it}{'s' * (it != 'skipped')}": len(list(suite.iter(it))) for it in ("error", "failure", "skipped")}}
    if said := {name: suite.get(name) for name, count in counts.items() if suite.get(name) != str(count)}:
        return f"{said}, and not {counts}"
    names = [(it.get("classname"), it.get("name")) for it in suite.iter("testcase")]
    if root.tag != "testsuites" or None in (part for name in names for part in name) or any(len(it) > 1 for it in suite.iter("testcase")):
        return "no cases as pytest writes them"
    if not READERS["junitparser"]:
        return ""
    read = READERS["junitparser"].JUnitXml.fromstring(text.encode())
    read.update_statistics()
    came = {"tests": read.tests, "errors": read.errors, "failures": read.failures, "skipped": read.skipped}
    return "" if came == counts else f"by junitparser {came}, and not {counts}"


def as_json(text):
    """JSON; its schema is looked at elsewhere."""
    return "" if json.loads(text) else "nothing"


CHECKS = {"github": github, "gitlab": gitlab, "junit": junit, "sarif": sarif, "json": as_json}
