# SPDX-License-Identifier: MIT
"""What `acpi_dump --check --format` prints, read by other readers: a SARIF log has what the standard wants of the
members that it has (OASIS, Static Analysis Results Interchange Format, version 2.1.0, section 3), a JUnit report what
CI systems read, and both have the findings of `--check --json`, each as its rule says."""
import json
import re
import urllib.parse
import xml.etree.ElementTree as xml

from check.dump_samples import run
from lib.checks import check

LEVELS = {"enum": ["none", "note", "warning", "error"]}
MESSAGE = {"text": {"type": str}, "must": ["text"]}
INDEX = {"type": int, "least": 0}
# Of each object the members that a log may have, and which it must have; a list of one is of many.
SARIF = {
    "must": ["version", "runs"],
    "$schema": {"type": str, "pattern": r"^https://[^ ]*sarif-2\.1\.0\.json$"},
    "version": {"enum": ["2.1.0"]},
    "runs": [{
        "must": ["tool", "results"],
        "tool": {"must": ["driver"], "driver": {
            "must": ["name"], "name": {"type": str}, "version": {"type": str},
            "rules": [{
                "must": ["id"], "id": {"type": str}, "help": MESSAGE, "shortDescription": MESSAGE,
                "helpUri": {"type": str, "pattern": r"^https://[!-~]+$"},
                "defaultConfiguration": {"must": [], "level": LEVELS}}]}},
        "results": [{
            "must": ["message"], "message": MESSAGE, "ruleId": {"type": str}, "level": LEVELS,
            "locations": [{
                "must": [],
                "logicalLocations": [{"must": [], "fullyQualifiedName": {"type": str}}],
                "physicalLocation": {
                    "must": [], "address": {"must": [], "absoluteAddress": INDEX},
                    "artifactLocation": {"must": [], "uri": {"type": str, "pattern": r"^[!-~]*$"}},
                    "region": {"must": [], "byteOffset": INDEX}}}]}]}],
}


def faults(it, form, place="log"):
    """Where a value isn't as a form has it."""
    if isinstance(form, list):
        if not isinstance(it, list):
            return [f"{place} is no list"]
        return [fault for number, part in enumerate(it) for fault in faults(part, form[0], f"{place}[{number}]")]
    if "must" in form:
        if not isinstance(it, dict):
            return [f"{place} is no object"]
        missing = [f"{place} has no {name}" for name in form["must"] if name not in it]
        return missing + [fault for name, part in it.items() for fault in (
            faults(part, form[name], f"{place}.{name}") if name in form and name != "must" else [f"{place}.{name}"])]
    is_right = it in form["enum"] if "enum" in form else type(it) is form["type"]
    is_right = is_right and ("pattern" not in form or re.search(form["pattern"], it)) and form.get("least", 0) <= (
        it if "least" in form else 0)
    return [] if is_right else [f"{place} is {it!r}"]


def wanted_of(finding, name):
    """What a finding of the document is in a log of an input of this name."""
    field = f".{finding['field']}" if "field" in finding else ""
    physical = {"artifactLocation": {"uri": urllib.parse.quote(finding.get("file", name))}}
    if "address" in finding:
        physical["address"] = {"absoluteAddress": int(finding["address"], 16) + finding["offset"]}
    if "file" in finding:
        physical["region"] = {"byteOffset": finding["offset"]}
    return {
        "level": finding["severity"], "ruleId": finding["rule"], "message": {"text": finding["message"]},
        "locations": [{"logicalLocations": [{"fullyQualifiedName": finding["signature"] + field}],
                       "physicalLocation": physical}]}


def check_log(title, log, findings, rules, name):
    """A log of SARIF is as the standard has it, and has the findings and the rules."""
    wrong = faults(log, SARIF)
    check(f"SARIF, {title}", not wrong, wrong[:3])
    logged = log["runs"][0]
    wanted = [wanted_of(finding, name) for finding in findings]
    check(f"SARIF's findings, {title}", logged["results"] == wanted, "they are others than those of --json")
    found = [(rule["id"], rule["defaultConfiguration"]["level"], rule["shortDescription"]["text"],
              rule["help"]["text"]) for rule in logged["tool"]["driver"]["rules"]]
    check(f"SARIF's rules, {title}", found == [
        (rule["rule"], rule["severity"], rule["what"], rule["section"]) for rule in rules], "they are others")


def check_report(title, text, findings, rules, bad):
    """A report of JUnit has a test for each rule, which fails if the rule finds something of a severity in `bad`."""
    root = xml.fromstring(text)
    suite, = root
    check(f"JUnit, {title}", (root.tag, suite.tag) == ("testsuites", "testsuite"), (root.tag, suite.tag))
    tests = {test.get("name"): test for test in suite}
    check(f"JUnit's tests, {title}", list(tests) == [rule["rule"] for rule in rules] and
          suite.get("tests") == str(len(rules)), "they are other ones than the rules")
    failed = 0
    for rule in rules:
        messages = [finding["message"] for finding in findings if finding["rule"] == rule["rule"]]
        parts = list(tests[rule["rule"]])
        tags = [] if not messages else ["failure" if rule["severity"] in bad else "system-out"]
        failed += tags == ["failure"]
        lines = [line for part in parts for line in part.text.splitlines()]
        is_right = [part.tag for part in parts] == tags and len(lines) == len(messages) and all(
            line.endswith(f": {message}") for line, message in zip(lines, messages))
        if not is_right:
            check(f"JUnit's {rule['rule']}, {title}", False, lines[:2])
    check(f"JUnit's failures, {title}", suite.get("failures") == str(failed), f"{failed} tests fail")


def check_reports(program, inputs):
    """Both forms of what is found in inputs, by the words that name one and its start."""
    rules = json.loads(run(program, "--rules", "--json")[1])["rules"]
    for words in inputs:
        name, title = words[0], " ".join(words)
        findings = json.loads(run(program, *words, "--check", "--json")[1])["findings"]
        check_log(title, json.loads(run(program, *words, "--check", "--format", "sarif")[1]), findings, rules, name)
        check_report(title, run(program, *words, "--check", "--format", "junit")[1], findings, rules, ["error"])
        worse = [rule for rule in rules if rule["severity"] != "note"]
        found = [finding for finding in findings if finding["severity"] != "note"]
        text = run(program, *words, "--check=warning", "--format", "junit")[1]
        check_report(f"{title}, warnings", text, found, worse, ["error", "warning"])
