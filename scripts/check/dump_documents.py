# SPDX-License-Identifier: MIT
"""Whether the documents of acpi_dump --json read back with another reader, are as docs/acpi_dump.schema.json has them,
also of each of iasl's templates, and say what the lines say."""
import json
import os
import re
import shutil
import tempfile
from pathlib import Path

from check.dump_samples import STARTS, SUMMARIES, run
from lib.checks import TOP, check
from lib.templates import AML, templates

SCHEMA = json.loads(Path(TOP, "docs/acpi_dump.schema.json").read_text(encoding="utf-8"))
TYPES = {"object": dict, "array": list, "string": str, "integer": int, "boolean": bool, "null": type(None)}


def is_typed(it, names):
    """Whether a value has one of the types; a boolean is no integer."""
    names = names if isinstance(names, list) else [names]
    return any(isinstance(it, TYPES[name]) and isinstance(it, bool) == (name == "boolean") for name in names)


def fits(it, rule):
    """Whether a value is as a schema has it, by the keywords that docs/acpi_dump.schema.json uses."""
    if "$ref" in rule:
        return fits(it, SCHEMA["$defs"][rule["$ref"].removeprefix("#/$defs/")])
    if not is_typed(it, rule.get("type", list(TYPES))) or it not in rule.get("enum", [it]):
        return False
    if "anyOf" in rule and not any(fits(it, some) for some in rule["anyOf"]):
        return False
    if isinstance(it, list):
        return all(fits(part, rule.get("items", {})) for part in it)
    if isinstance(it, dict):
        known, others = rule.get("properties", {}), rule.get("additionalProperties", True)
        has_all = all(name in it for name in rule.get("required", []))
        return has_all and all(fits(part, known[name]) if name in known else others for name, part in it.items())
    if isinstance(it, str):
        return re.search(rule.get("pattern", ""), it) is not None
    return it is None or rule.get("minimum", it) <= it


def check_schema(program):
    """Documents of each view are as the schema has them, and one that isn't is found."""
    views = [[], ["--table", "all"], ["--hex", "all"], ["--summary"], ["--find"], ["--check"]]
    runs = [[name, *start, *view] for name, start in STARTS.items() for view in views]
    runs += [["nvdimm.image", "rsdp", "0xf59e0", *view] for view in views]
    runs += [[name, "rsdp", start, "--summary"] for name, start in SUMMARIES.items()]
    runs += [["--compare", "machine.image", "q35.image"], ["--compare", "dmar.image", "ivrs.image"], ["--rules"]]
    for arguments in runs:
        document = run(program, *arguments, "--json")[1]
        if document:
            it = json.loads(document)
            check(f"the schema: {arguments}", fits(it, SCHEMA), "it is otherwise")
            check(f"what isn't of the schema: {arguments}", not fits({**it, "more": 1}, SCHEMA), "it isn't found")


def check_templates(program):
    """The documents of each of iasl's templates are as the schema has them."""
    if not shutil.which("iasl"):
        return print("skipped: documents of each type of table, since iasl isn't there")
    with tempfile.TemporaryDirectory() as folder:
        names = {*templates(folder), *AML}
        paths = [path for name in sorted(names) if os.path.exists(path := f"{folder}/{name}.aml")]
        for view in [["--table", "all"], ["--summary"], ["--check"], ["--get", "TCPA.Length"]]:
            documents = {path: run(program, path, "--as", "table", *view, "--json")[1] for path in paths}
            wrong = [path for path, it in documents.items() if it and not fits(json.loads(it), SCHEMA)]
            check(f"the schema: {len(names)} templates, {view}", len(names) > 50 and not wrong, f"not of {wrong}")


def is_line(line, table):
    """Whether a line of the table of tables says what a table of the document does."""
    at = table.get("address")
    place = "-" if at is None else f"{int(at, 16):016x}"
    is_named = "revision" in table or table.get("signature") in ("FACS", "RSD ")
    head = f"{table['signature'] if is_named else '-':4} {place:16} "
    if "revision" in table:
        head += ("{length:08x} {revision:02x}  {oem_id} {oem_table_id} {oem_revision:08x} {creator_id} "
                 "{creator_revision:08x}").format(**table)
    return line.startswith(head.rstrip()) and line.endswith(" " + table["status"])


def value_of(field):
    value, length = field["value"], field["length"]
    return f"0x{value:0{2 * length}x}" if isinstance(value, int) else value


def lines_in(items):
    """What --table prints of the items of a document: the offset and the name and value of a field, or bytes."""
    for item in items:
        if "fields" in item:
            yield from lines_in(item["fields"])
        elif "bytes" in item:
            digits = item["bytes"]
            for place in range(0, len(digits), 32):
                yield f"{item['offset'] + place // 2:04x}  {digits[place : place + 32]}"
        elif "name" in item:
            number = f" {item['number']}" if "number" in item else ""
            yield f"{item['offset']:04x}  {item['name']}{number} {value_of(item)}"


def parts_agree(items):
    """Of each set of flags and each generic address of a document, whether its parts say what the meaning or the value
    does."""
    for item in items:
        yield from parts_agree(item.get("fields", []))
        if "flags" in item:
            yield ", ".join(item["flags"]) == item.get("meaning", "")
        if "parts" in item:
            value, it = bytes.fromhex(item["value"].removeprefix("0x")), item["parts"]
            head = bytes([it["space"], it["width"], it["offset"], it["access"]])
            yield value == head + int(it["address"], 16).to_bytes(8, "little")


def check_fields(program, *input_):
    """The document of --table says what the lines of --table say."""
    shown = run(program, *input_, "--table", "all")[1].splitlines()
    tables = json.loads(run(program, *input_, "--table", "all", "--json")[1])["tables"]
    agree = all(it is True for table in tables for it in parts_agree(table["fields"]))
    check(f"{input_[0]} flags and parts", agree, "otherwise than the values")
    rest = iter([re.sub(r"\s+", " ", line) for line in shown])
    told = [re.sub(r"\s+", " ", " " + line) for table in tables for line in lines_in(table["fields"])]
    are_shown = told and all(any(line.startswith(it) for line in rest) for it in told)
    check(f"{input_[0]} --table all --json", are_shown, "not the fields of the lines")


def check_json(program):
    """Each document reads back, and says what the lines say."""
    for name, start in STARTS.items():
        status, lines, _ = run(program, name, *start)
        again, document, _ = run(program, name, *start, "--json")
        tables, rows = json.loads(document)["tables"], lines.splitlines()[1:]
        same = len(rows) == len(tables) and all(map(is_line, rows, tables))
        check(f"{name} --json", same and (status, again) == (0, 0), "it says otherwise than the lines")
        check_fields(program, name, *start)
        for view in ["--summary", "--find"]:
            status, document, _ = run(program, name, *start, view, "--json")
            check(f"{name} {view} --json", status == 1 or isinstance(json.loads(document), dict), "no document")
