"""Explains `state: kind K`, `requests: kind K` and `turns: kind K`."""

import json_files
from layout import counted, wrapped

MOST = 5
IN_GENERAL = {
    2: "Something in it has another shape than docs/formats.md says under \"JSON files\".",
    3: "A store or a table in it isn't declared in the program.",
    4: "Something in it passes its limit.",
    5: "A register, a store's key or a row's key stands twice, or a row has a wrong length or a key that isn't a text.",
}


def explain(found, role, kind):
    """The lines of an explanation."""
    name, data = found.command.label(role), found.data[role]
    if kind == 1:
        return [f"{name} is no JSON text.", *json_files.broken_json(name, data)]
    faults = [fault for fault in faults_of(found, role, data) if fault[0] == kind]
    if not faults:
        return wrapped(f"{name}: {IN_GENERAL[kind]}")
    lines = []
    for _, where, what in faults[:MOST]:
        lines += wrapped(f"{name}, {where}: {what}.", "    ")
    if len(faults) > MOST:
        lines.append(f"({counted(len(faults) - MOST, 'more fault')} of this kind.)")
    return lines + after(found, role, kind)


def faults_of(found, role, data):
    if role == "state":
        return json_files.state_faults(data, found.program)
    faults = json_files.Faults()
    (faults.jobs if role == "requests" else faults.turns)(json_files.tree_of(data))
    return faults.found


def after(found, role, kind):
    """What is told of the file besides."""
    others = {fault[0] for fault in faults_of(found, role, found.data[role])} - {kind}
    return [f"(It has faults of kind {', '.join(map(str, sorted(others)))} too, which are told once these are mended.)"] if others else []
