"""The form of a document: the fields of each of its objects."""

from __future__ import annotations

# The fields of each object: their kinds, and an exclamation mark where one is required.
FORMS: dict[str, dict[str, str]] = {
    "document": {"version": "number!", "model": "object!", "inputs": "list", "record": "list"},
    "entity": {
        "name": "text!", "class": "text!", "properties": "list", "ports": "list", "entities": "list",
        "relations": "list", "links": "list", "states": "list", "initial": "text", "transitions": "list",
    },
    "property": {"name": "text!", "value": "text", "class": "text", "properties": "list"},
    "port": {"name": "text!", "input": "truth", "output": "truth", "type": "text", "properties": "list"},
    "relation": {"name": "text!"},
    "link": {"port": "text", "relation": "text", "relation1": "text", "relation2": "text"},
    "state": {"name": "text!", "refinement": "text"},
    "transition": {
        "from": "text!", "to": "text!", "guard": "text!", "preemptive": "truth", "history": "truth!", "output": "list",
        "set": "list",
    },
    "output action": {"port": "text!", "value": "text!"},
    "set action": {"name": "text!", "value": "text!"},
    "input": {"port": "text!", "tokens": "list", "events": "list"},
    "event": {"time": "number!", "step": "number!", "value": "text!"},
}

# Each field of the format, by the bytes that it is written in.
FIELDS = {name.encode(): name for fields in FORMS.values() for name in fields}
REQUIRED = {form: {name: None for name, kind in fields.items() if kind.endswith("!")}.keys() for form, fields in FORMS.items()}
