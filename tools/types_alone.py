#!/usr/bin/env python3
"""Leaves of crates of code their types: python3 tools/types_alone.py COPY CRATE..

Crates of laws stand on crates of code, of which they use types and definitions alone. In a copy of the repository, made
for this, functions are taken out of the crates that are named, with the answers of their contracts and their edits:
specs/ and the lemmas in proofs/ stay. Then laws above them are checked in minutes. What is so checked is not the gate.
"""
import os
import re
import shutil
import sys

ITEM = re.compile(
    r"(pub(\([^)]*\))?\s+)?(const\s+fn|unsafe\s+fn|fn|struct|enum|impl|trait|mod|use|ghost\s+use|ghost|const|static|type|macro_rules!|\w+!)"
)
CLAUSE = re.compile(r"\s(ensures\*?|requires\*?|decreases|ghost)(\s+\w+)?(\s*:)?\s*$")
CHARACTER = re.compile(r"b?'(\\.[^']*|[^'\\])'")


def past_blank(text, at):
    """The first place from `at` on that is neither white nor in a comment."""
    while at < len(text):
        if text[at].isspace():
            at += 1
        elif text.startswith("//", at):
            end = text.find("\n", at)
            at = len(text) if end < 0 else end + 1
        elif text.startswith("/*", at):
            at = text.find("*/", at) + 2
        else:
            break
    return at


def past_token(text, at):
    """The place behind a comment, a string, a character or one sign."""
    if text.startswith("//", at):
        end = text.find("\n", at)
        return len(text) if end < 0 else end
    if text[at] == '"' or text.startswith('b"', at):
        at = text.index('"', at) + 1
        while text[at] != '"':
            at += 2 if text[at] == "\\" else 1
        return at + 1
    character = CHARACTER.match(text, at)
    return character.end() if character else at + 1


def past_group(text, at, opening, closing):
    """The place behind the group that begins at `at`."""
    depth = 0
    while True:
        if text[at] == opening:
            depth, at = depth + 1, at + 1
        elif text[at] == closing:
            depth, at = depth - 1, at + 1
            if depth == 0:
                return at
        else:
            at = past_token(text, at)


def past_function(text, head, at):
    """The place behind a function: clauses have braces too, and the body is the first group that is none."""
    while True:
        while text[at] != "{":
            at = past_token(text, at)
        is_clause = CLAUSE.search(text[max(head, at - 120) : at])
        at = past_group(text, at, "{", "}")
        if not is_clause:
            return at


def past_line(text, at):
    """The place behind an item that ends with a semicolon."""
    while text[at] != ";":
        if text[at] == "{":
            at = past_group(text, at, "{", "}")
        elif text[at] == "[":
            at = past_group(text, at, "[", "]")
        else:
            at = past_token(text, at)
    return at + 1


def past_body(text, at):
    """The place behind an item that ends with a body or a semicolon."""
    while text[at] not in ";{":
        at = past_token(text, at)
    return past_group(text, at, "{", "}") if text[at] == "{" else at + 1


def items_of(text):
    """The items of a file, each with its kind; attributes of the file are of the kind `#!`."""
    at, items = 0, []
    while past_blank(text, at) < len(text):
        begin, at = at, past_blank(text, at)
        while text.startswith("#", at):
            of_file = text.startswith("#!", at)
            at = past_blank(text, past_group(text, text.index("[", at), "[", "]"))
            if of_file:
                items.append(("#!", text[begin:at]))
                begin = at
        item = ITEM.match(text, at)
        if not item:
            raise ValueError("no item: " + text[at : at + 80])
        kind, head = item.group(3), at
        if kind.endswith("fn"):
            at = past_function(text, head, item.end())
        elif kind in ("use", "const", "static", "type") or kind.startswith("ghost"):
            at = past_line(text, at)
        else:
            at = past_body(text, at)
        items.append((kind, text[begin:at]))
    return items


def parts_of(inner):
    """What stands between the commas of a group of a `use`."""
    depth, parts = 0, [""]
    for sign in inner:
        depth += (sign == "{") - (sign == "}")
        if sign == "," and depth == 0:
            parts.append("")
        else:
            parts[-1] += sign
    return [part for part in parts if part.strip()]


def paths_of(tree, before=""):
    """The paths of a `use`, one for each name."""
    tree = tree.strip()
    if not tree.endswith("}"):
        return [before + tree]
    head, inner = tree[:-1].split("{", 1)
    return [path for part in parts_of(inner) for path in paths_of(part, before + head.strip())]


def is_kept(kind, text):
    if kind.endswith("fn"):
        return False
    if kind == "impl":
        return re.search(r"impl(<[^>]*>)?\s+Model\s+for", text) is not None
    if kind == "const":
        return not re.search(r"=\s*[^;]*\w\(", text) or re.search(r"(Word|Const|Ptr)\(", text) is not None
    return kind != "use"


def uses_kept(text, body):
    """Of a `use` what the body still names."""
    use = re.search(r"(pub(\([^)]*\))?\s+)?use\s+(.*);\s*$", text, re.S)
    public = use.group(1) or ""
    for path in paths_of(re.sub(r"\s+", " ", re.sub(r"//.*", "", use.group(3)))):
        first, last = path.split(" as ")[0].split("::"), path.split(" as ")[-1].split("::")
        name = last[-1].strip()
        if first[-1].strip() == "self" and " as " not in path:
            name = last[-2]
        if public:
            keep = first[-1].strip() == "*" or first[-1].strip()[0].isupper()
        else:
            keep = name == "*" or re.search(r"\b" + re.escape(name) + r"\b", body)
        if keep:
            yield f"{public}use {path.strip()};"


def types_of(text):
    """The file without its functions."""
    items = items_of(text)
    kept = [item for item in items if is_kept(*item)]
    body = re.sub(r"//.*", "", "\n".join(text for kind, text in kept if not kind.startswith("ghost")))
    head = "".join(text for kind, text in kept if kind == "#!")
    uses = [line for kind, text in items if kind == "use" for line in uses_kept(text, body)]
    return "\n".join([head, *uses, *(text for kind, text in kept if kind != "#!")]) + "\n"


def leave_types(crate):
    for folder, _, names in os.walk(f"{crate}/src"):
        for name in names:
            path = os.path.join(folder, name)
            with open(path) as file:
                text = file.read()
            with open(path, "w") as file:
                file.write(types_of(text))
    proofs = f"{crate}/proofs"
    answers = [f"{proofs}/{name}" for name in (os.listdir(proofs) if os.path.isdir(proofs) else [])]
    for folder in [path for path in answers if os.path.isdir(path)] + [f"{crate}/must-fail", f"{crate}/slow-edits"]:
        shutil.rmtree(folder, ignore_errors=True)


def main():
    if len(sys.argv) < 3:
        sys.exit(__doc__)
    for crate in sys.argv[2:]:
        leave_types(f"{sys.argv[1]}/crates/{crate}")


if __name__ == "__main__":
    main()
