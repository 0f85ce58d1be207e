#!/usr/bin/env python3
"""Spells the repository's own definitions, lemmas and labels in snake case: python3 tools/port_names.py, once, at the top, right after the port's own script.

It goes over the .antt and .rt files, the edits, the controls and, between backticks, the pages. Names of Rust's items, types and modules stay.
"""

import os
import re

WORD = r"[^\s(){}\[\].;,λ\"`:|]+"
TOKEN = re.compile(WORD)
SIGNATURE = re.compile(r"^(\s*)((?:(?:abbrev|unfoldable|pub)\s+)*)([^\s:(){}\[\].;,λ|=]+)(?:\s+[({][^=]*)?\s*:(\s|$)")
NO_SIGNATURE = ("--", "use ", "let ", "module", "rw", "in ", "file:", "old:", "new:")

# Two names that would be spelled alike: the lemma, or the label of less use, is spelled so.
APART = {
    "one-of-each": "one_of_each_lem",
    "platform-kind": "platform_kind_lem",
    "weights-kind": "weights_kind_lem",
    "platform-fields": "platform_fields_lem",
    "bad-record": "bad_record_lem",
    "slope-cap": "slope_cap_lem",
    "long-chain": "long_chain_lem",
    "weight-after": "weight_after_lem",
    "same-platform": "same_platform_lem",
    "other-platform": "other_platform_lem",
    "in-turn": "in_turn_lem",
    "step-on": "step_on_lem",
    "length-of": "length_of_lem",
    "stray-number": "stray_number_lem",
    "recorded-on": "recorded_on_lem",
    "bad-first": "bad_first_lem",
    "held-room": "held_room_lem",
    "line-room": "line_room_lem",
    "least-d": "least_d_lem",
    "least-m": "least_m_lem",
    "least-q": "least_q_lem",
    "back-m": "back_m_lem",
    "back-d": "back_d_lem",
    "by-memory": "by_memory_lem",
    "by-disk": "by_disk_lem",
    "at-start": "at_start_lem",
    "disk-back": "disk_back_lem",
    "memory-back": "memory_back_lem",
    "verification-back": "verification_back_lem",
    "first-start": "first_start_lem",
    "field-bytes": "field_bytes_lem",
    "put-at": "put_at_lem",
    "platform-section": "platform_section_lem",
    "weights-section": "weights_section_lem",
    "form-job": "form_job_lem",
    "is-held": "is_held_lem",
    "two-tasks": "tasks_are_two",
}
# A lemma whose first name was turned by the port's own script, in the one file that has it.
MENDED = {"crates/output/proofs/Tells.antt": {"marks_line": "marks_line_lem"}}


def texts(*ends):
    for top in ("crates", "tests", "docs"):
        for folder, dirs, files in os.walk(top):
            dirs[:] = sorted(d for d in dirs if d != "out")
            for name in sorted(files):
                if name.endswith(ends):
                    yield os.path.join(folder, name)
    if ".md" in ends:
        yield "README.md"


def read(path):
    with open(path, encoding="utf-8") as f:
        return f.read()


def snake(name):
    name = name.replace("-", "_")
    return re.sub(r"([a-z0-9])([A-Z])", lambda m: m.group(1) + "_" + m.group(2).lower(), name)


def turns(name):
    if re.match(r"^[A-Z][a-z]", name) or name.startswith(("invariant-", "decreases-", "Need-")):
        return False
    return bool(re.search(r"[a-z0-9][A-Z]", name)) or "-" in name


def names():
    own, foreign, crates = set(), set(), set(os.listdir("crates"))
    for path in texts(".antt"):
        for line in read(path).split("\n"):
            use = re.match(r"^\s*(?:pub )?use (?:Rattle\.(\w+)\.)?\S*\.\{(.*)\}", line)
            if use and use.group(1) not in crates:
                foreign.update(re.findall(WORD, use.group(2)))
            if not line.strip().startswith(NO_SIGNATURE):
                found = SIGNATURE.match(line)
                if found and turns(found.group(3)):
                    own.add(found.group(3))
    return own, own & foreign


def main():
    own, both = names()
    if both:
        print("also names of the library, which stay:", ", ".join(sorted(both)))
    table = {n: APART.get(n, snake(n)) for n in own - both}
    # the edits and the pages have names that the port's own script turned in the sources
    snakes = set(table.values())
    for path in texts(".antt"):
        for line in read(path).split("\n"):
            if not line.strip().startswith(NO_SIGNATURE):
                found = SIGNATURE.match(line)
                if found:
                    snakes.add(found.group(3))

    def turned(word):
        if word in table:
            return table[word]
        return word

    def turned_older(word):
        if word in table or not turns(word):
            return turned(word)
        return snake(word) if snake(word) in snakes else word

    for path in texts(".antt", ".rt", ".edit", ".md"):
        old = read(path)
        if path.endswith(".md"):
            new = re.sub(r"`[^`\n]+`", lambda m: TOKEN.sub(lambda w: turned_older(w.group()), m.group()), old)
        elif path.endswith(".edit"):
            new = TOKEN.sub(lambda w: turned_older(w.group()), old)
        else:
            mended = MENDED.get(path, {})
            new = TOKEN.sub(lambda w: mended.get(w.group(), turned(w.group())), old)
        if new != old:
            with open(path, "w", encoding="utf-8") as f:
                f.write(new)


main()
