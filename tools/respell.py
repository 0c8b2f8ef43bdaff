#!/usr/bin/env python3
"""Spells the repository's own definitions and lemmas in snake case, in every file of crates/ that cites them.

usage: tools/respell.py [--dry]      at the top of the repository, once, after the port's own script

A name that a file of specs/ or proofs/ declares (a definition, a lemma, a field, a constructor or a helper) and that
begins with a small letter gets `_` where a capital or a dash stood: `agreeOn-member` is then `agree_on_member`. Left
alone are: types and modules, the goals and steps that the check makes (the names that only a proof of a function
declares, with a type of its `tie`), and names of the library. A name that would fall together with another in a file
that has both is printed as 'met' and is spelled by MET below.
"""

import os
import re
import sys

# Names that would fall together with others, each with the spelling that it has instead.
MET = {
    "agree-by": "agree_by_lem",
    "album-accepted": "album_accepted_lem",
    "album-check": "album_check_lem",
    "album-length": "album_length_lem",
    "album-listing": "album_listing_lem",
    "album-text": "album_text_lem",
    "answer-values": "answer_values_lem",
    "arrayVals": "own_array_vals",
    "at-the-bound": "at_the_bound_lem",
    "at-the-bounds": "at_the_bounds_lem",
    "at-the-last": "at_the_last_lem",
    "bad-text": "bad_text_lem",
    "bit-and": "bit_and_lem",
    "bit-or": "bit_or_lem",
    "bit-xor": "bit_xor_lem",
    "byte-at": "byte_at_lem",
    "byte-order": "byte_order_lem",
    "call-parts": "call_parts_lem",
    "cells_agree": "cells_agree_lem",
    "codes-from": "codes_from_lem",
    "content-by": "content_by_lem",
    "contents-from": "contents_from_lem",
    "count-lefts": "count_lefts_lem",
    "damage-order": "damage_order_lem",
    "distance-of": "distance_of_lem",
    "element-at": "element_at_lem",
    "end-at": "end_at_lem",
    "entries-bytes": "entries_bytes_lem",
    "entries-held": "entries_held_lem",
    "entries_by": "entries_by_lem",
    "false-record": "false_record_lem",
    "fine-points": "fine_points_lem",
    "first-exists": "first_exists_lem",
    "first-pair": "first_pair_lem",
    "front_by": "front_by_lem",
    "is_digit": "is_digit_lem",
    "list-replies": "list_replies_lem",
    "many-rows": "many_rows_lem",
    "member-code": "member_code_lem",
    "minimal-mask": "minimal_mask_lem",
    "most-rows": "most_rows_lem",
    "never-past": "never_past_lem",
    "next-of": "next_of_lem",
    "no-parent": "no_parent_lem",
    "no_other": "no_other_lem",
    "no_room": "no_room_lem",
    "one-ground": "one_ground_lem",
    "other-calls": "other_calls_lem",
    "packed-replies": "packed_replies_lem",
    "question-replies": "question_replies_lem",
    "record-bytes": "record_bytes_lem",
    "record-count": "record_count_lem",
    "records-bytes": "records_bytes_lem",
    "records-from": "records_from_lem",
    "refusal-numbers": "refusal_numbers_lem",
    "refused-check": "refused_check_lem",
    "refused-listings": "refused_listings_lem",
    "refused-lists": "refused_lists_lem",
    "refused-questions": "refused_questions_lem",
    "rest-at": "rest_at_lem",
    "row-at": "row_at_lem",
    "sum-from": "sum_from_lem",
    "tag-at": "tag_at_lem",
    "text-replies": "text_replies_lem",
    "too_long": "too_long_lem",
    "uncovered-set": "uncovered_set_lem",
    "unfit-text": "unfit_text_lem",
    "unsound-entry": "unsound_entry_lem",
}

WORD = r"[^\s(){}.;,@\"«»⟦⟧⌜⌝λ]+"
TOKEN = re.compile(WORD)
DECLARED = re.compile(r"^ *(?:abbrev |unfoldable )?(?:pub )?(?:abbrev |unfoldable )?([^\s:(){}]+(?: [^\s:(){}]+)*) *(?:\{[^{}]*\} *|\([^()]*\) *)*:(?: |$)")


def texts(root):
    for folder, dirs, files in os.walk(os.path.join(root, "crates")):
        dirs[:] = sorted(d for d in dirs if d != "out")
        for f in sorted(files):
            if f.endswith((".rt", ".antt")):
                yield os.path.join(folder, f)


def snake(name):
    if name in MET:
        return MET[name]
    words = re.sub(r"(?<=[a-z0-9'])[A-Z]", lambda m: "_" + m[0].lower(), name)
    return words.replace("-", "_")


def declared(path, text):
    """The names that a file declares, without the goals of a function's proof."""
    names, goals = set(), set()
    for line in text.split("\n"):
        if line.startswith(("use ", "ghost use ", "--", "//", "pub use ")):
            continue
        m = DECLARED.match(line)
        if not m:
            continue
        for name in m[1].split(" "):
            if not re.match(r"[a-z]", name):
                continue
            if path.endswith("/Proof.antt") and (re.search(r": *(tie|lts)\.(Need-|invariant|decreases|spec)", line) or line.startswith(("pub ", "abbrev invariant", "abbrev decreases")) and re.search(r"-spec|invariant-|decreases-", name)):
                goals.add(name)
            else:
                names.add(name)
    return names, goals


def clauses(text):
    """Where a source file speaks of definitions: the ghost use items and the clauses, as pairs of places."""
    spans = [m.span() for m in re.finditer(r"(?m)^\s*(?:pub )?ghost use [^;]*;", text)]
    for m in re.finditer(r"\b(?:requires|ensures)\*?(?: \w+)? \{|\bghost \w+: \{", text):
        depth, at = 1, m.end()
        while depth:
            depth += {"{": 1, "}": -1}.get(text[at], 0)
            at += 1
        spans.append((m.end(), at))
    return sorted(spans)


def imported(text):
    """The names that a file brings in from the library."""
    own = r"(?!Rattle\.(?!std\.)\w)"
    return {n for m in re.finditer(rf"(?m)^(?:pub |ghost )?use {own}[^\s{{;]*\{{([^}}]*)\}}", text) for n in TOKEN.findall(m[1])}


def fields(text):
    """The names that a file declares inside something else: the fields of records, and helpers."""
    return {n for line in text.split("\n") if line.startswith(" ") for m in [DECLARED.match(line)] if m for n in m[1].split(" ")}


def main(argv):
    files, names, inner = {}, {}, set()
    for p in texts("."):
        with open(p, encoding="utf-8") as f:
            files[p] = f.read()
        if p.endswith(".antt"):
            for n in declared(p, files[p])[0]:
                names.setdefault(n, set()).add(p)
            inner |= fields(files[p])
    turned = {n: snake(n) for n in names if snake(n) != n}
    changed = 0
    for p, text in files.items():
        by_hand = p.endswith("/Proof.antt")
        goals = (declared(p, text)[1] if by_hand else set()) | imported(text)

        def word(m):
            w, before = m[0], m.string[m.start() - 1 : m.start()]
            if w in goals or w not in turned or (by_hand and before == "." and w not in inner):
                return w
            return turned[w]

        def turn(part):
            return TOKEN.sub(word, part)

        def comment(m):
            return m[1] + re.sub(r"`([^`\n]+)`", lambda n: "`" + turn(n[1]) + "`", m[2])

        if p.endswith(".rt"):
            at, out = 0, []
            for a, b in clauses(text):
                out += [text[at:a], turn(text[a:b])]
                at = b
            new = re.sub(r"(?m)(^\s*//)(.*)$", comment, "".join(out) + text[at:])
        else:
            new = "\n".join(re.sub(r"^(\s*--)(.*)$", comment, l) if l.lstrip().startswith("--") else turn(l) for l in text.split("\n"))
        if new != text:
            changed += 1
            if "--dry" not in argv:
                with open(p, "w", encoding="utf-8") as f:
                    f.write(new)
    print(f"{len(turned)} names, {changed} files")
    if "--list" in argv:
        for n in sorted(turned):
            print(n, turned[n])
    return 0


if __name__ == "__main__":
    raise SystemExit(main(sys.argv[1:]))
