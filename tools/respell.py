#!/usr/bin/env python3
"""Brings the repository's own definitions and lemmas to the spelling of the kit's library: words in snake case, types and facts in
camel case, no hyphens. Run once, at the top, after the kit's port.py. It names what would fall together, and then writes nothing."""

import os
import re
import sys

DECLARED = re.compile(
    r"^\s*(?:(?:abbrev|unfoldable|pub|opaque)\s+)*(?:(?:record|data)\s+)?([^\s(){}:=.,;λ]+)(?:\s*[({][^=]*)?\s*:\s")
# Names that would fall together with a function of the code or a lemma.
BY_HAND = {
    "goesOn": "going_on", "answerText": "answer_text_of", "answeredLine": "answered_line_of", "bindOffence": "bind_offence_of",
    "changeOffence": "change_offence_of", "createOffence": "create_offence_of", "deleteOffence": "delete_offence_of",
    "unbindOffence": "unbind_offence_of", "countsLine": "counts_line_of", "endLine": "end_line_of",
    "firstGap": "first_gap_in", "firstGapOf": "first_gap_at", "bound-in": "bound_in_lem", "firstSome": "find_first",
    "firstWord": "first_word_of", "flagOf": "flag_of_text", "freshCloud": "fresh_cloud_of", "fromLine": "fields_of_line",
    "fromOrder": "fields_of_order", "toLine": "line_of_fields", "toOrder": "order_of_fields", "hasPort": "holds_port",
    "headerOf": "header_of_word", "hostOptions": "host_options_of", "isDigit": "digit_test", "isFull": "full_test",
    "isOption": "option_test", "isProvider": "provider_test", "kind-form": "kind_form_lem", "kind-of": "kind_of_lem",
    "kind-read": "kind_read_lem", "state-read": "state_read_lem", "layersOf": "layers_of_text",
    "leastTables": "tables_of_least", "letterOf": "letter_of_line", "line-of": "line_of_lem", "lineBytes": "line_bytes_of",
    "listedMore": "listed_with", "loadText": "load_text_of", "order-at": "order_at_lem", "orderLine": "order_line_of",
    "orderRow": "order_row_of", "packText": "pack_text_of", "pair-in": "pair_in_lem", "pairIn": "pair_foreseen",
    "boundIn": "bound_foreseen", "plainPlace": "plain_place_of", "refusalText": "refusal_text_of",
    "refusedLine": "refused_line_of", "scriptLines": "script_lines_of", "setText": "set_text_of",
    "standingLine": "standing_line_of", "stateLine": "state_line_of", "typeLine": "type_line_of",
    "typeLines": "type_lines_of", "universeText": "universe_text_of", "withValue": "with_value_of", "yesNo": "yes_no_of",
}
# Names of definitions that a word of the library has too, with another meaning, by crate.
OF_THE_LIBRARY = {
    "console": {"is_none": "no_bytes"},
    "model": {"sum": "sum_below", "or_else": "first_there"},
    "options": {"scan": "scan_of"},
}
OF_A_GOAL = re.compile(r":\s*(goal|given)\.")


def texts(root):
    for folder, folders, files in os.walk(root):
        folders[:] = sorted(f for f in folders if f != "out")
        for name in sorted(files):
            if name.endswith((".antt", ".rt")):
                yield os.path.join(folder, name)


def respelled(name):
    if name in BY_HAND:
        return BY_HAND[name]
    if name[0].isupper():
        return "".join(word[0].upper() + word[1:] for word in name.split("-")) if "-" in name else name
    return re.sub(r"(?<=[a-z0-9])([A-Z])", lambda m: "_" + m[1], name).lower().replace("-", "_")


def renamed(path, text):
    """A clause names what a call returns `result`: what an order makes of a configuration has the name `result_of`."""
    names = {"result": "result_of"} | OF_THE_LIBRARY.get(path.split(os.sep)[1], {})
    word = re.compile(r"(?<![\w.'-])(" + "|".join(names) + r")(?![\w'-])")
    if path.endswith(".antt"):
        return "\n".join(
            (code if code.startswith("use Rattle.std") else word.sub(lambda m: names[m[1]], code)) + mark + comment
            for code, mark, comment in (line.partition("--") for line in text.split("\n")))
    return text.replace("(result (", "(result_of (").replace("specs.Orders.{result,", "specs.Orders.{result_of,")


def main():
    files = {path: open(path, encoding="utf-8").read() for path in texts("crates")}
    turned = {}
    for path, text in files.items():
        if not path.endswith(".antt"):
            continue
        for line in text.splitlines():
            m = DECLARED.match(line)
            if m and not OF_A_GOAL.search(line) and respelled(m[1]) != m[1]:
                turned[m[1]] = respelled(m[1])
    for path, text in files.items():
        files_new = renamed(path, text)
        if files_new != text:
            with open(path, "w", encoding="utf-8") as f:
                f.write(files_new)
            files[path] = files_new
    if not turned:
        return 0
    token = re.compile(r"(?<![\w'-])(" + "|".join(sorted(map(re.escape, turned), key=len, reverse=True)) + r")(?![\w'-])")
    words = set()
    for text in files.values():
        words |= set(re.findall(r"[\w'][\w'-]*", re.sub(r"--.*|//.*", "", text)))
    clashes = [(old, new) for old, new in turned.items() if new in words]
    news = list(turned.values())
    clashes += [(old, new) for old, new in turned.items() if news.count(new) > 1]
    if clashes and "--write" not in sys.argv:
        for old, new in sorted(set(clashes)):
            print(f"falls together: {old} and {new}: " + ", ".join(sorted(p for p, t in files.items() if re.search(r"(?<![\w'-])" + re.escape(new) + r"(?![\w'-])", t))[:4]))
        return 1
    for path, text in files.items():
        new = token.sub(lambda m: turned[m[1]], text)
        if new != text:
            with open(path, "w", encoding="utf-8") as f:
                f.write(new)
    print(f"{len(turned)} names")
    return 0


if __name__ == "__main__":
    raise SystemExit(main())
