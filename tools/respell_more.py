#!/usr/bin/env python3
"""Names that tools/respell.py passed over, or gave an ending that misleads. Run it at the top of the repository, after respell.py.

usage: python3 tools/respell_more.py

It renames whole words in the .antt and .rt files and the must-fail edits of crates/. A second run changes nothing.
"""

import os
import re

NAMES = {
    # a definition and a variable, no lemmas
    "member_named_lem": "value_named",
    "value_at_lem": "value_start",
    # definitions in a `mutual` block, parameters of a module, and variables
    "longestElement": "longest_element",
    "longestMember": "longest_member",
    "someFilter": "some_filter",
    "someEq": "some_eq",
    "inObject": "within_object",
    "bytesFrom": "bytes_from",
    "withByteOfLine": "with_byte_of_line",
    "withLineByte": "with_line_byte",
    "sessionOf": "session_of",
    "isTrue": "is_true",
    "isFalse": "is_false",
    "configuredTopic": "configured_topic",
    # an escaped name, and a `&` parameter
    "«some-row»": "some_row",
    "id.entry.now": "id.now",
}
WORD = re.compile(r"(?<![\w'-])(" + "|".join(re.escape(it) for it in NAMES) + r")(?![\w'-])")

for folder, folders, files in os.walk("crates"):
    folders[:] = [it for it in folders if it != "out"]
    for name in files:
        if name.endswith((".antt", ".rt", ".edit")):
            path = os.path.join(folder, name)
            with open(path, encoding="utf-8") as file:
                text = file.read()
            new = WORD.sub(lambda m: NAMES[m[1]], text)
            if new != text:
                with open(path, "w", encoding="utf-8") as file:
                    file.write(new)
