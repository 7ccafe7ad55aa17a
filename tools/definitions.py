# SPDX-License-Identifier: MIT OR Apache-2.0
"""The public names that the files of specs/ define."""
import re

NAME = re.compile(r"\s*(?:pub (?:record|data)|(?:abbrev|unfoldable) pub) (\S+)")
MUTUAL_NAME = re.compile(r"  pub (\S+) :")


def names_in(text):
    """The public names of a file; those that are defined by one another stand indented behind `abbrev mutual`."""
    is_mutual = False
    for line in text.splitlines():
        if line and not line[0].isspace():
            is_mutual = line.startswith("abbrev mutual")
        found = NAME.match(line) or is_mutual and MUTUAL_NAME.match(line)
        if found:
            yield found[1]
