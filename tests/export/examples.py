#!/usr/bin/env python3
"""Prints the item pages of the exported crate that have no example. It refuses nothing.

An item is of one of KINDS, without those of `replay::proved`. An example that a type inherits, as
from `[u8]`, does not count. Run at the top of the repository, after `make rust`.
"""

import os
import re
import sys

PAGES = "target/export/target/doc/seatcrane_stun"
KINDS = ("struct", "enum", "fn", "trait", "constant", "type")
INHERITED = re.compile(r'id="deref-methods|id="synthetic-implementations')


def read(page):
    with open(os.path.join(PAGES, page), encoding="utf-8") as opened:
        return opened.read()


def main():
    if not os.path.exists(os.path.join(PAGES, "all.html")):
        sys.exit("examples: %s is not there: run make rust" % PAGES)
    pages = sorted({page for page in re.findall(r'href="([^"]+\.html)"', read("all.html"))
                    if os.path.basename(page).split(".")[0] in KINDS
                    and not page.startswith("replay/proved")})
    without = [page for page in pages
               if "rust-example-rendered" not in INHERITED.split(read(page))[0]]
    for page in without:
        print("%s/%s:1: no example: add one to the item's comment" % (PAGES, page))
    print("examples: %d of %d item pages have one" % (len(pages) - len(without), len(pages)))


if __name__ == "__main__":
    main()
