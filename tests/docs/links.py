"""The links of documents: each names a file of the tree, and a heading of it if it has an anchor."""
import os
import re
from typing import List, Set, Tuple

from index import Index

LINK = re.compile(r"\]\(([^)\s]+)\)")


def anchors(text: str) -> Set[str]:
    """The anchors of a document's headings, as the usual readers of Markdown make them."""
    heads = re.findall(r"^#+ (.*)$", text, re.MULTILINE)
    return {re.sub(r"[^\w\- ]", "", it.strip().lower()).replace(" ", "-") for it in heads}


def wrong_links(index: Index) -> Tuple[int, List[str]]:
    """How many links the documents have, and those that lead nowhere."""
    count, wrong = 0, []
    for path in sorted(it for it in index.files if it.endswith(".md")):
        for number, line in enumerate(index.text(path).splitlines(), 1):
            for link in LINK.findall(re.sub(r"`[^`]*`", "", line)):
                if re.match(r"[a-z]+:", link):
                    continue
                count += 1
                name, _, anchor = link.partition("#")
                home = os.path.normpath(os.path.join(os.path.dirname(path), name)) if name else path
                if home not in index.files and home not in index.folders:
                    wrong.append(f"{path}:{number}: no file {link}")
                elif anchor and anchor not in anchors(index.text(home)):
                    wrong.append(f"{path}:{number}: no heading {link}")
    return count, wrong
