"""How long documents are that are read from their first line to their last: words as `wc -w` counts them, and a mean sentence."""
import re
from typing import Dict, List, Tuple

from index import Index

MOST_WORDS: Dict[str, int] = {"README.md": 500, "docs/MODEL.md": 900, "docs/OPERATING.md": 150, "docs/operating/start.md": 450}
MOST_OF_LAB = 400
MOST_OF_SENTENCE = 18.0


def sentences(text: str) -> List[str]:
    """The sentences of a document's paragraphs and lists, without code, tables, headings, pictures and what links lead to."""
    prose = [it for it in text.split("\n") if not re.match(r"    |\||#|!", it)]
    joined = re.sub(r"\(`[^`]*`(?:, `[^`]*`)*\)|\*\*", "", " ".join(prose))
    bare = re.sub(r"(?<=[\s])\d+\. (?=[A-Z])", "", re.sub(r"\]\([^)]*\)", "]", joined))
    return [it for it in re.split(r"(?<=[.:!?])\s+(?=[A-Z`])", bare) if it.strip()]


def mean_sentence(text: str) -> float:
    found = sentences(text)
    return sum(len(it.split()) for it in found) / len(found) if found else 0.0


def wrong_sizes(index: Index) -> Tuple[int, List[str]]:
    """How many documents have a greatest size, and those that are longer."""
    pages = [it for it in sorted(index.files) if re.match(r"docs/lab/\d.*\.md$", it)]
    most = {**MOST_WORDS, **{it: MOST_OF_LAB for it in pages}}
    wrong = []
    for path, limit in most.items():
        words = len(index.text(path).split())
        wrong += [f"{path} has {words} words, {limit} at most"] if words > limit else []
    mean = mean_sentence(index.text("README.md"))
    wrong += [f"README.md has {mean:.1f} words a sentence, {MOST_OF_SENTENCE:.0f} at most"] if mean > MOST_OF_SENTENCE else []
    return len(most), wrong
