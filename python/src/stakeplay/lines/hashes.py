"""The hashes of a chain's transactions, as `from_blocks.py --hashes FILE` writes them: height, place and hash."""
from __future__ import annotations

from stakeplay.calling import opened, stop

Hashes = dict[tuple[int, int], str]


def hashes_of(name: str | None) -> Hashes:
    """The hashes of a file, by height and place of the transaction in its line; none where no file is named."""
    found: Hashes = {}
    if name is None:
        return found
    with opened(name) as file:
        for place, text in enumerate(file, 1):
            words = text.decode(errors="replace").strip().split(",")
            if place == 1 and words == ["height", "tx", "hash"]:
                continue
            if len(words) != 3 or not (words[0] + words[1]).isdigit() or not words[2].isalnum():
                stop(f"{name}: line {place} has no height, place and hash")
            found[int(words[0]), int(words[1])] = words[2]
    if not found:
        stop(f"{name}: no hash stands there")
    return found
