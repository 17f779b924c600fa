"""Chains that lead back to where they began."""

from typing import Callable, Hashable, Iterable, List, Optional, Set, TypeVar

T = TypeVar("T", bound=Hashable)


def chain_back(starts: Iterable[T], following: Callable[[T], Iterable[T]]) -> Optional[List[T]]:
    """The first chain found that leads from a thing back to it, with that thing at both ends; None where there is none.
    `following` gives those that a thing leads to."""
    finished: Set[T] = set()
    for start in starts:
        chain, rests = [start], [iter(following(start))]
        while chain:
            one = next(rests[-1], None)
            if one is None:
                finished.add(chain.pop())
                rests.pop()
            elif one not in finished:
                if one in chain:
                    return chain[chain.index(one):] + [one]
                chain.append(one)
                rests.append(iter(following(one)))
    return None
