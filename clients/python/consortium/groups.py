"""Groups: lists of processes, by their ranks in the world."""

from __future__ import annotations

import itertools
from typing import Iterable, List, Optional, Sequence

from .buffers import RANK, UNSUPPORTED, Exception_

UNDEFINED = -32766
PROC_NULL = -2
IDENT, CONGRUENT, SIMILAR, UNEQUAL = range(4)


# A process of which nothing is known but the communicator that it is in has a number below 0.
_strangers = itertools.count(-1, -1)


def strangers(number: int) -> List[int]:
    """So many members of whom nobody tells who they are.

    >>> len(set(strangers(2) + strangers(2)))
    4
    """
    return [next(_strangers) for _ in range(number)]


class Group:
    """A list of distinct processes; a rank is a place in it.

    >>> Group([4, 2, 0]).Incl([2, 0]).members
    [0, 4]
    """

    def __init__(self, members: Iterable[int], me: Optional[int] = None) -> None:
        self.members, self._me = list(members), me

    def _of(self, members: Iterable[int]) -> Group:
        return Group(members, self._me)

    def Get_size(self) -> int:
        """How many processes it has.

        >>> Group([4, 2]).Get_size()
        2
        """
        return len(self.members)

    def Get_rank(self) -> int:
        """The rank of the calling process, or UNDEFINED.

        >>> Group([4, 2], me=2).Get_rank(), Group([4, 2], me=0).Get_rank() == MPI.UNDEFINED
        (1, True)
        """
        return self.members.index(self._me) if self._me in self.members else UNDEFINED

    size = property(Get_size)
    rank = property(Get_rank)

    def _picked(self, ranks: Sequence[int]) -> List[int]:
        if len(set(ranks)) < len(ranks) or any(not 0 <= rank < self.size for rank in ranks):
            raise Exception_(RANK, f"{list(ranks)} of {self.size}")
        return [self.members[rank] for rank in ranks]

    def Incl(self, ranks: Sequence[int]) -> Group:
        """These ranks, in this order.

        >>> Group([4, 2, 0]).Incl([2, 0]).members
        [0, 4]
        """
        return self._of(self._picked(ranks))

    def Excl(self, ranks: Sequence[int]) -> Group:
        """All but these ranks.

        >>> Group([4, 2, 0]).Excl([0]).members
        [2, 0]
        """
        gone = self._picked(ranks)
        return self._of(it for it in self.members if it not in gone)

    def Range_incl(self, ranges: Sequence[Sequence[int]]) -> Group:
        """The ranks of triplets (first, last, stride), in this order.

        >>> Group([4, 2, 0]).Range_incl([(2, 0, -2)]).members
        [0, 4]
        """
        return self.Incl(_ranks_of(ranges))

    def Range_excl(self, ranges: Sequence[Sequence[int]]) -> Group:
        """All but the ranks of triplets (first, last, stride).

        >>> Group([4, 2, 0]).Range_excl([(0, 1, 1)]).members
        [0]
        """
        return self.Excl(_ranks_of(ranges))

    def _is_unsure(self, member: int, other: Group) -> bool:
        """Whether a member that the other group has not by this name may still be in it, since one of
        two names is a stranger's."""
        if member in other.members:
            return False
        return bool(other.members) if member < 0 else member != self._me and min(other.members, default=0) < 0

    def _sure(self, other: Group) -> None:
        if any(self._is_unsure(it, other) for it in self.members):
            raise Exception_(UNSUPPORTED, "who is in what Split made is told to nobody")

    @staticmethod
    def Union(one: Group, other: Group) -> Group:
        """The first, and then those of the second that are not in it.

        >>> MPI.Group.Union(Group([4, 2]), Group([0, 4])).members
        [4, 2, 0]
        """
        one._sure(other), other._sure(one)
        return one._of(one.members + [it for it in other.members if it not in one.members])

    @staticmethod
    def Intersection(one: Group, other: Group) -> Group:
        """Those of the first that are in the second.

        >>> MPI.Group.Intersection(Group([4, 2]), Group([0, 4])).members
        [4]
        """
        one._sure(other), other._sure(one)
        return one._of(it for it in one.members if it in other.members)

    @staticmethod
    def Difference(one: Group, other: Group) -> Group:
        """Those of the first that are not in the second.

        >>> MPI.Group.Difference(Group([4, 2]), Group([0, 4])).members
        [2]
        """
        one._sure(other), other._sure(one)
        return one._of(it for it in one.members if it not in other.members)

    @staticmethod
    def Compare(one: Group, other: Group) -> int:
        """IDENT, SIMILAR (the same members in another order) or UNEQUAL.

        >>> MPI.Group.Compare(Group([4, 2]), Group([2, 4])) == MPI.SIMILAR
        True
        """
        if one.members == other.members:
            return IDENT
        if one.size == other.size:
            one._sure(other)
        return SIMILAR if set(one.members) == set(other.members) else UNEQUAL

    @staticmethod
    def Translate_ranks(one: Group, ranks: Sequence[int], other: Group) -> List[int]:
        """The ranks in the second of these ranks of the first, or UNDEFINED.

        >>> MPI.Group.Translate_ranks(Group([4, 2]), [1, 0], Group([2, 4]))
        [0, 1]
        """
        found = []
        for rank in ranks:
            if rank == PROC_NULL:
                found.append(PROC_NULL)
            else:
                member = one._picked([rank])[0]
                if one._is_unsure(member, other):
                    raise Exception_(UNSUPPORTED, "who is in what Split made is told to nobody")
                found.append(other.members.index(member) if member in other.members else UNDEFINED)
        return found

    def Free(self) -> None:
        """Nothing has to be freed.

        >>> Group([4]).Free()
        """


def _ranks_of(ranges: Sequence[Sequence[int]]) -> List[int]:
    found: List[int] = []
    for first, last, stride in ranges:
        if stride == 0:
            raise Exception_(RANK, "a stride of 0")
        found += range(first, last + (1 if stride > 0 else -1), stride)
    return found
