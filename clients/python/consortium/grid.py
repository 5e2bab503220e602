"""What a client knows of a communicator's grid, from the call that made it."""

from __future__ import annotations

from typing import List, Optional, Sequence, Tuple

Grid = Tuple[List[int], List[bool]]


class OnGrid:
    """The calls of a communicator on its grid. None of them asks the server.

    >>> isinstance(world, OnGrid)
    True
    """

    rank: int
    size: int
    _grid: Optional[Grid]

    @property
    def dims(self) -> Optional[List[int]]:
        """How many ranks its grid has in each dimension; None without a grid.

        >>> world.dims is None, world.Create_cart([1, 1], [0, 1]).dims
        (True, [1, 1])
        """
        return None if self._grid is None else list(self._grid[0])

    @property
    def periods(self) -> Optional[List[bool]]:
        """Which dimensions of its grid are periodic; None without a grid.

        >>> world.Create_cart([1, 1], [0, 1]).periods
        [False, True]
        """
        return None if self._grid is None else list(self._grid[1])

    def Get_coords(self, rank: int) -> List[int]:
        """The coordinates of a rank of the grid. Ranks go row by row: the last changes first.

        >>> world.Create_cart([1, 1]).Get_coords(0)
        [0, 0]
        """
        if not 0 <= rank < self.size:
            raise ValueError(f"no rank: {rank}")
        coords = []
        for side in reversed(self._sides()):
            rank, coord = divmod(rank, side)
            coords.append(coord)
        return coords[::-1]

    def Get_cart_rank(self, coords: Sequence[int]) -> int:
        """The rank at these coordinates; in periodic dimensions they wrap.

        >>> world.Create_cart([1, 1], [True, True]).Get_cart_rank([5, -1])
        0
        """
        sides, periods = self._sides(), self.periods or []
        if len(coords) != len(sides):
            raise ValueError(f"{len(sides)} coordinates, and not {len(coords)}")
        rank = 0
        for coord, side, wraps in zip(coords, sides, periods):
            if not wraps and not 0 <= coord < side:
                raise ValueError(f"no coordinate: {coord} of {side}")
            rank = rank * side + coord % side
        return rank

    def Shift(self, direction: int, disp: int) -> Tuple[Optional[int], Optional[int]]:
        """The ranks from which and to which a shift along a dimension leads; None past an edge.

        >>> world.Create_cart([1], [True]).Shift(0, 1), world.Create_cart([1]).Shift(0, 1)
        ((0, 0), (None, None))
        """
        if not 0 <= direction < len(self._sides()):
            raise ValueError(f"no direction: {direction}")
        return self._beside(direction, -disp), self._beside(direction, disp)

    def _beside(self, direction: int, disp: int) -> Optional[int]:
        coords = self.Get_coords(self.rank)
        coords[direction] += disp
        wraps = (self.periods or [])[direction]
        if not wraps and not 0 <= coords[direction] < self._sides()[direction]:
            return None
        return self.Get_cart_rank(coords)

    def _sides(self) -> List[int]:
        if self._grid is None:
            raise ValueError("no grid")
        return self._grid[0]
