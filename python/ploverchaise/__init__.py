"""Sky coverages (S-MOC of MOC 2.0) and HEALPix cell numbers, computed by a formally verified library.

A `MOC` is a set of pixels, which are HEALPix cells of order 29, by their nested numbers. A `SharedMap` is a set of pixels that threads
change and query at the same time. Names are those of mocpy, healpy and cdshealpix if these packages have one. `docs/PYTHON.md` has recipes,
and a table of these names.

Numbers are an int, a list or another iterable, or a NumPy array. A result has the kind of its argument: an int, a list, or a NumPy array of
the same shape. NumPy is optional: only calls that take or return its arrays import it.

The proofs are about the library. These modules, which call it, are tested.
"""
from .cells import get_all_neighbours, neighbours, nest2ring, nest2uniq, nside2order, order2nside, pix2xyf, ring2nest, uniq2nest
from .errors import MocError
from .moc import MOC
from .shared import MapClient, SharedMap

__version__ = "0.1.0"

__all__ = [
    "MOC", "MapClient", "MocError", "SharedMap", "get_all_neighbours", "neighbours", "nest2ring", "nest2uniq", "nside2order", "order2nside",
    "pix2xyf", "ring2nest", "uniq2nest",
]
