"""The functions of the library, with the types of their arguments.

Made by `tools/signatures.py` from `crates/moc_c/include/ploverchaise.h`."""
from __future__ import annotations

import ctypes
from ctypes import c_size_t, c_uint32, c_uint64, c_void_p
from typing import Any


class StoreHandle(ctypes.Structure):
    """`moc_store`."""

    _fields_ = [("at", c_void_p)]
    at: int | None


class ClientHandle(ctypes.Structure):
    """`moc_client`."""

    _fields_ = [("at", c_void_p)]
    at: int | None


class Result(ctypes.Structure):
    """`moc_result`."""

    _fields_ = [("code", c_uint32), ("first", c_uint64), ("second", c_uint64)]
    code: int
    first: int
    second: int


class Text(ctypes.Structure):
    """`moc_text`."""

    _fields_ = [("bytes", c_void_p), ("length", c_size_t)]
    bytes: int | None
    length: int


STORE = ctypes.POINTER(StoreHandle)
CLIENT = ctypes.POINTER(ClientHandle)
TEXT = ctypes.POINTER(Text)

# The functions of a store, each with the types of its arguments after the store.
STORE_CALLS: dict[str, tuple[Any, ...]] = {
    "empty": (),
    "full": (),
    "from_ranges": (c_void_p, c_size_t),
    "from_cells": (c_uint32, c_void_p, c_size_t),
    "from_uniqs": (c_void_p, c_size_t),
    "read_ascii": (c_void_p, c_size_t),
    "read_json": (c_void_p, c_size_t),
    "read_uniq": (c_void_p, c_size_t),
    "union": (c_uint64, c_uint64),
    "intersection": (c_uint64, c_uint64),
    "difference": (c_uint64, c_uint64),
    "symmetric": (c_uint64, c_uint64),
    "complement": (c_uint64,),
    "degrade": (c_uint64, c_uint32),
    "share": (c_uint64, STORE),
    "open_union": (c_uint64, STORE, c_uint64, STORE),
    "open_intersection": (c_uint64, STORE, c_uint64, STORE),
    "open_difference": (c_uint64, STORE, c_uint64, STORE),
    "open_symmetric": (c_uint64, STORE, c_uint64, STORE),
    "free": (c_uint64,),
    "count": (c_uint64,),
    "count_common": (c_uint64, c_uint64),
    "range_count": (c_uint64,),
    "deepest_order": (c_uint64,),
    "is_empty": (c_uint64,),
    "contains": (c_uint64, c_uint64),
    "meets": (c_uint64, c_uint64),
    "covers": (c_uint64, c_uint64),
    "same": (c_uint64, c_uint64),
    "pair_count_common": (c_uint64, STORE, c_uint64),
    "pair_meets": (c_uint64, STORE, c_uint64),
    "pair_covers": (c_uint64, STORE, c_uint64),
    "pair_same": (c_uint64, STORE, c_uint64),
    "contains_all": (c_uint64, c_void_p, c_size_t, c_void_p, c_size_t),
    "ranges": (c_uint64, c_void_p, c_size_t),
    "cells": (c_uint64, c_void_p, c_size_t),
    "cell_count_by_order": (c_uint64, c_void_p, c_size_t),
    "write_ascii": (c_uint64, c_uint32, TEXT),
    "write_json": (c_uint64, c_uint32, TEXT),
    "write_uniq": (c_uint64, TEXT),
    "describe": (c_uint64, c_uint32, TEXT),
    "draw": (c_uint64, TEXT),
}

# The functions of a client handle, each with the types of its arguments after the handle.
CLIENT_CALLS: dict[str, tuple[Any, ...]] = {
    "map_begin": (STORE, c_uint64, c_uint32),
    "map_join": (CLIENT,),
    "map_busy_timeout": (c_uint32,),
    "map_execute": (c_void_p, c_size_t, TEXT),
    "map_apply": (c_void_p, c_size_t),
    "map_answer": (TEXT,),
    "map_add": (c_uint32, c_void_p, c_size_t),
    "map_remove": (c_uint32, c_void_p, c_size_t),
    "map_claim": (c_uint32, c_void_p, c_size_t),
    "map_count": (c_uint32, c_void_p, c_size_t),
    "map_contains": (c_uint32, c_void_p, c_size_t),
    "map_add_coverage": (STORE, c_uint64),
    "map_remove_coverage": (STORE, c_uint64),
    "map_claim_coverage": (STORE, c_uint64),
    "map_count_coverage": (STORE, c_uint64),
    "map_contains_coverage": (STORE, c_uint64),
    "map_coverage": (STORE,),
}

# The functions without a store and a client handle, each with the types of its arguments.
NUMBER_CALLS: dict[str, tuple[Any, ...]] = {
    "nest_to_ring": (c_uint32, c_void_p, c_size_t, c_void_p, c_size_t),
    "ring_to_nest": (c_uint32, c_void_p, c_size_t, c_void_p, c_size_t),
    "nest_to_uniq": (c_uint32, c_void_p, c_size_t, c_void_p, c_size_t),
    "uniq_to_nest": (c_void_p, c_size_t, c_void_p, c_size_t, c_void_p, c_size_t),
    "nest_to_face_xy": (c_uint32, c_void_p, c_size_t, c_void_p, c_size_t, c_void_p, c_size_t, c_void_p, c_size_t),
    "touching": (c_uint32, c_void_p, c_size_t, c_void_p, c_size_t),
    "neighbours": (c_uint32, c_void_p, c_size_t, c_void_p, c_size_t),
}

# The functions that return the id of a new coverage.
ID_CALLS = frozenset([
    "empty",
    "full",
    "from_ranges",
    "from_cells",
    "from_uniqs",
    "read_ascii",
    "read_json",
    "read_uniq",
    "union",
    "intersection",
    "difference",
    "symmetric",
    "complement",
    "degrade",
    "share",
    "open_union",
    "open_intersection",
    "open_difference",
    "open_symmetric",
    "map_coverage",
])
