"""The C library, by ctypes. Its structures are those of gob.h, written by hand; the tests compare
their sizes and offsets with the header's."""
from __future__ import annotations

import ctypes
import ctypes.util
import os
import pathlib
from typing import Any, Iterator

ABI = 2  # GOB_ABI of gob.h


class Fault(ctypes.Structure):
    """gob_fault."""

    _fields_ = [("status", ctypes.c_uint32), ("reason", ctypes.c_uint32), ("id", ctypes.c_uint64),
                ("place", ctypes.c_uint64), ("seen", ctypes.c_uint64), ("begin", ctypes.c_uint64)]


class Limits(ctypes.Structure):
    """gob_limits."""

    _fields_ = [("item", ctypes.c_uint64), ("depth", ctypes.c_uint64), ("types", ctypes.c_uint64),
                ("stream", ctypes.c_uint64)]


class Head(ctypes.Structure):
    """gob_head."""

    _fields_ = [("id", ctypes.c_uint64), ("node", ctypes.c_uint64), ("nodes", ctypes.c_uint64),
                ("byte", ctypes.c_uint64), ("bytes", ctypes.c_uint64), ("kind", ctypes.c_uint64),
                ("begin", ctypes.c_uint64), ("end", ctypes.c_uint64)]


class Batch(ctypes.Structure):
    """gob_batch."""

    _fields_ = [("heads", ctypes.c_void_p), ("nodes", ctypes.c_void_p), ("bytes", ctypes.c_void_p),
                ("items", ctypes.c_uint64), ("node_count", ctypes.c_uint64), ("byte_count", ctypes.c_uint64)]


class Counts(ctypes.Structure):
    """gob_counts."""

    _fields_ = [("items", ctypes.c_uint64), ("types", ctypes.c_uint64), ("values", ctypes.c_uint64),
                ("bytes", ctypes.c_uint64)]


class Node(ctypes.Structure):
    """gob_node."""

    _fields_ = [("first", ctypes.c_uint64), ("second", ctypes.c_uint64), ("number", ctypes.c_uint32),
                ("kind", ctypes.c_uint16), ("named", ctypes.c_uint16)]


class Item(ctypes.Structure):
    """gob_item."""

    _fields_ = [("kind", ctypes.c_uint32), ("id", ctypes.c_uint32), ("nodes", ctypes.POINTER(Node)),
                ("count", ctypes.c_size_t), ("bytes", ctypes.c_void_p), ("size", ctypes.c_size_t),
                ("begin", ctypes.c_uint64), ("end", ctypes.c_uint64)]


class WriterFault(ctypes.Structure):
    """gob_writer_fault."""

    _fields_ = [("status", ctypes.c_uint32), ("reason", ctypes.c_uint32), ("column", ctypes.c_uint64),
                ("text", ctypes.c_char * 496)]


class Conversion(ctypes.Structure):
    """gob_conversion."""

    _fields_ = [("limits", ctypes.POINTER(Limits)), ("source", ctypes.c_char_p), ("source_count", ctypes.c_size_t),
                ("stream", ctypes.c_char_p), ("stream_count", ctypes.c_size_t), ("name", ctypes.c_char_p),
                ("renames", ctypes.POINTER(ctypes.c_char_p)), ("rename_count", ctypes.c_size_t),
                ("all", ctypes.c_int)]


class LeftOut(ctypes.Structure):
    """gob_left_out."""

    _fields_ = [("text", ctypes.c_void_p), ("size", ctypes.c_size_t), ("length", ctypes.c_uint64)]


def _candidates() -> Iterator[str]:
    named = os.environ.get("GOB_LIBRARY")
    if named:
        yield named
        return
    yield str(pathlib.Path(__file__).with_name("libgob.so.1"))
    found = ctypes.util.find_library("gob")
    if found:
        yield found
    yield "libgob.so.1"


def _load() -> ctypes.CDLL:
    tried, others = [], []
    for name in _candidates():
        try:
            library = ctypes.CDLL(name)
            number = library.gob_abi()
        except (OSError, AttributeError) as error:
            tried.append(f"{name}: {error}")
            continue
        if number == ABI:
            return library
        others.append(f"{name} has {number}")
    if others:
        raise ImportError(f"this package needs a libgob.so.1 whose GOB_ABI is {ABI}, and {', '.join(others)}: install "
                          "both of one version, or set GOB_LIBRARY to the path of such a library")
    raise ImportError("libgob.so.1 is not found; set GOB_LIBRARY to its path. Tried: " + "; ".join(tried))


library = _load()
_reader, _checker, _counts, _fault = ctypes.c_void_p, ctypes.c_void_p, ctypes.POINTER(Counts), ctypes.POINTER(Fault)
_writer, _writer_fault = ctypes.c_void_p, ctypes.POINTER(WriterFault)
_calls: list[tuple[Any, ...]] = [
    ("gob_open", _reader, ctypes.POINTER(Limits), _fault),
    ("gob_open_exact", _reader, ctypes.POINTER(Limits), _fault),
    ("gob_feed", ctypes.c_int, _reader, ctypes.c_void_p, ctypes.c_size_t, _fault),
    ("gob_finish", ctypes.c_int, _reader, _fault),
    ("gob_take", ctypes.c_int, _reader, ctypes.POINTER(Batch)),
    ("gob_type", ctypes.POINTER(Item), _reader, ctypes.c_uint32),
    ("gob_close", None, _reader),
    ("gob_check", ctypes.c_int, ctypes.c_void_p, ctypes.c_size_t, ctypes.POINTER(Limits), _counts, _fault),
    ("gob_check_exact", ctypes.c_int, ctypes.c_void_p, ctypes.c_size_t, ctypes.POINTER(Limits), _counts, _fault),
    ("gob_check_open", _checker, ctypes.POINTER(Limits), _fault),
    ("gob_check_open_exact", _checker, ctypes.POINTER(Limits), _fault),
    ("gob_check_feed", ctypes.c_int, _checker, ctypes.c_char_p, ctypes.c_size_t, _counts, _fault),
    ("gob_check_finish", ctypes.c_int, _checker, _counts, _fault),
    ("gob_check_close", None, _checker),
    ("gob_reason_name", ctypes.c_char_p, ctypes.c_uint32),
    ("gob_reason_text", ctypes.c_char_p, ctypes.c_uint32),
    ("gob_why_text", ctypes.c_int64, ctypes.c_void_p, ctypes.c_size_t, ctypes.POINTER(Limits), ctypes.c_char_p,
     ctypes.c_char_p, ctypes.c_size_t),
    ("gob_writer_open", _writer, ctypes.c_char_p, ctypes.c_size_t, ctypes.c_char_p, _writer_fault),
    ("gob_writer_open_like", _writer, ctypes.c_char_p, ctypes.c_size_t, ctypes.c_char_p, _writer_fault),
    ("gob_writer_put_json", ctypes.c_int, _writer, ctypes.c_char_p, ctypes.c_size_t, _writer_fault),
    ("gob_writer_take", ctypes.c_int, _writer, ctypes.POINTER(ctypes.c_void_p), ctypes.POINTER(ctypes.c_size_t)),
    ("gob_writer_close", None, _writer),
    ("gob_types_text", ctypes.c_int64, ctypes.c_void_p, ctypes.c_size_t, ctypes.POINTER(Limits), ctypes.c_char_p,
     ctypes.c_size_t),
    ("gob_lines_text", ctypes.c_int64, ctypes.c_void_p, ctypes.c_size_t, ctypes.POINTER(Limits), ctypes.c_char_p,
     ctypes.c_size_t),
    ("gob_lines_stream", ctypes.c_int64, ctypes.c_char_p, ctypes.c_size_t, ctypes.c_char_p, ctypes.c_size_t,
     _writer_fault),
    ("gob_convert_with", ctypes.c_int64, ctypes.c_void_p, ctypes.c_size_t, ctypes.POINTER(Conversion), ctypes.c_char_p,
     ctypes.c_size_t, ctypes.POINTER(LeftOut), _writer_fault),
]
for _name, _result, *_words in _calls:
    _function = getattr(library, _name)
    _function.restype, _function.argtypes = _result, _words
