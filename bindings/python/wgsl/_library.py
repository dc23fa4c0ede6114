"""Finds the library and calls it. Each call has buffers of its own: other threads may ask meanwhile."""
from __future__ import annotations

import ctypes
import os
import sys
from pathlib import Path
from typing import Any

LIBRARY = {"darwin": "libwgsl.dylib", "win32": "wgsl.dll"}.get(sys.platform, "libwgsl.so")
VERSION = "0.3.0"
_TO_DO = f"set it to the folder where `make library FOLDER=..` wrote {LIBRARY}"
_AGAIN = "write the library again with `make library FOLDER=..`"

# The statuses of wgsl.h. Most answers have fewer than 256 bytes.
ANSWERED, REFUSED, UNREADABLE, OUT_OF_MEMORY, NO_ROOM = range(5)
_USUAL = 256


def _find() -> Path:
    """Where the library is. Raises ImportError, which says what to do, if it isn't found."""
    given, here, above = os.environ.get("WGSL_LIB"), Path(__file__).parent.absolute(), [Path.cwd(), *Path.cwd().parents]
    if given is None:
        folders, missing = [here], f"WGSL_LIB is not set, and there is no {LIBRARY} in {str(here)!r}"
    elif not given:
        folders, missing = [], "WGSL_LIB is empty"
    else:
        folders = [folder / given for folder in above]
        missing = f"WGSL_LIB is {given!r}, but there is no {os.path.join(given, LIBRARY)!r}"
        missing += "" if os.path.isabs(given) else f" in {str(above[0])!r}, nor above"
    for folder in folders:
        if (folder / LIBRARY).is_file():
            return folder / LIBRARY
        if folder.is_file():
            missing = f"WGSL_LIB is {given!r}, a file"
    raise ImportError(f"{missing}: {_TO_DO}")


def _serves(version: str) -> list[str]:
    """What versions that serve one another share: the major version, and before 1.0.0 the minor one too."""
    numbers = version.split(".")
    return numbers[:2] if numbers[0] == "0" else numbers[:1]


def _load() -> ctypes.CDLL:
    """The library, which is of a version that serves this package."""
    path, size = _find(), ctypes.c_size_t
    try:
        library = ctypes.CDLL(str(path))
        for name in ("answer", "explain", "standard_answer", "standard_explain", "source_layout", "module_check"):
            call = getattr(library, f"wgsl_{name}")
            call.restype = ctypes.c_uint8
            call.argtypes = [ctypes.c_char_p, size, ctypes.c_char_p, size, ctypes.POINTER(size)]
        library.wgsl_source_code.argtypes = [*library.wgsl_source_layout.argtypes, ctypes.c_uint8]
        library.wgsl_source_code.restype = ctypes.c_uint8
        library.wgsl_version.restype = ctypes.c_char_p
        version: str = library.wgsl_version().decode()
    except (OSError, AttributeError) as error:
        raise ImportError(f"{error}: {_AGAIN}") from None
    if _serves(version) != _serves(VERSION):
        raise ImportError(f"{path} has the version {version}, and the package wgsl the version {VERSION}: {_AGAIN}")
    return library


_library = _load()


def ask(name: str, request: bytes, *more: int) -> tuple[int, str]:
    """The status of a call, and the text that it writes. Asks again with a larger buffer if that doesn't fit."""
    call: Any = getattr(_library, name)
    length, status = ctypes.c_size_t(_USUAL), NO_ROOM
    for _ in range(2):
        if status == NO_ROOM:
            buffer = ctypes.create_string_buffer(length.value)
            status = call(request, len(request), buffer, len(buffer), ctypes.byref(length), *more)
    if status == OUT_OF_MEMORY:
        raise MemoryError("there was no memory for an answer")
    if status > UNREADABLE:
        raise RuntimeError(f"wgsl.h has no status {status}")
    return status, buffer.raw[:length.value].decode()
