"""The library that is linked, asked by ctypes."""
import ctypes
import os

from programs import expect

CALLS = "answer explain standard_answer standard_explain source_layout module_check".split()
BYTE = ctypes.c_uint8
ANSWERED, RULED_OUT, UNREADABLE, OUT_OF_MEMORY, NO_ROOM = range(5)
ROOM = 1 << 20
FILL = 0xAA


class Library:
    def __init__(self, folder):
        self.shared = ctypes.CDLL(os.path.join(folder, "libwgsl.so"))
        self.calls = {name: self.typed(name) for name in CALLS}
        self.code = self.typed("source_code", BYTE)
        self.room = (BYTE * ROOM)()
        ctypes.memset(self.room, FILL, ROOM)
        self.len = ctypes.c_size_t()

    def typed(self, name, *more):
        call = getattr(self.shared, f"wgsl_{name}")
        size, pointer = ctypes.c_size_t, ctypes.POINTER
        call.argtypes = [pointer(BYTE), size, pointer(BYTE), size, pointer(size), *more]
        call.restype = BYTE
        return call

    def ask(self, name, asked, *more):
        """The status, and the bytes of the reply. Nothing else of the room is written."""
        request = (BYTE * max(len(asked), 1))(*asked)
        call = self.code if more else self.calls[name]
        status = call(request, len(asked), self.room, ROOM, ctypes.byref(self.len), *more)
        count = self.len.value if status in (ANSWERED, RULED_OUT) else 0
        reply = bytes(self.room[:count])
        ctypes.memset(self.room, FILL, count)
        expect(self.room[count] == FILL and self.room[ROOM - 1] == FILL, f"{name} {asked[:1000]} writes more than its reply")
        return status, reply

    def text(self, name, asked):
        """The text that a call writes, None if it writes none."""
        status, reply = self.ask(name, asked.encode() if isinstance(asked, str) else asked)
        return reply.decode() if status in (ANSWERED, RULED_OUT) else None
