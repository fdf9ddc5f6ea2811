"""One interface by ctypes, to try a triggered operation by hand. LIBSINFREDDY names the shared library:
   gcc -shared -o libsinfreddy.so -Wl,--whole-archive c/out/libsinfreddy.a -Wl,--no-whole-archive
A broadcast from rank 0 to ranks 1 and 2 (`python3 -m doctest examples/python/sinfreddy.py`):
>>> ranks = [Ni(r, 3, b"triggers" if r == 0 else bytes(8)) for r in range(3)]
>>> for ni in ranks:
...     ni.arrived = ni.made(Handle, "PtlCTAlloc")
...     ni("PtlPTAlloc", U32(0), NONE)
...     _ = ni.made(Handle, "PtlMEAppend", U32(0), c.byref(Entry(0, 8, ni.arrived, 33, 2**32 - 1)), U32(0))
>>> md = ranks[0].made(Handle, "PtlMDBind", c.byref(Descriptor(0, 8, 0, NONE, NONE)))
>>> for to in 1, 2:  # a put of 8 bytes to `to`, once the counting event is at 1
...     zeros = U32(0), U64(0), U64(0), U64(0)
...     _ = ranks[0].made(U32, "PtlTriggeredPut", md, U64(0), U64(8), U32(0), U32(to), *zeros, ranks[0].arrived, U64(1))
>>> ranks[0]("PtlCTInc", ranks[0].arrived, Count(1, 0))
>>> carry(ranks)
>>> [ni.read(0, 8) for ni in ranks]
[b'triggers', b'triggers', b'triggers']
"""
import ctypes as c
import os
U8, U32, U64, ROOM = c.c_uint8, c.c_uint32, c.c_uint64, 4096
_LIB = c.CDLL(os.environ.get("LIBSINFREDDY", "./libsinfreddy.so"))
_struct = lambda *fields: type("Struct", (c.Structure,), {"_fields_": list(fields)})
Handle, Count = _struct(("stamp", U64), ("slot", U32)), _struct(("success", U64), ("failure", U64))
Held = _struct(("at", c.c_void_p), ("live", c.c_bool))
Limits = _struct(*[(f, U32) for f in "entries headers mds cts eqs pts triggered".split()], *[(f, U64) for f in "msg atomic fetch".split()])
Descriptor = _struct(("start", U64), ("length", U64), ("options", U32), ("eq", Handle), ("ct", Handle))
Entry = _struct(("start", U64), ("length", U64), ("ct", Handle), ("options", U32), ("match_id", U32), ("bits", U64), ("ignore", U64),
                ("min_free", U64))
Message = _struct(*[(f, U32) for f in "kind source target pt ack operation swap datatype ok".split()], ("home", Handle),
                  *[(f, U64) for f in "home_offset match_bits offset length hdr_data operand bytes".split()])
NONE = Handle(2**64 - 1, 2**32 - 1)
class Ni:
    """An interface: a call by its name and arguments; one that isn't made raises its status."""
    def __init__(self, rank, ranks, region):
        self.held, limits = Held(), Limits(16, 16, 16, 16, 16, 4, 16, ROOM, ROOM, ROOM)
        assert _LIB.PtlNIInit(U32(rank), U32(ranks), c.byref(limits), region, c.c_size_t(len(region)), c.byref(self.held)) == 0
    def __call__(self, name, *arguments):
        status = getattr(_LIB, name)(c.byref(self.held), *arguments)
        assert status == 0, (name, status)
    def made(self, kind, name, *arguments):
        value = kind()
        self(name, *arguments, c.byref(value))
        return value
    def read(self, start, length):
        into = (U8 * length)()
        self("SfRead", U64(start), into, c.c_size_t(length))
        return bytes(into)
def carry(ranks):
    """Fires what is ready and carries it, answers too, until nothing is."""
    while any(ni.made(U32, "SfReady").value for ni in ranks):
        for ni in (ni for ni in ranks if ni.made(U32, "SfReady").value):
            made, message, out = U32(), Message(), (U8 * ROOM)()
            ni("SfFire", ni.made(U32, "SfReadyAt", U32(0)), c.byref(made), c.byref(message), out, c.c_size_t(ROOM))
            while made.value:
                outcome, answer, back = U32(), Message(), (U8 * ROOM)()
                ranks[message.target]("SfDeliver", c.byref(message), out, c.c_size_t(message.bytes), c.byref(outcome), c.byref(made),
                                      c.byref(answer), back, c.c_size_t(ROOM))
                message, out = answer, back
