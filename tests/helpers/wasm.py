"""The library as WebAssembly, asked as ctypes asks a shared library: node makes the calls."""
import contextlib
import ctypes
import json
import subprocess
from unittest import mock

from helpers.library import Library
from helpers.program import TOP

SERVE = TOP / "tests/wasm/serve.mjs"
NUMBERS = ctypes.c_uint8, ctypes.c_uint32
SIZES = ctypes.c_size_t, ctypes.c_uint64


class Call:
    """One of the module's calls. As with ctypes, it may be told the types of its arguments."""

    def __init__(self, module, name):
        self.module, self.name = module, name
        self.restype = self.argtypes = None

    def __call__(self, *given):
        words, buffers, back = [], [], []
        for index, word in enumerate(given):
            if isinstance(word, (int, *NUMBERS, *SIZES)):
                kind = self.argtypes[index] if self.argtypes else type(word)
                value = getattr(word, "value", word)
                words.append(value if kind in NUMBERS else str(value))
                continue
            word = getattr(word, "_obj", word)  # of byref
            buffers.append(bytes(word))
            words.append({"bytes": len(buffers[-1]), "again": not isinstance(word, bytes)})
            if not isinstance(word, bytes):
                back.append(word)
        return self.module.answer({"call": self.name, "words": words}, buffers, back)


class Module:
    """The calls, each by its name."""

    def __init__(self, path):
        self.node = subprocess.Popen(
            ["node", SERVE, path], stdin=subprocess.PIPE, stdout=subprocess.PIPE)

    def __getattr__(self, name):
        call = Call(self, name)
        setattr(self, name, call)
        return call

    def answer(self, asked, buffers, back):
        self.node.stdin.write(json.dumps(asked).encode() + b"\n" + b"".join(buffers))
        self.node.stdin.flush()
        told = json.loads(self.node.stdout.readline())
        if "error" in told:
            raise RuntimeError(f"{asked['call']}: {told['error']}")
        for buffer in back:
            data = self.node.stdout.read(ctypes.sizeof(buffer))
            ctypes.memmove(ctypes.byref(buffer), data, len(data))
        return told["result"]


class WasmLibrary(Library):
    """The library as a module, also for the Python package."""

    def __init__(self, path):
        self.module = Module(path)
        super().__init__(path)

    @contextlib.contextmanager
    def package(self):
        with mock.patch("ctypes.CDLL", lambda _: self.module), super().package() as package:
            yield package
