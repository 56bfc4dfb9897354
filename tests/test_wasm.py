"""The library as WebAssembly, by node and in a browser: what the module is, and that it answers as
the library for C does. tests/test_rows.py asks it for the rows of tests/data/rows over texts, and
tests/test_calls.py makes its calls one by one."""
import ctypes
import gzip
import json
import re

import pytest
from vicinity._native import AnswerStruct, WeakestStruct

from helpers.library import CALLS, LISTING, U32, WRITING, run_arguments, uids
from helpers.lines import log_of
from helpers.program import MAKE, TOP, Program, told
from helpers.texts import texts as all_texts
from helpers.wasm import WasmLibrary

MOST_BYTES = 560_000
# What the module exports besides the calls: the linker says where the heap begins.
EXPORTS = "__heap_base", "memory", "vicinity_allocate", "vicinity_free"
NAMES_OF = """
const it = new WebAssembly.Module(require("fs").readFileSync(process.argv[1]));
const exported = WebAssembly.Module.exports(it).map((one) => one.name);
console.log(JSON.stringify([WebAssembly.Module.imports(it), exported]));
"""
# What isn't a text, names that aren't lines, and texts that a command doesn't take: what is said of
# each, and that the module is as it was.
WRONG = """
import { readFileSync } from "node:fs";
import { Library } from "./web/judge/library.mjs";
const library = await Library.of(readFileSync(process.argv[1]));
const silent = "vicinity-log 1\\nT 260100F60A\\nS\\n";
const wide = Uint16Array.from(silent, (it) => it.charCodeAt(0)), table = "uid\\nnone\\n";
const said = (command, ...texts) => {
  try {
    const { status, written } = library.run(command, texts);
    return [status, new TextDecoder().decode(written)];
  } catch (error) {
    return error.constructor.name;
  }
};
console.log(JSON.stringify([
  [wide, [...silent], new DataView(wide.buffer), wide.buffer, 1]
    .map((text) => said("check", { text })),
  [["check"], ["check", { text: silent }, { text: silent }],
    ["survey", { name: "a\\nb", text: silent }], ["survey", { name: "", text: silent }],
    ["collection", { name: "a", text: silent }],
    ["collection", { name: "K", text: table }, { name: "L", text: table }]]
    .map(([command, ...texts]) => said(command, ...texts)),
  said("json-collection", { name: "K", text: table }, { name: "a", text: silent })[0],
  said("check", { text: silent })]));
"""
# A module whose stack is too small, as Firefox says it, and what is said of it next.
SPENT = """
import { Library } from "./web/judge/library.mjs";
const library = new Library({ exports: { memory: new WebAssembly.Memory({ initial: 1 }),
  vicinity_interface: () => 2, vicinity_allocate: () => 16n, vicinity_free() {},
  vicinity_run() { throw new Error("too much recursion"); } } });
const said = () => {
  try { library.run("check", [{ text: "" }]); } catch (error) { console.log(error.message); }
};
said();
said();
"""
UID_A, UID_B = 0xE0040100000000A1, 0xE0040100000000B2
# How many bytes the buffer has of a call that lists something.
ROOM = 2048
# Those that write a margin, which is all 0 where there is none.
MEASURING, NO_MARGIN = ("margin", "margin_listed"), bytes(WeakestStruct())
# The status of a call that was refused memory.
REFUSED = 4
# Logs of which each allocation is refused.
GROWING = ("I16 S C S14 I16M1 S10 RA RB1 S4 UA UB1", "I1 S I1 RA", "I1 RA", "I1 S UA", "I1 C UA")


def test_the_module_needs_nothing_and_exports_the_calls(wasm_module):
    imported, exported = json.loads(told("node", "-e", NAMES_OF, wasm_module))
    assert imported == []
    assert sorted(exported) == sorted([*CALLS, *EXPORTS])
    assert wasm_module.stat().st_size < MOST_BYTES


def test_the_size_on_the_page(wasm_module):
    """Within a twentieth."""
    size, small = re.search(r"vicinity.wasm` \(about (\d+) KB, (\d+) KB compressed",
                            (TOP / "docs/EMBEDDING.md").read_text()).groups()
    module = wasm_module.read_bytes()
    assert int(size) == pytest.approx(len(module) / 1000, rel=0.05)
    assert int(small) == pytest.approx(len(gzip.compress(module)) / 1000, rel=0.05)


@pytest.mark.slow
def test_the_same_bytes_come_out_again(wasm_module, tmp_path):
    again = tmp_path / "again.wasm"
    told(*MAKE, "wasm", f"wasm={again}", f"objects={tmp_path}")
    assert again.read_bytes() == wasm_module.read_bytes()


@pytest.mark.parametrize(("old", "new", "why"), [
    ("  unreachable\n", '  call void asm sideeffect "nop", ""()\n  unreachable\n', "the word asm"),
    ("declare void @llvm.trap()", "declare void @abort()\ndeclare void @llvm.trap()", "abort"),
    ("declare void @rattle_dealloc", "declare void @free", "a foreign function"),
    ("  unreachable\n", "  %f = fadd double 1.0, 2.0\n  unreachable\n", "the word fadd"),
    ("declare i64 @llvm.cttz.i64", "declare i64 @llvm.x86.sse42.crc32", "a foreign function"),
    ('"target-cpu"="x86-64-v2"', '"target-cpu"="x86-64-v3"', "x86-64 Linux alone")])
def test_what_belongs_to_one_system_is_refused(wasm_module, tmp_path, old, new, why):
    text = (TOP / "out/module/vicinity_c.ll").read_text()
    assert old in text
    (tmp_path / "in.ll").write_text(text.replace(old, new, 1))
    words = "wasm64", tmp_path / "in.ll", tmp_path / "out.ll"
    _, err, status = Program(TOP / "targets/retarget", *words).run()
    assert status == 1 and err.startswith(b"retarget: ") and why in err.decode()
    assert not (tmp_path / "out.ll").exists()


def test_what_is_no_text_is_refused(wasm_module):
    """And leaves the module as it was."""
    texts, asked, status, after = json.loads(
        told("node", "--input-type=module", "-e", WRONG, wasm_module, cwd=TOP))
    assert texts == ["TypeError"] * 5 and asked == ["RangeError"] * 6
    assert (status, after) == (0, [0, "complete 0\n"])


def test_a_module_that_failed_is_not_asked_again():
    said = told("node", "--input-type=module", "-e", SPENT, cwd=TOP)
    assert said == "too much recursion\nthe module has failed: load it again\n"


def test_a_browser_writes_what_node_writes(browser, wasm_module, texts, tmp_path):
    """Whose answers tests/test_shims.py compares with the rows."""
    (tmp_path / "texts").write_bytes(texts)
    node = Program("node", TOP / "tests/wasm/answers.mjs", wasm_module).run(given=texts)
    given = browser.run_module("tests/wasm/in_browser.mjs", wasm_module, tmp_path / "texts")
    assert (given.encode(), b"") == node[:2]
    assert given.count("\ncheck ") + 1 == len(all_texts())


def test_a_session_of_a_million_lines(wasm, program, million, tmp_path):
    """With the tags that it lists, without the last of them, and cut off."""
    text = million.read_bytes()
    lines = text.splitlines(keepends=True)
    assert 990_000 < len(lines) <= 1_000_000
    for log in text, b"".join(lines[:-1]), b"".join(lines[:len(lines) // 2]):
        (tmp_path / "log").write_bytes(log)
        said = program.run("report", str(tmp_path / "log"))
        with wasm.package() as vicinity:
            found = vicinity.report(log)
            assert (f"{found}\n".encode(), found.answer.status) == (said.out, said.status)


class Growing(WasmLibrary):
    """The calls of a module whose heap refuses the allocation with one number."""

    def result(self, name, number, *given):
        """All that a call returns and writes, and how many allocations it made."""
        self.module.test_refuse(U32(number))
        if name in MEASURING:
            told, weakest = AnswerStruct(), WeakestStruct()
            self.call(name, *given, ctypes.byref(told), ctypes.byref(weakest))
            return bytes(told), bytes(weakest), 0, self.module.test_grown()
        if name not in LISTING:
            told, *written = self.told(AnswerStruct, name, *given), 0, b""
        else:
            told, *written = self.into(ROOM // ctypes.sizeof(LISTING[name]), name, *given)
        told = told if name in WRITING else bytes(told)
        return told, *map(bytes, written[1:]), written[0], self.module.test_grown()

    def refuse_each(self, name, *given, or_right=False):
        """Refuses each allocation of a call in turn: there is no answer, nothing else is written,
        no memory is kept, and the same call answers right afterwards. `or_right`: it may also
        answer right, without what only saves it time."""
        held, right = self.module.test_held(), self.result(name, 0, *given)
        none = REFUSED if name in WRITING else bytes(AnswerStruct(status=REFUSED))
        written = b"\7" * ROOM if name in LISTING else NO_MARGIN if name in MEASURING else b""
        wanted = none, written, 0
        assert right[0] != none and right[-1] > 0
        for number in range(1, right[-1] + 1):
            told = self.result(name, number, *given)[:-1]
            is_right = or_right and told == right[:-1]
            assert told == wanted or is_right, f"{name}, allocation {number}"
            assert self.module.test_held() == held, f"{name}, allocation {number}: memory is kept"
        assert self.result(name, 0, *given) == right


@pytest.fixture(scope="module")
def growing(wasm_module, tmp_path_factory):
    made = tmp_path_factory.mktemp("growing") / "vicinity.wasm"
    heap = TOP / "tests/wasm/refusing_heap.c"
    told(*MAKE, "wasm", f"wasm={made}", f"heap={heap}")
    calls = Growing(made)
    with calls.module.node:
        yield calls


@pytest.mark.parametrize("names", GROWING)
def test_each_growth_is_refused(growing, names):
    listed = uids([UID_B, UID_A])
    beside = log_of(" ".join(name for name in names.split() if not name.startswith("U")))
    for name in "check", "explain", "report", "margin":
        growing.refuse_each(name, log_of(names))
    for name in "check_listed", "margin_listed":
        growing.refuse_each(name, beside, listed)
    growing.refuse_each("simulate", log_of("I1 QA I1 UA UB"))
    growing.refuse_each("run", *run_arguments("report", [log_of(names)]))
    reconciled = run_arguments("reconcile", [log_of("UA UB"), log_of(names)], [b"EXPECTED", b"a"])
    growing.refuse_each("run", *reconciled, or_right=True)
