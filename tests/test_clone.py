"""What somebody gets who clones the repository: an answer at once, and what building says and
keeps. It is built by a kit that proves all at once; and by the real one, a program of two
functions."""
import concurrent.futures
import os
import re
import resource
import shutil
import subprocess

import pytest

from helpers.program import TOP, Program, needs, told
from helpers.trees import copy

# What a new machine has, and what building takes beside it.
TOOLS = ("bash env readlink dirname uname grep sed sha256sum cut tail head tar gzip mkdir mv "
         "chmod").split()
FOR_BUILDING = ["make"]
LOG = "examples/whole-shelf.log"
COMPLETE = b"complete 4\n"
LIBRARIES = re.findall(r"^(vic_\w+):", (TOP / "crates.txt").read_text(), re.M)
# Stands for the prover: what it is told to make says what it is, and each crate has two functions.
RATTLE = """#!/bin/sh
while [ $# -gt 0 ]; do
    case $1 in
    -o) out=$2 ;;
    --crate-name) name=$2 ;;
    esac
    shift
done
[ -z "$CHANGED" ] || echo "// changed" >>"$CHANGED"
case $out in
*.rlib) mkdir -p "$out" ;;
*) printf '#!/bin/sh\\necho built here\\n' >"$out" && chmod +x "$out" ;;
esac
printf 'fn %s::one: proved\\nfn %s::two: proved\\nlogic=proved functions=2\\n' "$name" "$name"
"""
LINK = """#!/bin/sh
while [ "$1" != -o ]; do shift; done
cp "$3" "$2"
"""


def script(path, text):
    path.write_text(text)
    path.chmod(0o755)


class Clone:
    """A clone, on a machine with few tools. Where none is there, it is made."""

    def __init__(self, folder):
        self.top, self.tools, self.kit = folder / "clone", folder / "tools", folder / "kit"
        if not self.top.exists():
            self.make()

    def make(self):
        for made in self.top, self.tools, self.kit / "bin":
            made.mkdir(parents=True)
        copy(self.top)
        self.add(TOOLS)
        (self.kit / "KIT-ID").write_text("kit\n")
        script(self.kit / "bin/rattle", RATTLE)
        script(self.kit / "bin/rattle-link", LINK)
        script(self.kit / "bin/rt", "")

    def add(self, tools):
        for tool in tools:
            (self.tools / tool).symlink_to(shutil.which(tool))

    def ask(self, *words, before=()):
        """What ./vicinity writes, which has two seconds of a processor."""
        words = words or ("check", LOG)
        path = os.pathsep.join([*map(str, before), str(self.tools)])
        return Program(self.top / "vicinity").run(
            *words, cwd=self.top, env={"PATH": path}, timeout=600, stdin=subprocess.DEVNULL,
            preexec_fn=lambda: resource.setrlimit(resource.RLIMIT_CPU, (2, 2)))

    def build(self, *words, **more):
        """What make writes, by the kit that proves all at once."""
        path = f"{self.kit}/bin{os.pathsep}{os.environ['PATH']}"
        return Program("make", PATH=path, **more).run(*words, cwd=self.top, timeout=600)

    def proved_now(self):
        """The crates that building proves."""
        return re.findall(r"^proving (\w+)", self.build().out.decode(), re.M)

    def change(self, name):
        with open(self.top / name, "a") as file:
            file.write("// changed\n")


@pytest.fixture
def clone(tmp_path):
    return Clone(tmp_path)


def build_in(folder):
    clone = Clone(folder)
    clone.add(FOR_BUILDING)
    assert clone.build().status == 0


@pytest.fixture
def built(once, tmp_path):
    """A copy of a clone in which the program is built."""
    shutil.copytree(once("clone", build_in), tmp_path, symlinks=True, dirs_exist_ok=True)
    clone = Clone(tmp_path)
    assert clone.ask() == (b"built here\n", b"", 0)
    return clone


RELEASE = re.findall(r"  vicinity_(.*)-1_amd64\.deb", (TOP / "dist/SHA256SUMS").read_text())[0]
PACKAGED = f"vicinity: this is the packaged program of release {RELEASE}, "


def is_packaged(said, of):
    """Whether the packaged program answered and said so: of the same code, or of another."""
    assert (said.out, said.status) == (COMPLETE, 0)
    assert said.err.decode().startswith(PACKAGED + of) and said.err.count(b"\n") == 1


def test_a_fresh_clone_answers(clone):
    """And says by what, each time."""
    (clone.top / "dist/SOURCES").write_text(told(TOP / "release/sources", "code"))
    for _ in range(2):
        is_packaged(clone.ask(), "of the same code")


def test_the_code_was_changed_since_the_release(clone):
    clone.change("crates/vic_frame/src/uid.rt")
    is_packaged(clone.ask(), "NOT of this code")


def test_a_program_that_is_not_proved_is_not_run(clone):
    clone.add(FOR_BUILDING)
    (clone.top / "crates/vicinity/out").mkdir()
    script(clone.top / "crates/vicinity/out/vicinity", "#!/bin/sh\necho not proved\n")
    is_packaged(clone.ask(), "")


def test_a_damaged_package_is_not_unpacked(clone):
    package, = clone.top.glob("dist/vicinity_*_amd64.deb")
    content = bytearray(package.read_bytes())
    content[1000] ^= 1
    package.write_bytes(content)
    assert clone.ask()[::2] == (b"", 4)


def emptied(program):
    """As a crash of the machine may leave it. A shell takes it for a script, which ends with 0."""
    at = program.stat().st_mtime_ns
    program.write_bytes(b"")
    os.utime(program, ns=(at, at))


def test_an_unpacked_program_that_is_empty_is_unpacked_again(clone):
    clone.ask()
    emptied(*clone.top.glob("out/packaged/*"))
    is_packaged(clone.ask(), "")


def test_a_packaged_program_that_the_machine_does_not_run(clone):
    """As with an old C library, where the loader ends with a status that would be an answer."""
    clone.ask()
    program, = clone.top.glob("out/packaged/*")
    script(program, "#!/bin/sh\nexit 1\n")
    assert clone.ask()[::2] == (b"", 4)


@pytest.fixture
def odd(clone, tmp_path):
    """A processor of another kind."""
    def of(kind):
        (tmp_path / "odd").mkdir()
        script(tmp_path / "odd/uname", f"#!/bin/sh\necho {kind}\n")
        return tmp_path / "odd"
    return of


def test_a_processor_for_which_there_is_no_package(clone, odd):
    assert clone.ask("check", before=[odd("riscv64")])[::2] == (b"", 4)


def test_the_packaged_program_for_arm(clone, odd):
    env = {**os.environ, "PATH": f"{odd('aarch64')}{os.pathsep}{os.environ['PATH']}"}
    made = Program(clone.top / "release/packaged").run(cwd=clone.top, env=env).out.decode().strip()
    assert "AArch64" in told("readelf", "-h", made)


def test_the_commands_were_changed_since_the_release(clone, odd):
    """Of them the program for ARM is made, and not that for x86-64."""
    (clone.top / "dist/SOURCES").write_text("".join(
        told(TOP / "release/sources", word) for word in ("code", "commands")))
    arm = Program(clone.top / "release/packaged",
                  PATH=f"{odd('aarch64')}{os.pathsep}{os.environ['PATH']}")
    assert b", of the same code;" in arm.run().err
    clone.change("commands/vicinity.c")
    assert b", NOT of this code;" in arm.run().err
    is_packaged(clone.ask(), "of the same code")


@pytest.mark.parametrize(("word", "status"), [("--help", 0), ("it", 2)])
def test_words_after_test(clone, word, status):
    """It says how, and starts nothing."""
    said = Program(clone.top / "test").run(word, cwd=clone.top, timeout=600)
    assert said.err.startswith(b"usage: ./test") and said.status == status


def test_what_is_said_while_it_is_proved(clone):
    said = clone.build().out.decode()
    begun, ended = (re.findall(rf"^{word} (\w+)", said, re.M) for word in ("proving", "proved"))
    assert begun == ended and len(begun) > 10
    assert re.search(r"^proved vicinity: 2 functions in \d+ s\n\Z", said, re.M)


def test_a_program_older_than_the_code_is_not_run(built):
    built.change("crates/vic_frame/src/uid.rt")
    is_packaged(built.ask(), "NOT of this code")


def test_a_built_program_that_is_empty_is_not_run(built):
    emptied(built.top / "crates/vicinity/out/vicinity")
    is_packaged(built.ask(), "")


def test_the_code_as_it_was_built_is_run(built):
    """Though other files were changed, or the same ones and back."""
    file = built.top / "crates/vic_frame/src/uid.rt"
    text = file.read_text()
    built.change("crates/vic_frame/src/uid.rt")
    file.write_text(text)
    (built.top / "crates/vic_tests/src/lib.rt").touch()
    (built.top / "crates/vic_frame/must-fail/other.edit").touch()
    assert built.ask() == (b"built here\n", b"", 0)


def test_a_build_that_was_broken_off(built):
    built.change("crates/vic_frame/src/uid.rt")
    (built.top / "crates/vicinity/out/rlib/vic_frame.sum").unlink()
    is_packaged(built.ask(), "NOT of this code")


def test_what_is_proved_again(built):
    """A crate that was changed, and those above it; none for the time of a file."""
    (built.top / "crates/vic_frame/src/uid.rt").touch()
    assert built.proved_now() == []
    built.change("crates/vic_words/src/lib.rt")
    assert built.proved_now() == ["vic_words", "vic_program", "vicinity"]
    assert built.proved_now() == []


def test_what_is_kept_in_another_clone(built, tmp_path):
    """Nothing of it is proved again there."""
    other = Clone(tmp_path / "other")
    made = "crates/vicinity/out"
    told("cp", "-a", built.top / made, other.top / made)
    assert other.proved_now() == []


def test_a_crate_that_is_changed_while_it_is_proved(clone):
    said = clone.build(CHANGED=str(clone.top / "crates/vic_frame/src/uid.rt"))
    assert said.status == 2 and b"vic_frame was changed" in said.err
    assert not [*clone.top.glob("crates/vicinity/out/rlib/*.sum")]


def test_a_crate_stands_behind_those_that_it_uses(clone):
    """In crates.txt: the sum of each has those of the crates that it uses."""
    lines = (clone.top / "crates.txt").read_text().splitlines(keepends=True)
    (clone.top / "crates.txt").write_text("".join(reversed(lines)))
    said = clone.build()
    assert said.status == 2 and b"below vic_tests, which uses it" in said.err


def test_two_builds_at_once(clone):
    """Prove each crate once."""
    with concurrent.futures.ThreadPoolExecutor() as at_once:
        first, second = at_once.map(Clone.proved_now, [clone, clone])
    assert not set(first) & set(second) and len(first + second) > 10


def test_a_program_that_another_tool_has_made(built):
    """`rt run` leaves one at the same place."""
    script(built.top / "crates/vicinity/out/vicinity", "#!/bin/sh\necho of another\n")
    is_packaged(built.ask(), "")
    assert built.proved_now() == ["vicinity"]


@pytest.mark.parametrize("script", ["sums", "sources code", "sources commands", "pages"])
def test_another_clone_where_cd_looks(clone, tmp_path, script):
    """By CDPATH, which also lets cd write where it went."""
    copy(tmp_path, "crates", "crates.txt", "release", "commands", "include", "docs", "README.md")
    clone.change("crates/vic_frame/src/uid.rt")
    name, *words = script.split()
    here, there = (told(f"release/{name}", *words, cwd=clone.top, CDPATH=path)
                   for path in ("", str(tmp_path)))
    assert here == there


# Beside the kit's gate, which says what it has proved.

@pytest.fixture
def gate(clone, tmp_path):
    """Builds beside a gate that has said these lines. Gives what the program says, and which crates
    were proved here."""
    copied = tmp_path / "copy"
    copied.mkdir()
    copy(copied, "crates", "crates.txt", "release")
    for crate in LIBRARIES:
        (copied / f"crates/{crate}/out/rlib/{crate}.rlib").mkdir(parents=True)
    (copied / "crates/vicinity/out").mkdir()
    script(copied / "crates/vicinity/out/vicinity", "#!/bin/sh\necho of the gate\n")

    def build(lines, is_broken_off=False):
        (tmp_path / "gate").write_text("".join(f"{line}\n" for line in lines))
        if is_broken_off:
            (tmp_path / "gate.status").touch()
        built = clone.build(f"GATE={tmp_path}")
        assert built.status == 0
        here = re.findall(r"^proving (\w+)", built.out.decode(), re.M)
        return Program(clone.top / "crates/vicinity/out/vicinity").run().out, here
    return build


def proved(*without):
    return [line for crate in LIBRARIES if crate not in without
            for line in (f"== {crate}", f"fn {crate}::one: proved", f"rt: {crate} proved")]


KEPT = "rt: vicinity is kept: an earlier run"


def test_what_the_gate_has_proved_is_taken(clone, gate):
    assert gate([*proved(), KEPT]) == (b"of the gate\n", [])
    said = (clone.top / "crates/vicinity/out/rlib/vic_log.said").read_text()
    assert said == "== vic_log\nfn vic_log::one: proved\nrt: vic_log proved\n"


def test_what_the_gate_has_not_proved_is_proved_here(gate):
    lines = [*proved("vic_words", "vic_program"), "rt: vic_words NOT PROVED",
             "rt: vic_program NOT PROVED: its library vic_words failed",
             "rt: vicinity NOT PROVED: its library vic_words failed"]
    assert gate(lines) == (b"built here\n", ["vic_words", "vic_program", "vicinity"])


def test_what_the_gate_has_proved_of_other_files_is_proved_here(clone, gate):
    clone.change("crates/vic_answer/src/lib.rt")
    out, built = gate([*proved(), "rt: vicinity proved"])
    assert (out, built[0], built[-1]) == (b"built here\n", "vic_answer", "vicinity")
    assert set(built[1:-1]) == {"vic_object", "vic_commands", "vic_words", "vic_program"}


def test_what_the_gate_leaves_until_mutants_were_tried_is_proved_here(gate, tmp_path):
    for crate in "vic_program", "vicinity":
        shutil.rmtree(tmp_path / f"copy/crates/{crate}/out")
    assert gate(proved("vic_program")) == (b"built here\n", ["vic_program", "vicinity"])


def test_while_the_gate_proves_another_crate_it_is_waited_for(clone, gate, tmp_path):
    """It proves the program next, while something sleeps here."""
    made, begun = tmp_path / "made", tmp_path / "copy/crates/vicinity/out"
    begun.rename(made)
    script(clone.kit / "bin/sleep",
           f"#!/bin/sh\nmv '{made}' '{begun}' && echo '{KEPT}' >>'{tmp_path}/gate'\n")
    assert gate(proved("vic_sets")) == (b"of the gate\n", [])


def test_a_gate_that_was_broken_off(gate):
    given = gate(proved("vic_words", "vic_program"), is_broken_off=True)
    assert given == (b"built here\n", ["vic_words", "vic_program", "vicinity"])


# The kit itself.

@pytest.fixture
def small(tmp_path):
    """A library of one function, and a program that ends with its number."""
    needs("rt")
    for crate in "vic_one", "vicinity":
        (tmp_path / f"crates/{crate}/src").mkdir(parents=True)
    copy(tmp_path, "Makefile", "release", "targets")
    (tmp_path / "crates.txt").write_text("vic_one:\nvicinity: vic_one\n")
    (tmp_path / "crates/vicinity/src/main.rt").write_text(
        "#![tactic(auto)]\n\nuse std::process::ExitCode;\n\nfn main() -> ExitCode {\n    "
        "ExitCode::from(vic_one::one())\n}\n")

    def build(number):
        (tmp_path / "crates/vic_one/src/lib.rt").write_text(
            "#![tactic(auto)]\n\nghost use Rattle.std.specs.Prelude.{◌≡◌};\n\npub fn one() -> u8\n "
            "   ensures { result ≡ 1 }\n"
            f"{{\n    {number}\n}}\n")
        return Program("make").run(cwd=tmp_path)
    return build


@pytest.mark.slow
def test_what_is_not_proved_is_not_built(small, tmp_path):
    said = small(2)
    assert said.status == 2
    assert "must prove: ◌≡◌ {A = ℕ} 2 1\n" in said.err.decode()
    assert "vic_one is not proved, or not built: " in said.err.decode()
    assert not [*tmp_path.glob("crates/**/vic*.rlib"),
                *tmp_path.glob("crates/vicinity/out/vicinity")]


@pytest.mark.slow
def test_what_is_proved_is_built(small, tmp_path):
    assert small(1).status == 0
    assert Program(tmp_path / "crates/vicinity/out/vicinity").run().status == 1


@pytest.mark.slow
def test_what_docs_let_a_reader_break(clone):
    """'Break it yourself', from nothing: the change is refused, and is one of the crate's mutants,
    which can't be made once more."""
    needs("rt")
    page = (TOP / "docs/PROOFS.md").read_text()
    commands = re.search(r"^cd crates.*?(?=^git checkout|^```$)", page, re.M | re.S)[0]
    refusal = re.search(r"^rt check .*# \.\. (.*)$", commands, re.M)[1]
    out, err, _ = Program("bash", "-ec", commands).run(cwd=clone.top, timeout=3000)
    assert refusal in (out + err).decode() and b"fifteen_slots.edit" in out + err
