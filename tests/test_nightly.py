"""What examples/nightly/check-shelves prints, and that its status is never taken for another."""
import os
import re

import pytest

from helpers.lines import log_of
from helpers.program import TOP, Program, needs, told

COMPLETE, OPEN, BROKEN, REFUSED = map(log_of, ("I1 S", "I1 C", "I1 S I1 RA", "UA UA"))
NO_ANSWER = 4
# A Python that has only its own modules.
BARE = "#!/bin/sh\nexec /usr/bin/python3 -ISB \"$@\"\n"


@pytest.fixture
def check(release):
    """Runs it over folders with these variables besides: its status, and the lines printed."""
    def ask(*folders, flags=(), **environment):
        found = {"PYTHONPATH": "python", "LIBVICINITY": str(release / "libvicinity.so")}
        script = Program("/bin/bash", *flags, TOP / "examples/nightly/check-shelves",
                         **found | environment)
        said = script.run(*map(str, folders))
        return said.status, said.out.decode().splitlines()
    return ask


def written(folder, *logs):
    for number, log in enumerate(logs):
        (folder / f"{number}.log").write_bytes(log)
    return folder


@pytest.mark.parametrize(("logs", "status"), [
    ([COMPLETE, COMPLETE], 0), ([OPEN, COMPLETE], 1), ([BROKEN, OPEN], 2), ([REFUSED, OPEN], 3)])
def test_the_worst_status(check, tmp_path, logs, status):
    found, lines = check(written(tmp_path, *logs))
    assert (found, len(lines)) == (status, sum(log != COMPLETE for log in logs))


def test_each_folder_counts(check, tmp_path):
    for name, log in [("good", COMPLETE), ("bad", OPEN)]:
        (tmp_path / name).mkdir()
        written(tmp_path / name, log)
    status, lines = check(tmp_path / "good", tmp_path / "bad")
    assert (status, len(lines)) == (1, 1)
    assert check(tmp_path / "bad", tmp_path / "good") == (status, lines)
    written(tmp_path / "good", BROKEN)
    for flags in ["-e"], ["-eu", "-o", "pipefail"]:
        assert check(tmp_path / "bad", tmp_path / "good", flags=flags)[0] == 2


def test_what_cannot_be_written_is_no_answer(release, tmp_path):
    """awk ends with 2 then, as if the worst log were impossible."""
    script = Program("/bin/bash", TOP / "examples/nightly/check-shelves", PYTHONPATH="python",
                     LIBVICINITY=str(release / "libvicinity.so"))
    with open("/dev/full", "wb") as full:
        assert script.run(written(tmp_path, BROKEN), stdout=full).status == NO_ANSWER


@pytest.mark.parametrize("words", [[], ["-d"], ["!"], ["("]])
def test_without_a_folder(check, words):
    """A word that find would take for an option is the name of a folder too."""
    assert check(*words) == (NO_ANSWER, [])


def test_a_log_is_found_by_its_ending_in_any_case_and_by_links(check, tmp_path):
    (tmp_path / "here").mkdir()
    (tmp_path / "there").mkdir()
    (tmp_path / "there/A.LOG").write_bytes(OPEN)
    (tmp_path / "here/link").symlink_to(tmp_path / "there")
    status, lines = check(written(tmp_path / "here", COMPLETE))
    assert (status, len(lines)) == (1, 1)


@pytest.mark.parametrize("name", ["old.log", "shelf-b"])
def test_a_link_to_nothing_is_not_passed_over(check, tmp_path, name):
    """It may have led to a folder of logs."""
    (tmp_path / name).symlink_to(tmp_path / "nowhere")
    assert check(written(tmp_path, COMPLETE))[0] == NO_ANSWER


def test_a_folder_is_no_log(check, tmp_path):
    (tmp_path / "old.log").mkdir()
    assert check(written(tmp_path, COMPLETE)) == (0, [])


@pytest.mark.parametrize("log", [COMPLETE, OPEN])
def test_without_the_module(check, tmp_path, log):
    """Python ends with 1 then, as it does for a log that isn't complete."""
    (tmp_path / "bin").mkdir()
    (tmp_path / "bin/python3").write_text(BARE)
    (tmp_path / "bin/python3").chmod(0o755)
    path = f"{tmp_path}/bin:{os.environ['PATH']}"
    assert check(written(tmp_path, log), PATH=path) == (NO_ANSWER, [])


def test_the_logs_of_one_day(release, tmp_path):
    """As a page says it: also one that was copied with the time at which it was written."""
    page, script = (TOP / "docs/RUNNING.md").read_text(), "examples/nightly/check-shelves"
    words, after = re.findall(r"With `(-\S+ -\d+)` after `(.*?)`", page)[0]
    (tmp_path / "check").write_text((TOP / script).read_text().replace(after, f"{after} {words}"))
    (tmp_path / "old").mkdir()
    os.utime(written(tmp_path / "old", OPEN) / "0.log", (0, 0))
    environment = {"PYTHONPATH": "python", "LIBVICINITY": str(release / "libvicinity.so")}
    said = Program("/bin/bash", tmp_path / "check", **environment).run(tmp_path / "old")
    assert said.status == 1


def test_cron_has_something_to_mail(tmp_path):
    """Also if the script is killed and prints nothing; and nothing if all is well."""
    page, script = (TOP / "docs/RUNNING.md").read_text(), tmp_path / "check-shelves"
    job, = re.findall(r"^    30 4 \* \* \* shelves (.*)$", page, re.M)
    job = job.replace("/usr/local/bin/check-shelves", str(script))
    for does, mail in ("kill -9 $$", b"status 137\n"), ("", b""):
        script.write_text(does)
        assert Program("/bin/sh", "-c", job).run().out == mail


@pytest.mark.parametrize(("zone", "day"), [
    ("Europe/Berlin", "2026-03-29"), ("America/New_York", "2026-03-08")])
def test_the_timer_leaves_no_day_out(zone, day):
    """An hour is left out where summer time begins, and systemd runs nothing for a time in it."""
    needs(f"/usr/share/zoneinfo/{zone}")
    timer = (TOP / "examples/nightly/check-shelves.timer").read_text()
    when, = re.findall("^OnCalendar=(.*)$", timer, re.M)
    said = told("systemd-analyze", "calendar", f"--base-time={day} 00:00 UTC", when, TZ=zone)
    assert f" {day} " in re.findall("Next elapse: (.*)", said)[0]


def test_the_mail_of_the_unit_is_delivered():
    """By what goes on in the background: else systemd ends it with the command."""
    unit = (TOP / "examples/nightly/check-shelves-mail.service").read_text()
    assert "\nKillMode=process\n" in unit


def test_many_logs(release, tmp_path):
    """As a page has them judged: also if a link to more of them leads nowhere."""
    page = (TOP / "docs/RUNNING.md").read_text()
    words, = re.findall(r"^    set -o pipefail\n    find .*$", page, re.M)
    run = Program("bash", "-c", words.replace("FOLDER", str(written(tmp_path, COMPLETE))),
                  PYTHONPATH="python", LIBVICINITY=str(release / "libvicinity.so")).run
    assert run().status == 0
    (tmp_path / "shelf-b").symlink_to(tmp_path / "nowhere")
    assert run().status == NO_ANSWER


def test_without_the_library(check, tmp_path):
    (tmp_path / "libvicinity.so").write_bytes(b"")
    assert check(written(tmp_path, OPEN))[0] == 1
    library = str(tmp_path / "libvicinity.so")
    assert check(tmp_path, LIBVICINITY=library) == (NO_ANSWER, [])


@pytest.mark.parametrize("folder", ["empty", "nowhere"])
def test_without_a_log(check, tmp_path, folder):
    (tmp_path / "empty").mkdir()
    assert check(tmp_path / folder) == (NO_ANSWER, [])
    (tmp_path / "full").mkdir()
    full = written(tmp_path / "full", COMPLETE)
    assert check(full, tmp_path / folder) == check(tmp_path / folder, full) == (NO_ANSWER, [])
