"""Many logs over many machines, by Dask, against one catalogue:

    fleet.py SCHEDULER CATALOGUE [PLACES] LOG ..

SCHEDULER is the address of a Dask scheduler, such as tcp://shelf:8786, or a number of workers on
this machine, which listen on its loopback alone. Each worker needs the package vicinity, and has to
see the same files under the same names. Only surveys and tables travel. What is written, and the
status, are those of `vicinity collection`.

A log that ends the process that reads it is named on standard error, and stands in the collection
as one that is refused at its first line: anything may be in its field."""
from __future__ import annotations

import sys
from typing import Iterator

from dask.distributed import Client, KilledWorker, LocalCluster

import vicinity

# How many files a worker reads at once at most, and how many batches there are for each, if there
# are files enough.
BATCH, SHARE = 100, 4
NO_ANSWER = 4
Files = list[tuple[str, bytes]]


def surveyed(names: list[str]) -> Files:
    """The surveys of files that are logs; others as they stand."""
    found = []
    for name in names:
        with open(name, "rb") as file:
            text = file.read()
        is_log = text.startswith(b"vicinity-log")
        found.append((name, vicinity.survey(text, name).text if is_log else text))
    return found


def all_surveyed(client: Client, names: list[str]) -> Iterator[tuple[str, bytes]]:
    """The same of all. Of a batch whose worker ended the files are read one by one, so that only
    one that ends its worker by itself is set aside."""
    size = min(BATCH, -(-len(names) // (SHARE * (len(client.scheduler_info()["workers"]) or 1))))
    batches = [names[start:start + size] for start in range(0, len(names), size)]
    going = [client.submit(surveyed, batch, pure=False) for batch in batches]
    suspects: list[str] = []
    for batch, future in zip(batches, going):
        try:
            yield from future.result()
        except KilledWorker:
            suspects += batch
    for name in suspects:
        try:
            yield from client.submit(surveyed, [name], pure=False).result()
        except KilledWorker:
            print(f"{name}: set aside, since it ended the process that read it", file=sys.stderr)
            yield name, b""


def client_of(scheduler: str) -> Client:
    if not scheduler.isdecimal():
        return Client(scheduler)
    here, some_port = "127.0.0.1", "127.0.0.1:0"
    return Client(LocalCluster(n_workers=int(scheduler), threads_per_worker=1, host=here,
                               dashboard_address=some_port, worker_dashboard_address=some_port,
                               scheduler_kwargs={"allowed_failures": 0}))  # see `all_surveyed`


def main(scheduler: str, names: list[str]) -> int:
    # before Dask opens anything, which would get the number of a stream that is closed
    with open(1, "wb", closefd=False) as out:
        with client_of(scheduler) as client:
            texts = dict(all_surveyed(client, names))
        said = vicinity.run("collection", *(texts[name] for name in names), names=names)
        out.write(said.text)
    return said.status


if __name__ == "__main__":
    try:
        if len(sys.argv) < 3 or sys.argv[1].strip("0") == "":
            raise ValueError(__doc__)
        sys.exit(main(sys.argv[1], sys.argv[2:]))
    except Exception as error:  # Python itself would end with 1, which means 'not complete'
        try:
            print(error, file=sys.stderr)
        finally:
            sys.exit(NO_ANSWER)
