#!/usr/bin/env python3
"""The same by Dask: many_dask.py SCHEDULER build STORE... | many_dask.py SCHEDULER ask SQL STORE...

SCHEDULER is an address such as tcp://HOST:8786. Where a worker is lost, another runs its tasks."""
import logging
import os
import subprocess
import sys

from distributed import Client

sys.dont_write_bytecode = True
import merge  # noqa: E402
from plan import plan  # noqa: E402

CLUSTER = os.path.dirname(os.path.realpath(__file__))
TRIES, BUILD, TAKE = (CLUSTER + name for name in ("/few_tries", "/build_part", "/take_in"))
PINOT = os.environ.get("PINOT", CLUSTER + "/../dist/pinot")
logging.getLogger("asyncio").setLevel(logging.CRITICAL)  # tells of timeouts as a client closes


def run(folder, pinot, words):
    """On a worker, which has the same folder: a command's status, its output and its notes."""
    done = subprocess.run(words, cwd=folder, env={**os.environ, "PINOT": pinot}, check=False,
                          capture_output=True)
    return done.returncode, done.stdout.decode(), done.stderr.decode()


def run_all(client, commands):
    """The outputs of the commands. Ends here, when all have ended, if one of them failed."""
    ends = client.gather([client.submit(run, os.getcwd(), PINOT, words, pure=False)
                          for words in commands])
    if any(status for status, _, _ in ends):
        sys.stderr.write("".join(notes for status, _, notes in ends if status))
        sys.exit(max(status for status, _, _ in ends))
    return [text for _, text, _ in ends]


def main(scheduler, job, *words):
    with Client(scheduler, set_as_default=False) as client:
        if job == "build":
            shares = plan(words)
            names = [name for _, *share in shares for name in share]
            run_all(client, [(TRIES, BUILD, name) for name in names])
            print(len(names), "built")
            print("".join(run_all(client, [(TAKE, *share) for share in shares])), end="")
        else:
            sql, *stores = words
            part = merge.check(sql, stores, PINOT)
            answers = run_all(client, [(TRIES, PINOT, store, "query", part) for store in stores])
            print(merge.merge(sql, stores[0], answers), end="")


if __name__ == "__main__":
    main(*sys.argv[1:]) if sys.argv[2:3] in (["build"], ["ask"]) else sys.exit(__doc__)
