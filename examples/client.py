#!/usr/bin/env python3
"""A program that keeps its objects in a Voldaguz store, which runs beside it as a child process.

A line goes in, its answer comes out, and the next line is sent only then. Try it: examples/client.py FOLDER [TITLE]
"""
import json
import os
import subprocess
import sys

STORE = os.path.join(os.path.dirname(os.path.dirname(os.path.realpath(__file__))), "voldaguz")


class Refused(Exception):
    """A line was refused and changed nothing; its word says why."""


class Ended(Exception):
    """The store ended early. What was acknowledged is on the disk; of the line in question, all or nothing is."""


class Store:
    def __init__(self, folder, program=STORE):
        words = [program, "run", folder, "1"]
        self.process = subprocess.Popen(words, stdin=subprocess.PIPE, stdout=subprocess.PIPE)

    def __enter__(self):
        return self

    def __exit__(self, *error):
        self.close()

    def send(self, line):
        try:
            self.process.stdin.write(line.encode() + b"\n")
            self.process.stdin.flush()
        except OSError:
            raise Ended(f"status {self.process.wait()} before: {line}") from None

    def answer(self, line):
        said = self.process.stdout.readline()
        if not said.endswith(b"\n"):
            raise Ended(f"status {self.process.wait()} at: {line}")
        return said[:-1].decode()

    def call(self, line):
        """Carries out one line and returns its answer without the first word, which says what kind of answer it is."""
        self.send(line)
        kind, _, rest = self.answer(line).partition(" ")
        if kind == "refused":
            raise Refused(f"{rest}: {line}")
        return rest

    def show(self, name):
        """Returns the object that the name is bound to, as a dictionary."""
        self.send(f"show {name}")
        said = self.answer(f"show {name}")
        if said.startswith("refused "):
            raise Refused(said)
        return json.loads(said)

    def export(self):
        """Yields every stored object that the root reaches."""
        self.send("export")
        while not (said := self.answer("export")).startswith("end "):
            if said.startswith("refused "):
                raise Refused(said)
            yield json.loads(said)

    def close(self):
        """Ends the run and returns its status: 0 where all went well."""
        try:
            self.process.stdin.close()
        except OSError:
            pass
        return self.process.wait()


def main(folder, title="write a letter"):
    """Puts one more task in front of those that the folder has, and tells how many there are."""
    with Store(folder) as store:
        store.call("type Task text:title ref:next")
        store.call("new task Task")
        store.call(f"set task title {title}")
        try:
            store.call("home last")
            store.call("set task next last")
        except Refused:
            pass  # The root leads to nothing yet.
        store.call("root task")
        number, _, count = store.call("store root").partition(" ")
        tasks = sum(1 for _ in store.export()) - 1
    print(f"store {number} wrote {count} objects, tasks: {tasks}")


if __name__ == "__main__":
    main(*sys.argv[1:])
