#!/usr/bin/env python3
"""tests/kill/lost.py PROGRAM LIBRARY [RUN [EVENT CHOICE]]: tests host crashes while flashnor works.

Each story of stories.py is a chip in files, with successive runs of PROGRAM on this chip. LIBRARY, the compiled cut.c,
records each change that a run makes to files, and each print. After each of these events the host crashes, and disk.py
computes what the disk may hold: nothing that wasn't synced, everything, or one of CHOICES random choices. These depend
only on SEED and on the name of the crash. An earlier run may have left writes unsynced, and these are included. Crashes
of a run that leave equal disks and must meet the same demands are tried once. After each crash, the test follows
RECOVERY in flashnor(8):

  - If the digest of the journal is right, `--restore` must end with status 0, and image and status must be as before
    the session. If one of these files didn't exist then, `--restore` may report that it has the wrong length. The test
    then moves the file away, and repeats the restore.
  - If the journal is incomplete or missing, `--restore` must report this, and image and status must be as before the
    session.
  - If the run printed `Done`, image and status must be as the run had to make them on every disk that is possible, and
    the journal must restore the original chip.

Exception: if another program left the chip's files unsynced, the first crashes of the run may lose them (`lose`). After
some crashes from which the journal restores the chip, and after some kills, the host also crashes after each event of
the restore. If WRONG names a mutant of cut.c and a chip was lost, the story ends before the next such restore. The last
line has the counts. The exit status is 1 if a chip was lost, a run failed without a crash, or there were too few
crashes.
"""
import collections
import concurrent.futures
import contextlib
import copy
import hashlib
import os
import random
import re
import shutil
import subprocess
import sys
import tempfile

from disk import Disk, picks_of, read_record
from stories import DONE, Step, images, stories

SEED = int(os.environ.get("SEED", "1"))
CHOICES = int(os.environ.get("CHOICES", "16"))
WRONG = os.environ.get("WRONG", "")
# The host also crashes during the restore after at most AGAIN crashes of each run of a story, and after at most AGAIN
# kills of this run.
AGAIN = 3
# These are the kinds of crashes. In a run of all stories without a mutant, each kind must occur, and there must be at
# least LEAST crashes.
KINDS = ("without a whole journal", "with one", "done")
LEAST = 3000
REFUSAL = re.compile(rb"Error 15: journal fault [1-7]\.\n")


class Lost(Exception):
    """A run failed without a crash, or its record is incomplete."""


def is_whole(journal):
    """Returns whether a journal has at least 61 bytes, and ends with the SHA-256 digest of all bytes before it."""
    return journal is not None and len(journal) > 60 and hashlib.sha256(journal[:-32]).digest() == journal[-32:]


def put_files(folder, files):
    for name, content in files.items():
        with open(os.path.join(folder, name), "wb") as it:
            it.write(content)


def files_of(folder):
    """Returns the contents of all files in a directory and below it, by their relative names."""
    found = {}
    for below, _, names in os.walk(folder):
        for name in names:
            path = os.path.join(below, name)
            with open(path, "rb") as it:
                found[os.path.relpath(path, folder)] = it.read()
    return found


def text_of(ended):
    return (ended.stdout + ended.stderr).decode(errors="replace").strip().replace("\n", " ")


class Bench:
    """A directory for the runs of a program, with the images that these runs write."""

    def __init__(self, program, library, folder):
        self.program, self.library, self.folder = os.path.abspath(program), os.path.abspath(library), folder
        put_files(folder, images(SEED))

    @contextlib.contextmanager
    def folder_with(self, files):
        """Makes a directory with these files and with the directories `chip` and `kept`, and removes it afterwards."""
        folder = tempfile.mkdtemp(dir=self.folder)
        for name in "chip", "kept":
            os.mkdir(os.path.join(folder, name))
        put_files(folder, files)
        yield folder
        shutil.rmtree(folder)

    def run(self, folder, words, **values):
        environment = {**os.environ, **values}
        try:
            return subprocess.run([self.program, *words], cwd=folder, env=environment, capture_output=True, timeout=300)
        except subprocess.TimeoutExpired as it:
            raise Lost(f"{' '.join(words)} doesn't come to an end") from it

    def record(self, folder, words):
        """Runs the program, and returns its result and the records that cut.c wrote (changes, syncs and prints)."""
        path = tempfile.mktemp(dir=self.folder)
        ended = self.run(folder, words, LD_PRELOAD=self.library, RECORD=path, WRONG=WRONG, CALL="0")
        return ended, read_record(path) if os.path.exists(path) else []


class Machine:
    """A host crash: its name (`place`), the files that it left, whether `Done` was printed before, and whether another
    program may have caused the state of the chip (`is_excused`)."""

    def __init__(self, place, files, is_done, is_excused):
        self.place, self.files, self.is_done, self.is_excused = place, files, is_done, is_excused

    def key(self):
        return tuple(sorted(self.files.items())), self.is_done, self.is_excused

    def kind(self, journal):
        return KINDS[2 if self.is_done else int(is_whole(self.files.get(journal)))]


class Run:
    """A run of a story, with the host crashes in it."""

    def __init__(self, bench, name, story, step, disk):
        self.bench, self.name, self.step, self.disk = bench, name, step, disk
        self.chip, self.is_story_old = story.chip, story.old is not None and step is story.steps[-1]
        self.made = set(self.chip.names()) - set(self.chip.files(step.before))
        self.is_done = self.has_written = False
        self.events = 0
        self.killed = []

    def machines(self):
        """Returns the host crashes after each event, without duplicates. Also stores the disk after each event while
        the chip's files are written (`killed`), as if the run had been killed then."""
        found = {}
        for _ in self.work():
            if self.has_written and not self.is_done:
                self.killed.append(copy.deepcopy(self.disk))
            for machine in self.lose():
                found.setdefault(machine.key(), machine)
        return list(found.values())

    def work(self):
        """Runs the step, and makes its recorded changes on the disk. Yields after each record, that is, each event."""
        with self.bench.folder_with(self.disk.seen()) as folder:
            ended, records = self.bench.record(folder, ["-p", self.chip.programmer + self.step.keys, *self.step.words])
            left = files_of(folder)
        said = text_of(ended)
        if self.step.end not in said:
            raise Lost(f"{self.name} ended with {ended.returncode}: {said}")
        for self.events, (what, name, at, content) in enumerate(records, 1):
            if what == "print":
                self.is_done = self.is_done or DONE.encode() in content
            else:
                self.disk.change(what, name, at, content)
                self.has_written = self.has_written or (what != "sync" and name in self.chip.names())
            yield
        if left != self.disk.seen():
            raise Lost(f"{self.name} left other files than its record says")

    def lose(self):
        """Yields the host crashes after the last event. If another program left the chip's files unsynced, the run must
        sync them before its journal is complete, and before it writes them. Until then, a crash may lose them
        (`is_excused`)."""
        for number in range(CHOICES + 2):
            place = [self.name, str(self.events), str(number)]
            files = self.disk.left(picks_of(number, random.Random(f"{SEED} {' '.join(place)}")))
            is_saved = is_whole(files.get(self.step.journal)) and "--restore" not in self.step.words
            yield Machine(place, files, self.is_done, self.is_story_old and not self.has_written and not is_saved)

    def problem(self, machine):
        """Returns a text that says how the chip is lost after this crash, or an empty string."""
        step, chip = self.step, self.chip
        difference = machine.is_done and chip.difference(machine.files, step.wanted)
        if difference:
            return f"Done was printed, and {difference}"
        with self.bench.folder_with(machine.files) as folder:
            ended = self.restore(folder)
            left = files_of(folder)
        difference = not machine.is_excused and chip.difference(left, step.before)
        is_saved = is_whole(machine.files.get(step.journal))
        is_right = not ended.returncode and not ended.stderr if is_saved else self.is_refused(ended)
        if is_right and not difference:
            return ""
        journal = "a whole" if is_saved else "no whole"
        return f"there is {journal} journal; --restore told '{text_of(ended)}'; {difference or 'the chip is as before'}"

    def is_refused(self, ended):
        unread = f"File fault 1: {self.step.journal}.\n".encode()
        is_told = REFUSAL.fullmatch(ended.stderr) or ended.stderr == unread
        return ended.returncode == 1 and not ended.stdout and is_told

    def restore(self, folder):
        """Runs the restore. If it reports the wrong length of a file that the session may have created, moves this file
        away and repeats the restore."""
        for _ in range(1 + len(self.made)):
            ended = self.bench.run(folder, ["-p", self.chip.programmer, "--restore", self.step.journal])
            short = [name for name in self.made if ended.stderr == f"File fault 3: {name}.\n".encode()]
            if not short:
                break
            os.rename(os.path.join(folder, short[0]), os.path.join(folder, short[0] + ".aside"))
        return ended

    def needs_restore(self, machine):
        is_saved = is_whole(machine.files.get(self.step.journal)) and not machine.is_done and not machine.is_excused
        return is_saved and self.chip.difference(machine.files, self.step.before)


def disk_of(files):
    """Returns a disk on which these files are durable."""
    disk = Disk()
    for name, content in files.items():
        disk.put(name, content)
    return disk


def runs_of(bench, story):
    """Yields the runs of a story, which follow one another on one disk."""
    chip = story.chip
    disk = disk_of(chip.files(story.start))
    journal = None
    for number, step in enumerate(story.steps, 1):
        if journal and step.journal != journal:
            disk.remove(journal)
        journal = step.journal
        if story.old and step is story.steps[-1]:
            leave_unsynced(disk, chip.files(story.old))
        yield Run(bench, f"lost/{story.name}/{number}", story, step, disk)


def leave_unsynced(disk, files):
    """Gives the files on the disk these durable contents. Programs still see the present contents, as if the present
    ones hadn't been synced."""
    for name, content in files.items():
        file = disk.file(name)
        disk.put(name, content)
        if file:
            disk.file(name).write(0, bytes(file.seen))
        else:
            disk.remove(name)


def runs_again(run, story, machines):
    """Yields restores after the run: after some of the crashes whose journal can restore the chip, and after some
    kills. A kill loses no writes, but leaves them unsynced."""
    step, chance = run.step, random.Random(f"{SEED} {run.name} again")
    undo = Step(["--restore", step.journal], "", step.journal, step.before, step.before, DONE)
    lost = [it for it in machines if run.needs_restore(it)]
    disks = [disk_of(it.files) for it in chance.sample(lost, min(AGAIN, len(lost)))]
    disks += chance.sample(run.killed, min(AGAIN, len(run.killed)))
    for number, disk in enumerate(disks, 1):
        for name in run.made & disk.seen().keys():
            if len(disk.seen()[name]) != run.chip.length(name):
                disk.remove(name)
        yield Run(run.bench, f"{run.name}/{number}", story, undo, disk)


class Account:
    """The counts of the crashes. If `place` is given, only the crashes at this place are tried: it has the name of a
    story or run, and maybe an event and a choice."""

    def __init__(self, pool, place):
        self.pool, self.place = pool, place
        self.kinds = collections.Counter()

    def is_asked(self, place):
        """Returns whether a crash at `place` is selected. A selected run includes the restores after it, unless an
        event is selected."""
        name, *rest = self.place or [""]
        is_below = not name or f"{place[0]}/".startswith(f"{name}/")
        return is_below and (not rest or [name, *rest] == place[: 1 + len(rest)])

    def fail(self, place, problem):
        self.kinds["lost"] += 1
        print(f"kill: {place}: {problem}", file=sys.stderr)

    def add(self, run):
        """Checks the selected crashes of a run, and prints the first one that loses the chip. Returns all crashes."""
        machines = run.machines()
        asked = [it for it in machines if self.is_asked(it.place)]
        first = None
        for machine, problem in zip(asked, self.pool.map(run.problem, asked)):
            self.kinds[machine.kind(run.step.journal)] += 1
            self.kinds["lost"] += bool(problem)
            first = first or problem and (" ".join(machine.place), problem)
        if first:
            print(f"kill: {first[0]}: the chip is lost: {first[1]}", file=sys.stderr)
            print(f"Run it again with: tests/kill/run.sh {run.bench.program} {first[0]}", file=sys.stderr)
        return machines

    def tell(self, bench, story):
        """Runs a story, and prints its counts. If a mutant lost a chip, the story ends before the next restore of
        `runs_again`, and prints no counts."""
        before, runs = self.kinds.copy(), 0
        for run in runs_of(bench, story):
            machines = self.add(run)
            runs += 1
            for again in runs_again(run, story, machines):
                if WRONG and self.kinds["lost"]:
                    return
                self.add(again)
                runs += 1
        new = self.kinds - before
        if new:
            print(f"lost/{story.name}: {runs} runs, {count(new)} machines, {new['lost']} lost", flush=True)


def count(kinds):
    return sum(kinds[it] for it in KINDS)


def main(program, library, *place):
    pool = concurrent.futures.ThreadPoolExecutor(os.cpu_count())
    account = Account(pool, list(place))
    with tempfile.TemporaryDirectory() as folder:
        bench = Bench(program, library, folder)
        for story in stories(SEED):
            if not place or f"{place[0]}/".startswith(f"lost/{story.name}/"):
                try:
                    account.tell(bench, story)
                except Lost as it:
                    account.fail(f"lost/{story.name}", it)
    kinds = account.kinds
    told = ", ".join(f"{kinds[it]} {it}" for it in KINDS)
    print(f"lost machines: {count(kinds)} ({told}; seed {SEED}), {kinds['lost']} lost the chip")
    is_much = place or WRONG or count(kinds) >= LEAST and all(kinds[it] for it in KINDS)
    return int(kinds["lost"] > 0 or not count(kinds) or not is_much)


if __name__ == "__main__":
    sys.exit(main(*sys.argv[1:]))
