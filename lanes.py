"""What the gate does in lanes: the wrong bodies of crates, side by side, in copies of the tree.

A lane is a copy, in which one command runs at a time, since the commands of the kit wait for each other in one tree. A
crate's untouched text is checked first, when all that it stands on is: where another crate whose wrong bodies are tried
stands on it, or its library is wanted besides, as that is built, and else those of its functions that have wrong
bodies. What that leaves in the crate's folder out/ is copied to the other lanes, as not every kit keeps it elsewhere.
Then its wrong bodies can be tried, in any lane.

What was seen refused is kept in the user's cache folder, where the untouched text checked again behind it: by checksums
of the edit, of all files of the repository that the check reads, and of wrong_bodies.py, which judges; and by the kit's
version. A later run on the same machine, in any checkout, takes it from there.

In the end it is said what each crate took, as it stands and of its wrong bodies, and which of these took the longest.
"""
import contextlib
import hashlib
import os
import re
import shutil
import subprocess
import tempfile
import threading
import time
from collections import Counter, namedtuple
from concurrent.futures import ThreadPoolExecutor

import wrong_bodies
from wrong_bodies import Trial, bytes_of, check, edits_of, functions_of, groups_of, in_its_place, is_proved
from wrong_bodies import read, run, say

DEAREST = 25  # how many wrong bodies are named at the end, with what each took
CHECKS = 2  # how many checks of a crate with wrong bodies one lane makes, where another lane can take the others
LANE_BYTES = 4 << 30  # what a check may take of memory
LANE_ROOM = 8 << 30  # what a lane may take of the disk
REASON = 240  # how many characters are said of why something wasn't done
DAYS = 30  # how long what was seen is kept where no run asks for it

Task = namedtuple("Task", "name waits work")  # waits: the names of tasks; work: what is done in a lane's folder


# Crates


def crates_of(root):
    """The repository's libraries that each crate of crates.txt names."""
    lines = [it.partition("#")[0].partition(":") for it in read(f"{root}/crates.txt").splitlines()]
    named = {head.split()[0]: deps.split() for head, colon, deps in lines if colon}
    return {name: [it for it in deps if it in named] for name, deps in named.items()}


def below(crates, name):
    """A crate and all that it stands on."""
    found, waiting = set(), [name]
    while waiting:
        it = waiting.pop()
        waiting += [] if it in found else crates[it]
        found.add(it)
    return found


def files_of(root, name):
    """The files that a check of a crate may read of its folder."""
    for at, folders, files in os.walk(f"{root}/crates/{name}"):
        folders[:] = sorted(it for it in folders if it not in ("out", "wrong", "must-fail"))
        yield from (f"{at}/{it}" for it in sorted(files))


def lines_of(root, name):
    return sum(read(it).count("\n") for it in files_of(root, name) if it.endswith((".rt", ".antt")))


def copied(root, to):
    """Copies what git tracks in this tree, and what it doesn't know and doesn't ignore."""
    words = ["git", "-C", root, "ls-files", "-z", "--cached", "--others", "--exclude-standard"]
    for file in subprocess.run(words, check=True, stdout=subprocess.PIPE).stdout.decode().split("\0"):
        if file and os.path.lexists(f"{root}/{file}"):
            os.makedirs(os.path.dirname(f"{to}/{file}"), exist_ok=True)
            shutil.copy2(f"{root}/{file}", f"{to}/{file}", follow_symlinks=False)


# What an earlier run saw


class Kept:
    """What runs on this machine saw refused: for each state of a crate a file with the checksums of its edits."""

    def __init__(self, root, names):
        cache = os.environ.get("XDG_CACHE_HOME") or os.path.expanduser("~/.cache")
        self.root, self.folder, self.crates = root, f"{cache}/sagthrey-gate", crates_of(root)
        self.version, self.one_at_a_time = run(["rt", "version"], root).said, threading.Lock()
        self.files = {it: f"{self.folder}/{it}-{self.state(it)}" for it in names}

    def state(self, crate):
        """A checksum of all that a crate's check rests on, and of how it is judged."""
        wanted = sorted(below(self.crates, crate))
        parts = [self.version.encode(), bytes_of(os.path.realpath(wrong_bodies.__file__))]
        lines = read(f"{self.root}/crates.txt").splitlines()
        parts += [it.encode() for it in lines if re.match(r"\w*", it)[0] in wanted]
        for file in (it for name in wanted for it in files_of(self.root, name)):
            parts += [os.path.relpath(file, self.root).encode(), bytes_of(file)]
        return hashlib.sha256(b"".join(hashlib.sha256(it).digest() for it in parts)).hexdigest()

    def seen(self, crate):
        """The checksums of the edits that were seen refused."""
        try:
            os.utime(self.files[crate])
            return set(read(self.files[crate]).split())
        except OSError:
            return set()

    def keep(self, crate, tried, refused):
        """Keeps that of the edits that were tried these were seen refused, and no others. A later run reads the whole
        file, or the one that was there."""
        try:
            os.makedirs(self.folder, exist_ok=True)
            with self.one_at_a_time:
                sums = sorted(self.seen(crate) - set(map(checksum, tried)) | set(map(checksum, refused)))
                with tempfile.NamedTemporaryFile("w", dir=self.folder, delete=False) as file:
                    file.writelines(f"{it}\n" for it in sums)
                os.replace(file.name, self.files[crate])
        except OSError as error:
            say(f"what was seen of {crate} isn't kept: {error}")

    def clear(self):
        """Lets go what no run has asked for in a long time."""
        for file in os.scandir(self.folder) if os.path.isdir(self.folder) else []:
            with contextlib.suppress(OSError):
                if file.stat().st_mtime < time.time() - DAYS * 86400:
                    os.remove(file)


def checksum(edit):
    return hashlib.sha256(edit.text.encode()).hexdigest()


# Lanes


def said_of(name):
    """A task's name in words: that of a crate, or of a part of its wrong bodies."""
    return name if isinstance(name, str) else f"{name[0]}, part {name[1] + 1} of its wrong bodies"


def reason_of(error):
    """Why files couldn't be written. Of a folder that was to be copied it is why the first of them couldn't."""
    return str(error.args[0][0][-1] if isinstance(error, shutil.Error) else error)[:REASON]


class Lanes:
    """Tasks that are done side by side, one at a time in each lane. One begins only where those that it waits for are
    done, and isn't done where one of them came to nothing. One whose files can't be written comes to nothing."""

    def __init__(self, tasks):
        self.waiting, self.given, self.changed = list(tasks), {}, threading.Condition()

    def next(self):
        """The first task that can begin, once there is one, or None where none is left."""
        with self.changed:
            while self.waiting:
                for task in self.waiting:
                    if all(it in self.given for it in task.waits):
                        self.waiting.remove(task)
                        return task
                self.changed.wait()
            return None

    def work(self, tree):
        while task := self.next():
            given = None
            try:
                given = task.work(tree) if all(self.given[it] for it in task.waits) else None
            except OSError as error:  # no room on the disk, say
                say(f"{said_of(task.name)}: it wasn't done: {reason_of(error)}")
            finally:
                with self.changed:
                    self.given[task.name] = given
                    self.changed.notify_all()

    def play(self, trees):
        with ThreadPoolExecutor(len(trees)) as pool:
            list(pool.map(self.work, trees))
        return self.given


def lanes():
    """How many checks are made side by side: GATE_LANES, or one for each processor for which there are memory, and room
    on the disk, where the copies of the tree lie."""
    memory = os.sysconf("SC_PAGE_SIZE") * os.sysconf("SC_PHYS_PAGES")
    free = shutil.disk_usage(tempfile.gettempdir()).free
    fit = min(len(os.sched_getaffinity(0)), memory // LANE_BYTES, free // LANE_ROOM)
    return max(1, int(os.environ.get("GATE_LANES") or fit))


def try_all(root, names, words, besides=()):
    """Tries the wrong bodies of these crates, or of all where none is named, and does what else is to be done in a
    lane: besides has a crate, a name, and a work that needs the crate proved. Returns how much passed, and what not."""
    with tempfile.TemporaryDirectory(prefix="gate-") as room:
        trees = [f"{os.path.realpath(room)}/{it}" for it in range(lanes())]
        copied(root, trees[0])
        for tree in trees[1:]:
            shutil.copytree(trees[0], tree, symlinks=True)
        say(f"copies of the tree: {len(trees)}")
        return WrongBodies(trees, names, words).play(besides)


def library(folder):
    """Builds a crate's library, for which it is proved."""
    return run(["rt", "lib", "--jobs", "1"], folder)


def parts_of(groups):
    """Groups shared out for lanes, in each the large ones first: what the last one edited is proved again behind it."""
    number = -(-len(groups) // CHECKS)
    return [sorted(groups, key=len, reverse=True)[at::number] for at in range(number)]


class WrongBodies:
    """The wrong bodies of crates, in copies of the tree: in parts, of which a lane takes one at a time."""

    def __init__(self, trees, names, words):
        self.trees, self.words, self.crates = trees, words, crates_of(trees[0])
        every = {it: edits_of(f"{trees[0]}/crates/{it}") for it in names or self.crates}
        self.edits = {crate: edits for crate, edits in every.items() if edits}
        self.kept = Kept(trees[0], self.edits)
        self.parts = {it: parts_of(groups_of(f"{trees[0]}/crates/{it}", self.unseen(it))) for it in self.edits}
        # processor seconds by a crate, as it stands and of its wrong bodies; seconds of the clock by a wrong body
        self.proved, self.tried, self.took = Counter(), Counter(), Counter()

    def unseen(self, crate):
        """A crate's wrong bodies that no earlier run saw refused, or all of them with --anew."""
        seen = set() if self.words else self.kept.seen(crate)
        return [it for it in self.edits[crate] if checksum(it) not in seen]

    def play(self, besides):
        trials = [(crate, number) for crate, parts in self.parts.items() for number in range(len(parts))]
        tasks = self.proofs({crate for crate, *_ in [*trials, *besides]}, {crate for crate, *_ in besides})
        tasks += [Task(name, [crate], work) for crate, name, work in besides]
        cost = lambda it: lines_of(self.trees[0], it[0]) * sum(map(len, self.parts[it[0]][it[1]]))
        for it in sorted(trials, key=cost, reverse=True):
            tasks.append(Task(it, it[:1], lambda tree, it=it: self.trial(tree, *it)))
        given = Lanes(tasks).play(self.trees)
        self.kept.clear()
        passed, lost = 0, []
        for crate, parts in self.parts.items():
            refused, let_through = self.outcome(crate, [given[crate, it] for it in range(len(parts))])
            passed, lost = passed + refused, lost + let_through
        for crate, name, _ in besides:
            held, unheld = given[name] or (0, [f"{name} ({crate} isn't proved)"])
            passed, lost = passed + held, lost + unheld
        self.tell_costs()
        return passed, lost

    def tell_costs(self):
        """Says what each crate took, and which wrong bodies took the longest, the dearest first."""
        for crate, seconds in (self.proved + self.tried).most_common():
            parts = f"as it stands {self.proved[crate]:.0f}, wrong bodies {self.tried[crate]:.0f}"
            say(f"{crate}: {seconds:.0f} processor seconds: {parts}")
        for name, seconds in (+self.took).most_common(DEAREST):
            say(f"{name}: {seconds:.0f} seconds of the clock")

    def proofs(self, crates, built):
        """The check of each crate that others wait for. Those come first that the most others stand on. The library is
        wanted of those that others of these stand on, and of those that are to be built."""
        needed = set().union(*(below(self.crates, it) for it in crates))
        above = Counter(it for crate in needed for it in below(self.crates, crate))
        work = lambda crate: lambda tree: self.proof(tree, crate, above[crate] > 1 or crate in built)
        return [Task(it, self.crates[it], work(it)) for it in sorted(needed, key=lambda it: (-above[it], it))]

    def proof(self, tree, crate, is_built):
        """Proves a crate as it stands, in one lane, and hands on what that leaves to the others, as not every kit keeps
        it elsewhere. Where its library is wanted, that is how it is built, once for all lanes: the kit proves what it
        builds, and a check before it would read all of it once more. Where it isn't, the functions are proved that its
        wrong bodies are of, and no others: that all are proved `rt ci` shows, in a whole run."""
        when, folder = "as it stands, so its wrong bodies and what stands on it aren't tried", f"crates/{crate}"
        edits = [it for part in self.parts.get(crate, []) for group in part for it in group]
        spots = functions_of(in_its_place(edits))
        ran = library(f"{tree}/{folder}") if is_built else check(f"{tree}/{folder}", spots)
        self.proved[crate] += ran.seconds
        if not is_proved(ran, crate, when):
            return False
        for other in self.trees if os.path.isdir(f"{tree}/{folder}/out") else []:
            if other != tree:  # under another name first, so that no command there sees the half of it
                shutil.copytree(f"{tree}/{folder}/out", f"{other}/{folder}/out.new", symlinks=True)
                os.rename(f"{other}/{folder}/out.new", f"{other}/{folder}/out")
        return True

    def trial(self, tree, crate, number):
        """Tries a part of a crate's wrong bodies. What it saw is kept where the untouched text checks behind them."""
        part = self.parts[crate][number]
        try:
            trial = Trial(tree, crate, self.words).play(part)
        except OSError:  # the half of a copy of out/ may stand there, and the next part makes it anew
            shutil.rmtree(f"{tree}/proved.{crate}", ignore_errors=True)
            raise
        refused = {it.name for it in trial.tried if it.verdict == wrong_bodies.WAS_REFUSED}
        if trial.holds:
            tried = [it for group in part for it in group]
            self.kept.keep(crate, tried, [it for it in tried if it.name in refused])
        return trial

    def outcome(self, crate, trials):
        """How many of a crate's wrong bodies the prover refuses, and which it doesn't, or so that it shows nothing."""
        earlier = len(self.edits[crate]) - sum(len(group) for part in self.parts[crate] for group in part)
        tried = [it for trial in trials if trial for it in trial.tried]
        lost = [f"{crate}/{it.name}" for it in tried if it.verdict == wrong_bodies.LET_THROUGH]
        lost += [] if all(it and it.holds for it in trials) else [f"{crate} (its untouched text)"]
        shown = [it for trial in trials if trial and trial.holds for it in trial.tried]
        refused = earlier + sum(it.verdict == wrong_bodies.WAS_REFUSED for it in shown)
        hollow = sorted(it.name for it in shown if it.verdict == wrong_bodies.SHOWS_NOTHING)
        lost += [f"{crate}/{it} (it shows nothing)" for it in hollow]
        self.tried[crate] = sum(it.seconds for it in trials if it)
        self.took.update({f"{crate}/{name}": it for trial in trials if trial for name, it in trial.took.items()})
        counts = Counter(it.said.partition(":")[0] for it in tried if it.verdict == wrong_bodies.WAS_REFUSED)
        how = [f"{earlier} by an earlier run", f"{counts['refused']} in company", f"{counts['alone']} alone"]
        how += [f"{counts['whole']} by rt must-fail", f"{self.tried[crate]:.0f} processor seconds"]
        say(f"{crate}: {refused} of {len(self.edits[crate])} wrong bodies refused ({', '.join(how)})")
        if hollow:
            say(f"{crate}: {len(hollow)} refused, which shows nothing of a contract: {' '.join(hollow)}")
        return refused, lost


def unknown(root, names):
    """The names that no crate has."""
    return sorted(set(names) - set(crates_of(root)))
