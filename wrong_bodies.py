"""Wrong bodies: edits of a crate's source that turn a function's meaning, and that the prover must refuse.

One is a file crates/CRATE/wrong/NAME.edit in the form of the kit's must-fail edits: a line 'file: PATH', then pairs of
lines 'old: TEXT' and 'new: TEXT'. A line 'breaks: GOAL' before them may say which goal it breaks, where the function's
proof file answers that, or which lemma there. They are tried by `rt check` and `rt must-fail` alone, in a copy of the
tree.

A body is checked against the contracts of what it calls and not against their bodies. So wrong bodies of different
functions stand in one check, of these functions alone. One counts as refused where its own function isn't proved
there, for a reason of its own and not only because of a function that it calls. What isn't seen so in company is tried
alone. What isn't seen so either, can't be read, or is in no function goes to the copy's must-fail/, and the kit says.
Where a check judges nothing, as one of its edits can't be read or it was cut off, each half of them is tried together.

That a proof file names what an edit took away, or that the borrow checker doesn't cover what it brings, says nothing of
the contract. Where there is no other reason, the wrong body is told apart, SHOWS NOTHING: it wants a form that keeps
the names and is covered. It is tried again in each run until it has one.

For a function that it refuses the prover works out what could be written in the function's proof file, which can take
as long again as the refusal. It doesn't where the file has a fault of its own. So in company each wrong body's function
has a proof file with a planted fault, which is no reason: there a function counts as refused where the prover says
which part of its contract isn't proved, or finds another fault in the file.

A goal that the proof file answers is judged by that answer, and each other one by the prover's tactics, which are tried
to their limits where there is no proof. So where a wrong body says which answer it breaks, in company its function has
no tactics, and it is refused there only by a fault in that answer that isn't one of names. Else it stands in company
once more, with tactics, as it does where that answer doesn't hold in the untouched text without tactics, which is seen
first.

The start of a check takes as long as several such refusals. So of a function's wrong bodies each further one stands in
the same check, where one can be made in a copy of the function under another name with copies of its proof files. That
it is refused for what it does, and not as a copy, is seen behind all of them: there a copy of the untouched text must
be proved with it. Where that isn't so, all are tried again without copies.

A check says when it is done with a function. So what each wrong body took is known, but for those that the kit judged.

Each check begins with what the crate's out/ held when its untouched text was proved, which is put back before it: else
the functions that an earlier check edited would be proved again, wherever they are called. (`rt must-fail` begins with
what the last check left.) So the untouched text of these functions must check before the first wrong body (lanes.py
sees to that) and, over what the last check left, behind it: else a check would refuse anything. Where the kit judged
one, which it does by the whole crate, all of the crate must check there.
"""
import contextlib
import os
import re
import shutil
import subprocess
import time
from collections import Counter, namedtuple

# How many wrong bodies stand in one check. Where there are many more (42 and not yet 31) the prover has copies of
# itself check them first, and what is refused there it checks once again.
MOST = 30
LAST = 40  # how many lines are printed of a check that should have passed
FUNCTION = re.compile(r'^([ \t]*)(?:pub(?:\([^)]*\))? )?(?:const )?(?:unsafe )?(?:extern "C" )?fn (\w+)', re.M)
NAME = re.compile(r"\bfn (\w+)")
OWN = re.compile(r'(?:pub(?:\([^)]*\))? )?(?:const )?(?:unsafe )?(?:extern "C" )?\bfn \w+')
OWNER = re.compile(r"^(?:unsafe )?impl\b([^{]*)\{|^(?:pub(?:\([^)]*\))? )?trait (\w+)", re.M)
ABOVE = re.compile(r"(?:^[ \t]*(?:#\[|///).*\n)*\Z", re.M)  # what is written before a function's head
TACTIC = re.compile(r"^[ \t]*#\[tactic\(.*\)\]\n", re.M)
ITEM = re.compile(r"^\s*(?:pub(?:\([^)]*\))? )?(?:struct|enum|impl|trait|mod|const|static|type|use)\b", re.M)
# What a check says: of a function, of a place in a function's proof file, of a goal in the source, and of a source that
# it can't read, where it judges nothing
VERDICT = re.compile(r"^fn (\S+): (?:no proof|not proved)(?![;:] it calls)")
FAULT = re.compile(r"^(?:\./)?proofs/(\S+)/(?:Answers|Invariants|Proof)\.antt:\d+:\d+: error: (?!`planted`)(`[^`]*`)?")
UNPROVED = re.compile(r"^note: (?:\./)?(src/\S+?):(\d+):(\d+): (?:it is not proved that|`search` found no proof)")
UNREAD = re.compile(r"^(?:\./)?(?:src|specs)/\S+?:\d+:\d+: error|\berror\[[\w-]+\]")
OF_A_FUNCTION = re.compile(r"^fn (\S+): ")  # a check that comes to its end says it of each
# A fault that is one of names, that follows from another, or that is no fault of what the function does; and where its
# line may be broken
HOLLOW = re.compile(
    r"has no field|is not in scope|has no `|was not admitted|which was rejected|borrow checker does not cover"
)
BROKEN = re.compile(rf"\n +(?={HOLLOW.pattern})")
PLANTED = "\nplanted : Type 0\nplanted = Type 0\n"  # it is refused: the type of a type isn't one of its own kind
CHECKED = re.compile(r"^checked \w+::(\S+), \d+ of \d+$")  # as it is done with a function, for good or ill
JUDGED = re.compile(r"^rt: (?:must-fail \w+|crates/\w+/must-fail)/(\S+?): (.*)$", re.M)
HOLLOW_VERDICT = re.compile(  # of a record without a field the kit gives the first line alone, where its line is broken
    rf"refused, as it must be(?: \(only because a proof file|: \S*proofs/.*(?:{HOLLOW.pattern}|record `.*` \(nearest:))"
)

# pairs: (file, old, new); spots: what it edits, as spot_at names it; breaks: the answer that it says it breaks, or "";
# own: of an edit of a copy the one of the function itself, else None
Edit = namedtuple("Edit", "name text pairs spots breaks own")
Tried = namedtuple("Tried", "name verdict said")
NO_REASONS = {}, {}
WAS_REFUSED, SHOWS_NOTHING, LET_THROUGH = "refused", "shows nothing", "let through"  # the verdicts
Ran = namedtuple("Ran", "status said seconds")


def say(text):
    print(f"gate: {text}", flush=True)


def read(file):
    with open(file, encoding="utf-8") as it:
        return it.read()


def bytes_of(file):
    """What a file holds, nothing where there is none."""
    if not os.path.isfile(file):
        return b""
    with open(file, "rb") as it:
        return it.read()


def write(file, text):
    with open(file, "w", encoding="utf-8") as it:
        it.write(text)


def run(words, folder, each=lambda line: None):
    """Runs a command to its end, and hands on each line: its status, what it said, and the processor seconds of it and
    of all that it waited for."""
    how = {"stdin": subprocess.DEVNULL, "stdout": subprocess.PIPE, "stderr": subprocess.STDOUT}
    lines = []
    with subprocess.Popen(words, cwd=folder, text=True, errors="replace", **how) as started:
        for line in started.stdout:
            lines.append(line)
            each(line)
        _, status, used = os.wait4(started.pid, 0)
        started.returncode = os.waitstatus_to_exitcode(status)
    return Ran(started.returncode, "".join(lines), used.ru_utime + used.ru_stime)


def known(words, folder):
    """Those of the words that this kit knows. One that keeps nothing between runs has no word to prove it anew."""
    helps = re.findall(r"--\w[\w-]*", run(["rt", "help"], folder).said) if words else []
    for it in (it for it in words if it not in helps):
        say(f"this kit has no word {it}, and isn't told it")
    return [it for it in words if it in helps]


class Laps:
    """The seconds of the clock that a check takes with each function: until it is done with it, since it was with the
    one before. The first one also has what the check takes before it."""

    def __init__(self):
        self.last, self.seconds = time.monotonic(), Counter()

    def __call__(self, line):
        if found := CHECKED.match(line):
            before, self.last = self.last, time.monotonic()
            self.seconds[found[1]] += self.last - before


def check(folder, spots=(), each=lambda line: None):
    """Checks a crate, or functions of it alone."""
    return run(["rt", "check", "--jobs", "1", *(word for spot in spots for word in ("--only", spot))], folder, each)


def is_proved(ran, crate, when):
    """Whether a check of a crate's untouched text passed. Where it didn't, no wrong body is shown to be refused."""
    if ran.status:
        print(*ran.said.splitlines()[-LAST:], sep="\n")
        say(f"{crate}: it doesn't check {when}")
    return not ran.status


# Which function an edit lies in


def owner_of(head):
    """What an impl block of these words is of: its type, and what the prover calls it, as Fault and FaultFromErrno. The
    block's own parameters aren't in that name."""
    said, own, depth = re.sub(r"\bwhere\b.*", "", head, flags=re.S).strip(), set(), 0
    for place, it in enumerate(said if said.startswith("<") else ""):
        depth += (it == "<") - (it == ">" and said[place - 1] != "-")
        if not depth:
            own = set(re.findall(r"[<,]\s*(?:const )?'?(\w+)", said[:place]))
            said = said[place + 1 :].strip()
            break
    trait, _, of = said.rpartition(" for ")
    name = re.match(r"(?:\w+::)*(\w+)", of.strip())[1]
    return name, name + "".join(it[0].upper() + it[1:] for it in re.findall(r"\w+", trait) if it not in own)


def module_of(file):
    """The path of the module that a file of src/ is."""
    module = re.sub(r"^src/|\.rt$", "", file).split("/")
    return [] if module in (["lib"], ["main"]) else module


def home_of(folder, name):
    """The path of the module that declares a type, where one of the crate does."""
    for at, _, files in os.walk(f"{folder}/src"):
        for file in files:
            if re.search(rf"^(?:pub(?:\([^)]*\))? )?(?:struct|enum) {name}\b", read(f"{at}/{file}"), re.M):
                return module_of(os.path.relpath(f"{at}/{file}", folder))
    return None


def spot_at(folder, file, text, at):
    """The function that a place of a source lies in, by its path below the crate as the prover writes it; where it lies
    in none, the file. On the line of a function's head an edit may bring others before it, which are passed over."""
    end = text.find("\n", at) % (len(text) + 1)
    heads = [it for it in FUNCTION.finditer(text) if it.start() <= end]
    if not heads or re.search(rf"^{heads[-1][1]}\}}$", text[heads[-1].start() : at], re.M):
        return file
    start = heads[-1].start()
    names = [it[1] for it in NAME.finditer(text, start, text.find("\n", start) % (len(text) + 1)) if it.start() <= at]
    module, owner = module_of(file), []
    blocks = [it for it in OWNER.finditer(text) if it.start() < start] if heads[-1][1] else []
    if blocks and blocks[-1][2]:
        owner = [blocks[-1][2]]
    elif blocks:
        name, called = owner_of(blocks[-1][1])
        home = home_of(folder, name)
        module, owner = module if home is None else home, [called]
    return "::".join([*module, *owner, [heads[-1][2], *names][-1]])


def spot_of_goal(folder, file, text, line, column):
    """The function that a place of a source lies in, or is in an attribute of."""
    at = len("".join(text.splitlines(True)[: line - 1]))
    head = FUNCTION.search(text, at)
    if head and text.startswith("#[", at + len(head[1])) and not ITEM.search(text[at : head.start()]):
        return spot_at(folder, file, text, head.start())
    return spot_at(folder, file, text, at + column - 1)


# Edits, and which of them stand in one check


def edits_of(folder):
    """The wrong bodies of a crate."""
    files = sorted(os.listdir(f"{folder}/wrong")) if os.path.isdir(f"{folder}/wrong") else []
    return [edit_of(folder, it, read(f"{folder}/wrong/{it}")) for it in files]


def edit_of(folder, name, text):
    """The edit of a file of this text."""
    breaks, *_ = [*re.findall(r"^breaks: (\S+)", text, re.M), ""]
    return Edit(name, text, pairs_of(text), spots_of(folder, pairs_of(text)), breaks, None)


def in_its_place(edits):
    """Edits of the functions themselves, in the place of those of copies."""
    return [it.own or it for it in edits]


def untouched(edit):
    """An edit of the same function that leaves its text as it is."""
    return edit._replace(pairs=[(file, old, old) for file, old, _ in edit.pairs[:1]])


def untouched_copies(folder, edits):
    """A copy of each function that these make copies of, with its own text."""
    firsts = {min(it.own.spots): it.own for it in edits if it.own}
    return [copy_of(folder, untouched(it), 2) for it in firsts.values()]


def pairs_of(text):
    """The (file, old, new) of an edit."""
    pairs, file, old = [], "", ""
    for line in text.split("\n"):
        if line.startswith("file: "):
            file = line[len("file: ") :].strip()
        elif line.startswith("old: "):
            old = line[len("old: ") :]
        elif line.startswith("new:"):
            pairs.append((file, old, re.sub(r"\A ", "", line[len("new:") :])))
    return pairs


def spots_of(folder, pairs):
    """What an edit edits: nothing where it can't be applied."""
    texts, spots = {}, set()
    for file, old, new in pairs:
        text = texts.get(file) or text_of(folder, file)
        if text.count(old) != 1:
            return set()
        spots.add(spot_at(folder, file, text, text.index(old)))
        texts[file] = text.replace(old, new)
    return spots


def text_of(folder, file):
    """What a file holds, nothing where there is none."""
    return read(f"{folder}/{file}") if os.path.isfile(f"{folder}/{file}") else ""


def edited(folder, edits):
    """The texts of the files that edits change together, or None where one can't be applied to what the others made."""
    texts = {}
    for edit in edits:
        for file, old, new in edit.pairs:
            texts[file] = texts.get(file) or text_of(folder, file)
            if texts[file].count(old) != 1:
                return None
            texts[file] = texts[file].replace(old, new)
    return texts


def is_of_functions(edit):
    return bool(edit.spots) and not any(it.startswith(("src/", "specs/", "proofs/")) for it in edit.spots)


def functions_of(edits):
    """The functions that edits are of, by their paths; none where one is in no function, which wants the whole."""
    return sorted(set().union(*(it.spots for it in edits))) if all(map(is_of_functions, edits)) else []


def text_in(text, head):
    """What stands of a function in a source: what is written before its head, its head's line, and the rest of it; or
    nothing where its end isn't found before another function's head."""
    above = ABOVE.search(text[: head.start()]).start()
    start = text.find("\n", head.end()) + 1
    end = re.search(rf"^{head[1]}\}}\n", text[start:], re.M)
    last = start + end.end() if end else 0
    is_whole = end and not FUNCTION.search(text, start, last)
    return (text[above : head.start()], text[head.start() : start], text[start:last]) if is_whole else None


def answers_of(folder, spot):
    """The file of a function's answers, or nothing where its proof isn't of the form that has one."""
    home = f"proofs/{spot.replace('::', '/')}"
    calls_itself = os.path.isdir(f"{folder}/{os.path.dirname(home)}/+{os.path.basename(home)}")
    return "" if calls_itself or os.path.isfile(f"{folder}/{home}/Proof.antt") else f"{home}/Answers.antt"


def copy_of(folder, edit, number):
    """An edit that makes a copy of its function, with its proof files, and edits that; None where that can't be: it is
    of several functions or brings one, or its function is one of a trait, or for C, or its proof has no such files."""
    file, spot = edit.pairs[0][0], min(edit.spots)
    text, name, answers = text_of(folder, file), spot.split("::")[-1], answers_of(folder, spot)
    heads = [it for it in FUNCTION.finditer(text) if spot_at(folder, file, text, it.end()) == spot]
    found = text_in(text, heads[0]) if len(heads) == 1 == len(edit.spots) else None
    owner = [it for it in OWNER.finditer(text) if it.start() < heads[0].start()][-1:] if found and heads[0][1] else []
    if not found or not answers or 'extern "' in found[1] or any(it[2] or " for " in it[1] for it in owner):
        return None
    above, head, rest = found
    body = f"{above}{re.sub(rf'fn {name}', f'fn {name}_{number}', head, count=1)}{rest}"
    for of, old, new in edit.pairs:
        if of != file or body.count(old) != 1 or "fn " in new.replace(old, ""):
            return None
        body = body.replace(old, new)
    pairs = [(file, above + head, f"{body}\n{above}{head}")]
    module = rf"\b(Rattle\.{os.path.basename(folder)}\.proofs\.{spot.replace('::', '.')})(?=\.)"
    for it in (answers, answers.replace("Answers", "Invariants")):
        if proof := text_of(folder, it):
            home, _, of = it.rpartition("/")
            pairs.append((f"{home}_{number}/{of}", "", re.sub(module, rf"\1_{number}", proof)))
    is_free = not text.count(f"fn {name}_{number}") and text.count(above + head) == 1
    return edit._replace(pairs=pairs, spots={f"{spot}_{number}"}, own=edit) if is_free else None


def groups_of(folder, edits, with_copies=True):
    """Edits that stand in one check, and what is in no function by itself. The functions with the most edits come
    first: of one function a check has another one in a copy alone, so where that can't be as many checks are made as
    these need before any is full."""
    groups, counts = [], Counter(spot for edit in edits for spot in edit.spots)
    for edit in sorted(edits, key=lambda it: -max((counts[spot] for spot in it.spots), default=0)):
        for group in groups if is_of_functions(edit) else []:
            others = [it for it in in_its_place(group) if edit.spots & it.spots]
            one = edit if not others else copy_of(folder, edit, len(others) + 1) if with_copies else None
            if one and len(group) < MOST and is_of_functions(group[0]) and edited(folder, [*group, one]):
                group.append(one)
                break
        else:
            groups.append([edit])
    return groups


# What a check says


def spot_of_fault(fault):
    """The function of a proof file. One that calls itself has its files in a folder of its name with a + before it."""
    return fault[1].replace("/", "::").replace("+", "")


def reasons_in(said, spot_at_goal, planted, silent):
    """By their functions, lines of what a check said: those that are a reason of the function's own not to be proved,
    and those that say nothing of its contract. Of a function with no tactics (silent has the name of an answer for it)
    only a fault of that answer counts. None where it couldn't read the texts, and so judged nothing."""
    lines = BROKEN.sub(" ", said).split("\n")
    found = lambda pattern: [it for it in map(pattern.match, lines) if it]
    if any(UNREAD.search(it) for it in lines) or not found(OF_A_FUNCTION):
        return None
    is_asked = lambda fault: silent.get(spot_of_fault(fault), fault[2]) == fault[2]
    faults = [(spot_of_fault(it), it.string) for it in reversed(found(FAULT)) if is_asked(it)]
    verdicts = {it[1].partition("::")[2]: it.string for it in found(VERDICT)}
    goals = {spot_at_goal(it[1], int(it[2]), int(it[3])): it.string for it in found(UNPROVED)}
    hollow = {spot: line for spot, line in [*verdicts.items(), *faults] if HOLLOW.search(line)}
    reasons = {spot: line for spot, line in verdicts.items() if spot not in planted | hollow}
    reasons |= {spot: line for spot, line in faults if not HOLLOW.search(line)}
    return reasons | {spot: line for spot, line in goals.items() if spot not in silent}, hollow


def fault_in(said):
    """The first error in what a check said, or its last line."""
    lines = said.splitlines() or ["which said nothing"]
    return next((it for it in lines if re.search(r"\berror[:[]", it)), lines[-1])[:240]


def planted_in(folder, spots, texts):
    """The texts of proof files with a fault, for functions whose proof is of the form that has such a file."""
    files = {it: answers_of(folder, it) for it in spots}
    return {it: (file, texts.get(file, text_of(folder, file)) + PLANTED) for it, file in files.items() if file}


def silenced(folder, texts, spots):
    """The texts with no tactics at these functions, in the place of what is said of tactics there."""
    made = {}
    for file, text in texts.items():
        for head in reversed([*FUNCTION.finditer(text)]):
            line = text.find("\n", head.end())
            if spot_at(folder, file, text, line) in spots:
                above = ABOVE.search(text[: head.start()]).start()
                said = TACTIC.sub("", text[above : head.start()])
                own = [*OWN.finditer(text, head.start(), line)][-1].start()  # behind what an edit brings before it
                text = f"{text[:above]}{said}{text[head.start() : own]}#[tactic(none)]\n{head[1]}{text[own:]}"
        made[file] = text
    return made


@contextlib.contextmanager
def in_place(folder, texts):
    """Puts texts in the place of a crate's own, and puts these back."""
    files = {f"{folder}/{file}": text for file, text in texts.items()}
    were = {file: read(file) for file in files if os.path.isfile(file)}
    try:
        for file, text in files.items():
            os.makedirs(os.path.dirname(file), exist_ok=True)
            write(file, text)
        yield
    finally:
        for file, text in were.items():
            write(file, text)
        for file in files.keys() - were.keys():
            os.remove(file)
            with contextlib.suppress(OSError):  # the folders that were made for it go too, up to one with other files
                os.removedirs(os.path.dirname(file))


class Trial:
    """What is made of groups of a crate's wrong bodies in a copy of the tree."""

    def __init__(self, tree, crate, words):
        self.tree, self.crate, self.folder, self.words = tree, crate, f"{tree}/crates/{crate}", words
        self.tried, self.holds, self.seconds, self.took = [], False, 0.0, Counter()  # took: seconds by an edit's name
        self.out, self.proved, self.is_left = f"{self.folder}/out", f"{tree}/proved.{crate}", False

    def counted(self, ran):
        self.seconds += ran.seconds
        return ran

    def tell(self, edit, verdict, said):
        self.tried.append(Tried(edit.name, verdict, said))
        print(f"wrong {self.crate}/{edit.name}: {said}", flush=True)

    def play(self, groups, with_copies=True):
        edits = in_its_place([it for group in groups for it in group])
        with self.out_kept():
            holding = self.answers_that_hold(edits)
            tried, rest = self.in_company(groups, holding, with_copies)
            left = [it for it in rest if not self.try_alone(it)]
            self.leave_to_the_kit(left)
            copies = untouched_copies(self.folder, tried)
            # the kit judges by the whole crate, so where it did that must check whole
            spots = [] if left else functions_of([*edits, *copies])
            with in_place(self.folder, edited(self.folder, copies)):
                ran = self.counted(check(self.folder, spots))
        if ran.status and copies:
            say(f"{self.crate}: copies of the untouched text don't check, so all are tried again, without copies")
            self.tried = []
            return self.play(groups_of(self.folder, edits, with_copies=False), with_copies=False)
        self.holds = is_proved(ran, self.crate, "again, behind its wrong bodies")
        return self

    def answers_that_hold(self, edits):
        """Those edits that say which answer they break, where it holds in the untouched text without tactics."""
        asked = [it for it in edits if it.breaks and is_of_functions(it)]
        firsts = [untouched(it) for it in {min(it.spots): it for it in asked}.values()]
        said = "".join(self.ran(firsts[at : at + MOST], plants=True)[0].said for at in range(0, len(firsts), MOST))
        faulty = {(spot_of_fault(it), it[2]) for it in map(FAULT.match, said.split("\n")) if it}
        judged = {it[1].partition("::")[2] for it in map(OF_A_FUNCTION.match, said.split("\n")) if it}
        holds = lambda it: all(spot in judged and (spot, f"`{it.breaks}`") not in faulty for spot in it.spots)
        for it in (it for it in asked if not holds(it)):
            say(f"{self.crate}: {it.name} says that it breaks {it.breaks}, which doesn't hold without tactics")
        return {it.name for it in asked if holds(it)}

    def in_company(self, groups, holding, with_copies):
        """Tries groups, and once more, with tactics, what says which answer it breaks and isn't seen refused. Returns
        all that was tried, and what isn't seen refused."""
        known = lambda it: it if it.name in holding else it._replace(breaks="")
        rest = [it for group in groups for it in self.try_together([known(it) for it in group])]
        again = [it._replace(breaks="") for it in in_its_place([it for it in rest if it.breaks])]
        more = groups_of(self.folder, again, with_copies)
        rest = [it for it in rest if not it.breaks] + [it for group in more for it in self.try_together(group)]
        return [it for group in [*groups, *more] for it in group], in_its_place(rest)

    @contextlib.contextmanager
    def out_kept(self):
        """Keeps aside what out/ holds, which is of the untouched text, and puts it back in the end."""
        shutil.copytree(self.out, self.proved, symlinks=True) if os.path.isdir(self.out) else os.mkdir(self.proved)
        try:
            yield
        finally:
            shutil.rmtree(self.out, ignore_errors=True)
            os.rename(self.proved, self.out)

    def put_back(self):
        """Puts back what out/ held, where a check has been since."""
        if self.is_left:
            shutil.rmtree(self.out, ignore_errors=True)
            shutil.copytree(self.proved, self.out, symlinks=True)
        self.is_left = True

    def try_together(self, group):
        """Tries edits in one check of their functions, and returns those that it doesn't show to be refused. Where it
        judges nothing, each half of them is tried so."""
        found = self.reasons(group, plants=True)
        if not found and len(group) > 1:
            middle = len(group) // 2
            return [*self.try_together(group[:middle]), *self.try_together(group[middle:])]
        reasons, _ = found or NO_REASONS
        for edit in (it for it in group if line_of(it, reasons)):
            self.tell(edit, WAS_REFUSED, f"refused: {line_of(edit, reasons)}")
        return [it for it in group if not line_of(it, reasons)]

    def try_alone(self, edit):
        """Tries an edit in a check of its functions, and returns whether that shows what there is to say of it."""
        reasons, hollow = self.reasons([edit], plants=False) or NO_REASONS
        if line_of(edit, reasons):
            self.tell(edit, WAS_REFUSED, f"alone: refused: {line_of(edit, reasons)}")
        elif line_of(edit, hollow):
            self.tell(edit, SHOWS_NOTHING, f"alone: SHOWS NOTHING: {line_of(edit, hollow)}")
        return bool(line_of(edit, reasons | hollow))

    def reasons(self, group, plants):
        """Why a check with these edits doesn't prove functions, as reasons_in has it; None where it judges nothing."""
        if not all(map(is_of_functions, group)):
            return None
        ran, laps, texts, planted, silent = self.ran(group, plants)
        self.took.update({it.name: sum(laps.seconds[spot] for spot in it.spots) for it in group})
        text = lambda file: texts.get(file) or text_of(self.folder, file)
        spot_at_goal = lambda file, *place: spot_of_goal(self.folder, file, text(file), *place)
        judged = lambda: reasons_in(ran.said, spot_at_goal, planted, silent)
        found = judged() if ran.status == 1 else None if ran.status else NO_REASONS
        if not found:
            what = f"status {ran.status}, {fault_in(ran.said)}"
            say(f"{self.crate}: a check of {len(group)} wrong bodies judged nothing: {what}")
        return found

    def ran(self, group, plants):
        """A check with these edits, what it took, its texts, the faults planted there, and the answers asked for."""
        texts, spots = edited(self.folder, group), functions_of(group)
        planted, laps = planted_in(self.folder, spots, texts) if plants else {}, Laps()
        silent = {spot: f"`{it.breaks}`" for it in group for spot in it.spots if it.breaks and spot in planted}
        texts = silenced(self.folder, texts, silent)
        self.put_back()
        with in_place(self.folder, texts | dict(planted.values())):
            ran = self.counted(check(self.folder, spots, laps))
        return ran, laps, texts, planted, silent

    def leave_to_the_kit(self, edits):
        """Tries edits by `rt must-fail`, with no others in must-fail/."""
        if not edits:
            return
        own, aside = f"{self.folder}/must-fail", f"{self.tree}/aside.{self.crate}"
        if os.path.isdir(own):
            os.rename(own, aside)
        os.mkdir(own)
        for it in edits:
            write(f"{own}/{it.name}", re.sub(r"^breaks: .*\n", "", it.text, flags=re.M))
        ran = self.counted(run(["rt", "must-fail", self.crate, *known(self.words, self.tree)], self.tree))
        shutil.rmtree(own)
        if os.path.isdir(aside):
            os.rename(aside, own)
        judged = dict(JUDGED.findall(ran.said))
        for it in edits:
            said = judged.get(it.name, f"rt must-fail ended with status {ran.status}, and said nothing of it")
            is_hollow = bool(HOLLOW_VERDICT.match(said))
            verdict = SHOWS_NOTHING if is_hollow else WAS_REFUSED if said.startswith("refused") else LET_THROUGH
            self.tell(it, verdict, f"whole: {'SHOWS NOTHING: ' * is_hollow}{said}")


def line_of(edit, lines):
    """The line that is said of an edit's function, or nothing."""
    return next((lines[it].removeprefix("note: ")[:240] for it in sorted(edit.spots) if it in lines), "")
