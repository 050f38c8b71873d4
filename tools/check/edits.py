"""Wrong bodies, as tools/check/refused and tools/check/planted try them: each in a copy of its crate, where the prover
is asked for the functions that are named alone, and for those that they call. So what a body costs does not grow
with the crate. 'rt ci' would prove a crate once more for bodies in a folder must-fail/."""
import contextlib
import glob
import os
import re
import shutil
import subprocess
import tempfile
import threading

from shared import TOOL, fail, text_of as read, write
from unproved import KIT, ROOT, crate_of

PARTS = ("src", "specs", "proofs")
BUILDING = threading.Lock()
# What the prover says if it gives up at a limit of its own, which it meets wherever it tries the same.
LIMIT = re.compile(r"antt ran out of |outgrew the memory limit|stopped at the step limit")


class Unfit(Exception):
    """An edit that cannot be applied, or a library that is not proved."""


def shelves(name):
    found = {}
    for edit in sorted(glob.glob(f"{ROOT}/crates/*/{name}/*")):
        found.setdefault(edit.split("/")[-3], []).append(edit)
    return found


def chosen(shelf, crates):
    """Returns the part of a shelf that is of these crates, or all of it; ends with 2 if one of them has no bodies."""
    if not set(crates) <= set(shelf):
        fail(f"{', '.join(set(crates) - set(shelf))}: no crate with such bodies")
    return {crate: edits for crate, edits in shelf.items() if not crates or crate in crates}


def groups_of(bodies, is_apart):
    """Returns bodies in groups that are tried at once: each of a group is apart from the others of it."""
    groups = []
    for body in bodies:
        group = next((it for it in groups if all(is_apart(body, other) for other in it)), [])
        groups += [] if group else [group]
        group.append(body)
    return groups


def lanes():
    return int(os.environ.get("RT_JOBS") or len(os.sched_getaffinity(0)))


def edited(crate, edit, texts=None):
    """Returns the function that an edit names, if it names one, the texts of the files that it changes, and for each
    change the file and the place of it. `texts` are files that other edits changed before."""
    function, path, old, texts, sites = None, None, None, dict(texts or {}), []
    for line in read(edit).split("\n"):
        word, _, rest = line.partition(":")
        rest = rest[1:]
        if word == "function":
            function = rest.strip()
        elif word == "file":
            path = rest.strip()
            if not os.path.isfile(f"{ROOT}/crates/{crate}/{path}"):
                raise Unfit(f"there is no file {path}")
            texts.setdefault(path, read(f"{ROOT}/crates/{crate}/{path}"))
        elif word == "old":
            old = rest
        elif word == "more" and old:
            old += "\n" + rest
        elif word == "new" and path and old:
            if texts[path].count(old) != 1:
                raise Unfit(f"'{old}' is in {path} {texts[path].count(old)} times, and not once")
            sites.append((path, texts[path].index(old)))
            texts[path], old = texts[path].replace(old, rest), None
    if not sites:
        raise Unfit("it changes nothing")
    return function, texts, sites


def check_words(crate):
    """Returns the words by which the crate is checked over the built libraries below it, as 'rt check' does."""
    crate = crate_of(crate)
    with BUILDING:
        for below in crate.below():
            if not os.path.isdir(below.rlib) and subprocess.run(
                    ["rt", "lib"], cwd=below.folder, stdout=subprocess.DEVNULL).returncode:
                raise Unfit(f"the library {below.name} is not proved")
    return [f"{KIT}/bin/rattle", "check", *crate.words(["--jobs", "1"], keeps=False)]


def checked(crate, texts, functions, kept):
    """Checks these functions, or all if there are none, in a copy of the crate with these texts in place of its own,
    over what earlier checks left in the folder `kept`. Returns the lines that the check said, and its exit status."""
    with tempfile.TemporaryDirectory(prefix="rt-edit-") as copy:
        for part in PARTS:
            if os.path.isdir(f"{ROOT}/crates/{crate}/{part}"):
                shutil.copytree(f"{ROOT}/crates/{crate}/{part}", f"{copy}/{part}")
        for path, text in texts.items():
            write(f"{copy}/{path}", text)
        only = [word for function in functions for word in ("--only", function)]
        words = [*check_words(crate), "--incremental", kept, *only]
        ran = subprocess.run(words, cwd=copy, stdin=subprocess.DEVNULL, stdout=subprocess.PIPE,
                             stderr=subprocess.STDOUT, text=True, errors="replace")
        return ran.stdout.rstrip().split("\n"), ran.returncode


def module_of(path):
    """Returns the module that a file of src/ is, as the prover names it: '' is the root, and None is no module."""
    if not path.startswith("src/"):
        return None
    parts = path[len("src/"):-len(".rt")].split("/")
    return "" if parts in (["lib"], ["main"]) else "::".join(it for it in parts if it != "mod")


def functions_in(text):
    """Returns of each function of a file its name, the type of its impl if it has one, where it begins and ends."""
    found = []
    for head in re.finditer(r"(?m)^( *)(?:[a-z]+(?:\([a-z]+\))? |extern \"C\" )*fn (\w+)", text):
        end = re.compile(rf"(?m)^{head[1]}}}").search(text, head.end())
        owners = re.findall(r"(?m)^impl\b(?:<[^{]*?>)? (?:[^{]*? for )?(\w+)", text[:head.start()]) if head[1] else []
        if end:
            found.append((head[2], owners[-1] if owners else "", head.start(), end.end()))
    return found


def sources(crate):
    folder = f"{ROOT}/crates/{crate}"
    return [(os.path.relpath(f"{at}/{name}", folder), read(f"{at}/{name}"))
            for at, _, names in os.walk(f"{folder}/src") for name in names]


def size_of(crate):
    return sum(len(text) for _, text in sources(crate))


class Calls:
    """Which functions of a crate call which others, by the names in their texts. Names of several are passed over."""

    def __init__(self, crate):
        texts, several, self.reached = {}, set(), {}
        for _, text in sources(crate):
            for name, _, start, end in functions_in(text):
                several |= {name} & {*texts}
                texts[name] = text[start:end]
        words = {name: {*re.findall(r"\w+", text)} & {*texts} - several - {name} for name, text in texts.items()}
        for name in words:
            reached, more = set(), {name}
            while more:
                reached |= more
                more = {it for one in more for it in words[one]} - reached
            self.reached[name] = reached

    def are_apart(self, some, others):
        """Whether no function of one of these sets of names is in the other, or calls one of the other."""
        reach = lambda names: {it for name in names for it in self.reached.get(name, {name})}
        return not reach(some) & others and not reach(others) & some


# A function that a check did not prove. One that only calls such a one is not judged itself.
LOST = re.compile(r"fn (\S+): (?:not proved|no proof(?!: it calls ))")
TOLD = re.compile(r"(?:note: )?(?:\./)?(\S+?):(\d+):\d+: ")


def reasons(said):
    """Returns the reasons that a check gave why something is not proved: for each its file, its line, and the text."""
    found = [(TOLD.match(line), line) for line in said]
    return [(at[1], int(at[2]), line) for at, line in found
            if at and (": error" in line or "it is not proved" in line or line.startswith("note: "))]


def first_of(reasons):
    """Returns the first of some reasons; if they are only that a proof names what the edit took away, it says so."""
    names = re.compile(r"(note: )?(\./)?proofs/.*(has no field|is not in scope|has no `|was not admitted|depends? on)")
    first = next((line for _, _, line in reasons if not names.match(line)), "")
    if reasons and not first:
        return f"(only since a proof names what the edit took away) {reasons[0][2][:160]}"
    return first[:160]


def told_of(names, texts, told):
    """Returns those of the reasons that are of some functions: of each the file, which has its text here, and the name.
    If there is no reason in the file or beside it, those of all proofs of that name are returned."""
    lines = set()
    for path, name in names:
        for other, _, start, end in functions_in(texts[path]):
            if other == name:
                above = re.search(r"(?:^ *#\[.*\n)*\Z", texts[path][:start], re.M)
                lines |= {(path, texts[path].count("\n", 0, at) + 1) for at in range(above.start(), end)}
    folders = [("proofs/" + (module_of(path) or "").replace("::", "/"), f"/{name}/") for path, name in names]
    is_of = lambda it, tops: any(it[0].startswith(top) and name in it[0] for top, name in tops)
    return [it for it in told if it[:2] in lines or is_of(it, folders)] or [
        it for it in told if is_of(it, [("proofs/", name) for _, name in folders])]


def function_at(text, place):
    """Returns the name of the function in which this place of a file is, and the type of its impl if it is in one."""
    inside = [it for it in functions_in(text) if it[2] <= text.find("\n", place) + 1 and place < it[3]]
    return inside[-1][:2] if inside else (None, "")


def path_at(crate, path, place):
    """Returns the path, as the prover names it, of the function in which this place of a file is, or None. A method is
    named after the module of its type; in an impl of a trait, after its own, with the trait's name behind the
    type's."""
    module = module_of(path)
    text = read(f"{ROOT}/crates/{crate}/{path}") if module is not None else ""
    name, owner = function_at(text, place)
    if name is None:
        return None
    if owner:
        heads = [*re.finditer(r"(?m)^impl\b(?:<[^{]*?>)? (?:(?:\w+::)*(\w+)[^{\n]*? for )?\w+", text[:place])]
        declared = re.compile(rf"(?m)^(?:pub(?:\([^)]*\))? )?(?:struct|enum) {owner}\b")
        homes = {module_of(other) for other, whole in sources(crate) if declared.search(whole)}
        module = homes.pop() if not heads[-1][1] and len(homes) == 1 else module
        owner += heads[-1][1] or ""
    return "::".join(it for it in (module, owner, name) if it)


class Body:
    """A wrong body: the functions that it changes as the prover names them, their files and names; none if it changes
    something else, and names no function."""

    def __init__(self, shelf, edit):
        function, _, sites = edited(shelf.crate, edit)
        self.edit, self.exact, self.names = edit, {function} - {None}, set()
        # (what it changes may be used by the functions of others)
        self.is_alone = bool(function)
        for path, place in sites:
            module = module_of(path)
            name, owner = function_at(read(f"{ROOT}/crates/{shelf.crate}/{path}"), place) if module is not None else (
                None, "")
            known = {path_at(shelf.crate, path, place)} & {*shelf.functions}
            fits = [it for it in shelf.functions if it.startswith(f"{module}::" * bool(module))
                    and it.split("::")[-1] == name]
            own = [it for it in fits if not owner or it.split("::")[-2:-1] and it.split("::")[-2].startswith(owner)]
            if not (function or known or fits):
                self.exact, self.names = set(), set()
                return
            self.exact.update([] if function else known or own or fits)
            self.names.add((path, function.split("::")[-1] if function else name))


class Shelf:
    """The bodies of a crate, and what is proved of the crate as it is."""

    word = "refused"

    def __init__(self, crate, edits):
        self.crate, self.edits, self.left, self.room = crate, edits, len(edits), tempfile.mkdtemp(prefix=f"{TOOL}-")
        self.lock, self.is_whole, self.functions, self.calls = threading.Lock(), False, [], None

    def prove(self, functions):
        """Checks these functions of the crate as it is, or all of it if there are none."""
        said, status = checked(self.crate, {}, functions, f"{self.room}/kept")
        if status == 2 and functions:
            # (the prover gives one of them another name)
            self.is_whole = True
            return self.prove([])
        if status:
            raise Unfit("it is not proved as it is, so nothing was tried:\n" + "\n".join(said[-30:]))
        self.functions = re.findall(rf"(?m)^fn {re.escape(self.crate)}::(\S+): proved$",
                                    "\n".join(said)) or self.functions

    def begun(self, is_proved=False):
        """Proves what the bodies change, if it is not known to be proved. Returns why they cannot be tried, and the
        groups that are tried at once."""
        try:
            os.mkdir(f"{self.room}/kept")
            functions = set()
            for edit in self.edits:
                function, _, sites = edited(self.crate, edit)
                paths = {function} if function else {path_at(self.crate, path, place) for path, place in sites}
                functions |= paths if None not in paths else set()
            # (a crate whose bodies all change definitions is proved whole when the first of them is tried)
            if functions and not is_proved:
                self.prove(sorted(functions))
            self.calls = Calls(self.crate)
            return [], groups_of([Body(self, edit) for edit in self.edits], self.is_apart)
        except (Unfit, OSError) as why:
            self.left = 0
            return [(False, f"{TOOL} {self.crate}: {why}")], []

    def is_apart(self, body, other):
        """Whether no function of the body is one of the other, or calls one, or is called by one."""
        if any(it.is_alone or not it.exact for it in (body, other)):
            return False
        return self.calls.are_apart({name for _, name in body.names}, {name for _, name in other.names})

    def try_in(self, texts, functions):
        """Returns what the check of these functions said, and its status, over a copy of what is kept."""
        if not functions:
            with self.lock:
                if not self.is_whole:
                    self.prove([])
                    self.is_whole = True
        with tempfile.TemporaryDirectory(prefix=f"{TOOL}-") as room:
            with self.lock:
                shutil.copytree(f"{self.room}/kept", f"{room}/kept", symlinks=True, copy_function=linked)
            return checked(self.crate, texts, functions, f"{room}/kept")

    def try_group(self, group):
        """Tries a group at once. Returns of each body a line that it is refused, or None, and what the check said."""
        texts = {}
        for body in group:
            texts = edited(self.crate, body.edit, texts)[1]
        exact = sorted(set().union(*(body.exact for body in group)))
        said, status = self.try_in(texts, exact)
        if status != 1 or any(re.search(r"\berror\[[\w-]+\]", line) for line in said):
            return [None] * len(group), said
        lost, lines = {it[1] for it in map(LOST.match, said) if it}, []
        for body in group:
            where = [it for it in sorted(body.exact) if f"{self.crate}::{it}" in lost]
            why = first_of(told_of(body.names, texts, reasons(said)) or reasons(said))
            lines.append(f"{self.label(body)}: {self.word}, in {' '.join(where)}: {why}" if where else None)
        return lines, said

    def label(self, body):
        return f"{TOOL} {self.crate}/{os.path.basename(body.edit)}"


def linked(source, target):
    """Copies a file: what is proved as a second name of it, since a check replaces such a file and changes none."""
    with contextlib.suppress(OSError):
        if source.endswith(".oantt"):
            return os.link(source, target)
    return shutil.copy2(source, target)
