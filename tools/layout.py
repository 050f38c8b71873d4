"""The files of an installation, and their paths below a prefix: what tools/install and tools/release have in common."""
import glob
import hashlib
import os
import re
import shutil
import subprocess
import tempfile
import textwrap
from concurrent.futures import ThreadPoolExecutor
from typing import Dict, Iterator, List, NamedTuple

from shared import ROOT, TOOL, Failed, content, crates_below, ran, step, write as write_file
from unproved import KIT, words_of_sources
import man_pages
from jagyerti.cli import completions, make_parser

# The one that takes longest to build is the first.
PROGRAMS = ("stream_sqlite", "stream_drain", "stream_run", "stream_top", "stream_fill", "stream_serve")
LIBRARY, SONAME = "redis_c", "libredis_c.so.0"
KIT_VERSION = ("rt", "version")
# Those that take options, and have --help and --version.
OPTIONED = PROGRAMS[:-1]
KEPT = f"{ROOT}/build"
PACKAGE = "lib/jagyerti"
DOC = "share/doc/jagyerti"
# In a program this text is followed by a text of 44 bytes, which --version prints without the spaces at its end.
MARK, ROOM = b"@jagyerti-build@", 44
EXPORTED = "{ global: redis_*; local: *; };\n"
UNITS = ("drain", "run")


class Entry(NamedTuple):
    """A file: its bytes and mode; or a link, and what it leads to."""

    data: bytes = b""
    mode: int = 0o644
    link: str = ""


Tree = Dict[str, Entry]


class Build(NamedTuple):
    """What is built: its version, whether it is proved, of which commit, and the time of that in seconds since 1970."""

    version: str
    is_proved: bool
    commit: str
    is_changed: bool
    time: int

    @property
    def text(self) -> str:
        commit = f"commit {self.commit[:12]}" if self.commit else "no commit"
        return f"{'proved' if self.is_proved else 'unproved'}, {commit}{', changed' if self.is_changed else ''}"


def read(path: str) -> bytes:
    return content(os.path.join(ROOT, path)) or b""


def describe_build(is_proved: bool) -> Build:
    version = read("VERSION").decode().strip()
    try:
        commit, time = ran(["git", "log", "-1", "--format=%H %ct"]).split()
        changed = bool(ran(["git", "status", "--porcelain"]).strip())
    except (Failed, OSError):
        commit, time, changed = "", "0", False
    return Build(version if is_proved else f"{version}+unproved", is_proved, commit, changed, int(time))


def is_current(path: str, crate: str) -> bool:
    """Whether a file is there, and was made after the sources of this crate and those below it."""
    sources = (file for each in crates_below(crate) for folder in ("src", "specs", "proofs")
               for file in glob.glob(f"{ROOT}/crates/{each}/{folder}/**/*.*t*", recursive=True))
    return os.path.isfile(path) and os.path.getmtime(path) >= max(map(os.path.getmtime, sources))


def build_programs(is_proved: bool) -> Dict[str, str]:
    """Builds the programs that are missing or older than their sources. Returns the path of each."""
    paths = {name: f"{ROOT}/crates/{name}/out/{name}" if is_proved else f"{KEPT}/{name}" for name in PROGRAMS}
    lacking = [name for name in PROGRAMS if not is_current(paths[name], name)]
    if lacking:
        how = "proves and builds these, which takes hours" if is_proved else "compiles these, which takes minutes"
        print(f"{TOOL}: {how}: {', '.join(lacking)}", flush=True)
    if lacking and not is_proved:
        done = subprocess.run([f"{ROOT}/tools/build-program", *lacking, KEPT], stdin=subprocess.DEVNULL, cwd=ROOT,
                              stderr=subprocess.PIPE, text=True, errors="replace", check=False)
        if done.returncode:
            raise Failed(f"tools/build-program: {done.stderr[-1500:]}")
    for name in lacking if is_proved else ():
        with step(f"{name} is proved and built"):
            ran(["rt", "run", "--", "--help"], f"{ROOT}/crates/{name}")
    return paths


def build_library(is_proved: bool) -> Dict[str, bytes]:
    """Returns the C library in its two forms, each with what it takes memory by: an archive and a shared library."""
    raw, into = f"{ROOT}/crates/{LIBRARY}/out/lib{LIBRARY}.a", f"{KEPT}/proved" if is_proved else KEPT
    archive, shared = f"{into}/lib{LIBRARY}.a", f"{into}/lib{LIBRARY}.so"
    if not is_current(archive, LIBRARY) or not is_current(shared, LIBRARY):
        os.makedirs(into, exist_ok=True)
        try:
            # (the programs take longer; if it is proved, over the libraries that the gate left, or over new ones)
            ran([f"{ROOT}/tools/build-c"] if is_proved else ["nice", "-n", "5", f"{ROOT}/tools/build-c", "--unproved"])
        except Failed:
            if not is_proved:
                raise
            ran(["rt", "lib"], f"{ROOT}/crates/{LIBRARY}")
        with tempfile.TemporaryDirectory(prefix="library-") as folder:
            script = f"create {archive}\naddlib {raw}\naddlib {KIT}/c/liblibc_c.a\nsave\nend\n"
            ran(["bash", "-c", f"{KIT}/toolchain/bin/llvm-ar -M < {write_file(f'{folder}/script', script)}"])
            ran(["strip", "--strip-debug", "--enable-deterministic-archives", archive])
            exported = write_file(f"{folder}/exported", EXPORTED)
            ran(["cc", "-shared", "-s", "-o", shared, f"-Wl,-soname,{SONAME}", "-Wl,--whole-archive", archive,
                 "-Wl,--no-whole-archive", f"-Wl,--version-script={exported}", "-Wl,-z,defs", "-Wl,-z,now"])
    return {f"lib{LIBRARY}.a": read(archive), SONAME: read(shared)}


def stamp(name: str, path: str, build: Build) -> bytes:
    """Returns a program without its symbols, in which the place for the build has this one's text."""
    with tempfile.TemporaryDirectory(prefix="stamp-") as folder:
        stripped = f"{folder}/{name}"
        ran(["strip", "-o", stripped, path])
        data = read(stripped)
        places = data.count(MARK)
        if places != (name in OPTIONED) or len(build.text) > ROOM:
            raise Failed(f"{name}: {places} places for the text '{build.text}'")
        at = data.find(MARK) + len(MARK)
        return data[:at] + build.text.encode().ljust(ROOM) + data[at + ROOM:] if places else data


def licences_of_kit() -> str:
    """Returns the licences of what the programs and the library are linked with, each text once."""
    words = [word for name in (*PROGRAMS, LIBRARY) for word in words_of_sources(name) if f"={KIT}/rattle/" in word]
    crates = sorted({word.partition(":")[0] for word in words})
    texts: Dict[str, List[str]] = {}
    for crate in crates:
        for path in sorted(glob.glob(f"{KIT}/rattle/{crate}/LICENSE*")):
            texts.setdefault(read(path).decode("utf-8", "replace").strip(), []).append(crate)
    head = f"The programs and the library have code of these crates of {ran(KIT_VERSION).strip()}: {', '.join(crates)}."
    line = "=" * 79
    return "\n".join([textwrap.fill(head, 79) + "\n\nEach licence is that of the crates that are named above it.\n",
                      *(f"{line}\n{', '.join(names)}\n{line}\n\n{text}\n" for text, names in texts.items())])


def make_tree(build: Build) -> Tree:
    """Builds what is missing, and returns all files of an installation."""
    for name, package in (("cc", "gcc"), ("strip", "binutils")):
        if shutil.which(name) is None:
            raise Failed(f"{name} is not installed: Debian's package {package} has it")
    with ThreadPoolExecutor(1 if build.is_proved else 2) as pool:
        building = pool.submit(step("the programs are there")(build_programs), build.is_proved)
        library = pool.submit(step("the C library is there")(build_library), build.is_proved).result()
        programs = building.result()
    with step("the man pages, completions and licences are made"):
        return tree_of(build, programs, library)


def tree_of(build: Build, programs: Dict[str, str], library: Dict[str, bytes]) -> Tree:
    tree = {f"bin/{name}": Entry(stamp(name, path, build), 0o755) for name, path in programs.items()}
    launcher = read("bin/jagyerti").replace(b'"python"', b'"lib"').replace(b" from a checkout", b"")
    tree["bin/jagyerti"] = Entry(launcher, 0o755)
    tree.update({f"lib/{name}": Entry(data) for name, data in library.items()})
    tree[f"lib/lib{LIBRARY}.so"] = Entry(link=SONAME)
    tree["include/redis_streams.h"] = Entry(read(f"crates/{LIBRARY}/redis_streams.h"))
    # (it is read at any prefix, and what is linked by it finds the library there)
    tree[f"lib/pkgconfig/{LIBRARY}.pc"] = Entry(fill_in("redis_c.pc", VERSION=build.version))
    for path in sorted(glob.glob(f"{ROOT}/python/jagyerti/**/*", recursive=True)):
        if path.endswith((".py", ".typed")):
            tree[f"{PACKAGE}/{os.path.relpath(path, f'{ROOT}/python/jagyerti')}"] = Entry(read(path))
    about = f'"""What was built."""\nVERSION = "{build.version}"\nBUILD = "{build.text}"\n'
    tree[f"{PACKAGE}/_build.py"] = Entry(about.encode())
    tree.update({path: Entry(text.encode()) for path, text in shell_files(build, programs)})
    tree.update({f"{DOC}/{name}": Entry(read(name)) for name in ("LICENSE", "CHANGELOG.md")})
    tree[f"{DOC}/THIRD-PARTY.txt"] = Entry(licences_of_kit().encode())
    return tree


def shell_files(build: Build, programs: Dict[str, str]) -> Iterator[tuple[str, str]]:
    """Yields the completions and the man pages, each with its path. Both have what the programs print at --help."""
    with tempfile.TemporaryDirectory(prefix="programs-") as folder:
        for name, path in programs.items():
            os.symlink(path, f"{folder}/{name}")
        os.environ["JAGYERTI_PROGRAMS"] = folder
        commands = list(completions.find_commands(make_parser()))
        yield "share/bash-completion/completions/jagyerti", completions.write_bash(commands)
        yield "share/zsh/site-functions/_jagyerti", completions.write_zsh(commands)
        yield "share/fish/vendor_completions.d/jagyerti.fish", completions.write_fish(commands)
        for name in OPTIONED:
            page = man_pages.write_of_help(name, completions.ask_help(name), build.version, build.time)
            yield f"share/man/man1/{name}.1", page
    for command in (command for command in commands if len(command.words) < 2):
        name = "-".join(["jagyerti", *command.words])
        yield f"share/man/man1/{name}.1", man_pages.write(name, command, build.version, build.time)


def fill_in(name: str, **values: object) -> bytes:
    text = read(f"tools/templates/package/{name}").decode()
    return re.sub(r"@([A-Z]+)@", lambda found: str(values[found[1]]), text).encode()


def units(prefix: str) -> Tree:
    names = [f"jagyerti-{name}@.service" for name in UNITS]
    return {f"lib/systemd/system/{name}": Entry(fill_in(name, PREFIX=prefix)) for name in names}


def describe_proofs(build: Build, tree: Tree) -> str:
    """Returns the text of PROVED.txt: what was proved, by what, and the sum of each file."""
    crates = "".join(f"\n  {crate}" for crate in sorted(crates_below(*PROGRAMS, LIBRARY)))
    what = f"Proved, and then built: {', '.join(PROGRAMS)}, lib{LIBRARY}; and these crates below them:{crates}"
    if not build.is_proved:
        what = ("Nothing of it was proved where it was built. It is compiled from the sources alone, with a trap at "
                "each\nsum that wraps and each index out of range.")
    sums = (f"{hashlib.sha256(entry.data).hexdigest()}  {path}\n" for path, entry in sorted(tree.items())
            if not entry.link)
    return (f"jagyerti {build.version} ({build.text})\n\ncommit  {build.commit or 'none'}\n"
            f"kit     {ran(KIT_VERSION).strip()}\n\n{what}\n\nThe SHA-256 of each file:\n{''.join(sums)}")


def write(tree: Tree, folder: str) -> None:
    """Writes the files below a folder. Each takes its place whole, also that of a program that is running."""
    for path, entry in tree.items():
        to = os.path.join(folder, path)
        os.makedirs(os.path.dirname(to), exist_ok=True)
        if entry.link:
            os.symlink(entry.link, f"{to}.new")
        else:
            write_file(f"{to}.new", entry.data, entry.mode)
        os.replace(f"{to}.new", to)
