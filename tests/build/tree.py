"""Provides a copy of the repository for the tests of the Makefile, in a directory whose name has a space.

In this copy the command `rt` proves nothing. The programs that `rt run` builds print how many times they were built.
"""
import os
import shutil
import subprocess
from pathlib import Path

TOP = Path(__file__).resolve().parents[2]
PROGRAM = Path("crates/flashnor/out/flashnor")
SOURCE = Path("crates/nor_chip/src/lib.rt")
HARDWARE = Path("crates/flashnor_serprog/out/flashnor_serprog")
MANUALS = "man/flashnor.8", "man/flashnor-serprog.8", "man/flashnor-journal.5"
# This script replaces `rt`:
#
# - `rt try` prints what the crate's program must print, and ends with the right status, unless the script `as/CRATE`
#   says otherwise. It writes its arguments and its input to the directory `tried`. If only the help is requested, it
#   also links a program, as the real command does.
# - `rt check` fails if the file `refused/CRATE` exists.
# - `rt run` builds the program of the crate. It edits a source if the file `edits` exists, and fails if the file
#   `fails` exists.
RT = """#!/bin/sh
crate=${PWD##*/}
case $1 in
    version) echo 'a kit' ;;
    try)
        mkdir -p "$WORK/tried"
        echo "$*" > "$WORK/tried/$crate"
        cat > "$WORK/tried/$crate.stdin"
        [ ! -e "$WORK/as/$crate" ] || . "$WORK/as/$crate"
        [ "$*" != 'try -- -h' ] || (cd "$WORK/tried" && "${0%/bin/rt}/toolchain/bin/ld.lld" -o program)
        case $crate in
            rows) exit 6 ;;
            storm) echo '1 passed, 0 failed' ;;
            transcripts) echo "$(grep -c '^case ' "$WORK/tried/$crate.stdin") passed, 0 failed" ;;
            *) [ ! -e stdout ] || cat stdout ;;
        esac
        status=$(cat status 2> /dev/null || echo 0)
        echo "run=ended status=$status runners=1 proved=no" >&2
        exit $status ;;
    check)
        echo "$crate" >> "$WORK/checked"
        [ ! -e "$WORK/refused/$crate" ] || { echo "a goal of $crate"; exit 1; } ;;
    run)
        sleep 0.02
        echo "$crate" >> "$WORK/builds"
        mkdir -p out
        { echo '#!/bin/sh'; echo "echo $(grep -cx "$crate" "$WORK/builds")"; } > "out/$crate"
        chmod 755 "out/$crate"
        [ ! -e "$WORK/edits" ] || echo >> ../nor_chip/src/lib.rt
        [ ! -e "$WORK/fails" ] ;;
esac
"""
# This script replaces the kit's linker. The programs that it links print their arguments.
LINKER = """#!/bin/sh
printf '#!/bin/sh\necho "unproved: $*"\n' > program
chmod 755 program
"""


class Tree:
    """A copy of the repository, in which the scripts RT and LINKER replace `rt` and the linker."""

    def __init__(self, work):
        self.work = work
        self.top = work / "a tree"
        self.top.mkdir()
        names = subprocess.run(["git", "ls-files", "-z"], cwd=TOP, capture_output=True, check=True).stdout.split(b"\0")
        for name in map(os.fsdecode, names[:-1]):
            if (TOP / name).exists():
                (self.top / name).parent.mkdir(parents=True, exist_ok=True)
                shutil.copy2(TOP / name, self.top / name)
        (work / "bin").mkdir()
        (work / "bin/rt").write_text(RT, encoding="utf-8")
        (work / "bin/rt").chmod(0o755)
        self.put("toolchain/bin/ld.lld", LINKER, 0o755)
        self.env = {**os.environ, "WORK": str(work), "PATH": f"{work / 'bin'}:{os.environ['PATH']}"}
        for name in ("MAKEFLAGS", "MAKELEVEL", "MFLAGS", "DESTDIR", "PREFIX"):
            self.env.pop(name, None)
        self.run("git", "init", "-q")
        self.commit()

    def run(self, *words):
        """Runs a command in the copy, and returns its exit status and its output."""
        ran = subprocess.run(words, cwd=self.top, env=self.env, stdin=subprocess.DEVNULL, stdout=subprocess.PIPE,
                             stderr=subprocess.STDOUT, text=True, check=False)
        return ran.returncode, ran.stdout

    def make(self, *words):
        return self.run("make", *words)

    def commit(self):
        """Commits all files of the copy, and returns the hash of the commit."""
        self.run("git", "add", "-A")
        self.run("git", "-c", "user.name=a", "-c", "user.email=a@example.org", "-c", "commit.gpgsign=false",
                 "commit", "-q", "--allow-empty", "-m", "All")
        return self.run("git", "rev-parse", "HEAD")[1].strip()

    def builds(self, crate="flashnor"):
        """Returns the number of times that the program of this crate was built."""
        path = self.work / "builds"
        return path.read_text(encoding="utf-8").splitlines().count(crate) if path.exists() else 0

    def edit(self, path=SOURCE, text="\n"):
        with open(self.top / path, "a", encoding="utf-8") as it:
            it.write(text)

    def put(self, name, text, mode=0o644):
        """Writes a file below the directory of the test, with these permissions."""
        path = self.work / name
        path.parent.mkdir(parents=True, exist_ok=True)
        path.write_text(text, encoding="utf-8")
        path.chmod(mode)

    def would_build(self, *targets):
        """Returns those of the targets for which make would build a program first."""
        return [it for it in targets if "rt run" in self.make("-n", it)[1]]

    def archive(self):
        """Makes an archive, unpacks it, and returns the directory with its files."""
        self.run("tar", "-C", self.work, "-xf", self.make("dist")[1].splitlines()[-1])
        return next(self.work.glob("flashnor-*"))

    def packed(self):
        """Makes an archive. For each of its programs, returns the toolchain and the commit in PROVED-WITH, and the
        output of the program. If a checksum or a name is wrong, returns what sha256sum printed, and the names."""
        folder = self.archive()
        sums = self.run("sh", "-c", f"cd '{folder}' && sha256sum --check --quiet SHA256SUMS && grep '  ' PROVED-WITH | "
                                    "sha256sum --check --quiet")
        page = (folder / "PROVED-WITH").read_text(encoding="utf-8").splitlines()
        named = [page[at].partition("  ")[2] for at in (2, 5)]
        printed = [self.run(folder / name)[1].strip() for name in ("flashnor", "flashnor-serprog")]
        shutil.rmtree(folder)
        if sums != (0, "") or named != ["flashnor", "flashnor_serprog"]:
            return sums[1], named
        return [[*page[:2], printed[0]], [*page[3:5], printed[1]]]
