"""Tests `make install` and `make dist`. tests/build/make.py runs these tests."""
import os
import re
import shutil

from tree import HARDWARE, MANUALS, PROGRAM, SOURCE


def installed(tree, expect):
    """Checks that `make install` installs both programs, built from the current sources, and the pages. If the build
    fails, or a source is edited during the build, it must install nothing. `make uninstall` must remove all files."""
    root = tree.work / "a root"
    program = root / "usr/local/bin/flashnor"
    install = ("install", f"DESTDIR={root}")
    tree.make()
    tree.edit()
    expect("the status of an install", tree.make(*install)[0], 0)
    for crate, name in (("flashnor", "flashnor"), ("flashnor_serprog", "flashnor-serprog")):
        expect(f"the {name} that is installed", tree.run(program.with_name(name))[1].strip(), str(tree.builds(crate)))
    named = set(re.findall(r"\bdocs/\w+\.md", "".join((tree.top / it).read_text(encoding="utf-8") for it in MANUALS)))
    pages = root / "usr/local/share/doc/flashnor"
    expect("the pages that the manual pages name", [it for it in named if not (pages / it).is_file()], [])
    tree.make("uninstall", f"DESTDIR={root}")
    expect("the files that an uninstall leaves", [str(it) for it in root.rglob("*") if not it.is_dir()], [])
    for way in ("fails", "edits"):
        (tree.work / way).touch()
        tree.edit()
        expect(f"an install where the build {way}", tree.make(*install)[0] != 0 and not program.exists(), True)
        (tree.work / way).unlink()


def packed(tree, expect):
    """Checks that an archive names the commit with which each of its programs was proved, and not a later commit."""
    def built(commit, *counts):
        return [["a kit", f"commit {commit}", str(count)] for count in counts]

    def counts():
        return tree.builds(), tree.builds("flashnor_serprog")

    first = tree.commit()
    tree.edit()
    expect("sources that aren't committed", tree.packed(), built(f"{first}-dirty", *counts()))
    second = tree.commit()
    tree.edit()
    tree.run("git", "checkout", "-q", "--", SOURCE)
    expect("sources that are committed", tree.packed(), built(second, *counts()))
    tree.edit("README.md")
    tree.commit()
    count, other = counts()
    expect("a later commit of a page", tree.packed(), built(second, count, other))
    tree.run("sh", "-c", "cd crates/flashnor && rt run")
    third = tree.run("git", "rev-parse", "HEAD")[1].strip()
    expect("a program that was built by hand", tree.packed(), built(third, count + 2) + built(second, other))
    (tree.top / PROGRAM.parent / "PROVED-WITH").unlink()
    expect("no page", tree.packed(), built(third, count + 3) + built(second, other))
    (tree.top / HARDWARE.parent / "PROVED-WITH").unlink()
    expect("no page of flashnor-serprog", tree.packed(), built(third, count + 3, other + 1))


def lacking(folder):
    """Returns the files that are missing in an archive, such as pages to which its pages link, and the files without a
    checksum."""
    needed = {"flashnor", "flashnor-serprog", "flashnor_serprog", "PROVED-WITH", "install.sh", "docs/README.md",
              "completion/flashnor.bash", *MANUALS}
    for page in folder.rglob("*.md"):
        links = re.findall(r"\]\(([^):#]+)[#)]", page.read_text(encoding="utf-8"))
        needed |= {os.path.relpath(page.parent / link, folder) for link in links}
    for page in MANUALS:
        text = (folder / page).read_text(encoding="utf-8") if (folder / page).exists() else ""
        needed |= {*re.findall(r"\bdocs/\w+\.md", text)}
    files = {str(it.relative_to(folder)) for it in folder.rglob("*") if it.is_file()} - {"SHA256SUMS"}
    summed = {line.split("  ", 1)[1] for line in (folder / "SHA256SUMS").read_text(encoding="utf-8").splitlines()}
    return sorted(needed - files) + sorted(files - summed)


def complete(tree, expect):
    """Checks that an archive has each page to which its pages link, and the licence if there is one."""
    folder = tree.archive()
    expect("what an archive lacks", lacking(folder), [])
    expect("a licence that isn't there", sorted(it.name for it in folder.glob("LICEN*")), [])
    shutil.rmtree(folder)
    tree.edit("LICENSE", "Free.\n")
    tree.edit("man/flashnor-journal.5", "See docs/MORE.md.\n")
    (tree.top / "docs/MORE.md").write_text("More.\n", encoding="utf-8")
    folder = tree.archive()
    expect("what an archive with a licence lacks", lacking(folder), [])
    expect("the new files of an archive", [(folder / it).is_file() for it in ("LICENSE", "docs/MORE.md")], [True, True])
    (tree.top / "docs/MORE.md").unlink()
    expect("an archive whose page is missing", tree.make("dist")[0] != 0, True)


def repeated(tree, expect):
    """Checks that two archives with equal programs and pages have equal bytes, even if times and permissions of the
    files differ. The installer of an archive must install what `make install` installs, and remove all of it."""
    tree.make()
    archive = tree.top / tree.make("dist")[1].splitlines()[-1]
    first = archive.read_bytes()
    (tree.top / "docs/FAQ.md").touch()
    (tree.top / "docs/FAQ.md").chmod(0o600)
    tree.run("sh", "-c", "umask 077; make dist")
    expect("a second archive", archive.read_bytes() == first, True)
    folder, root, other = tree.archive(), tree.work / "a root", tree.work / "another"
    tree.make("install", f"DESTDIR={root}")
    expect("the installer's status", tree.run("env", f"DESTDIR={other}", folder / "install.sh"), (0, ""))
    expect("what the installer installs", tree.run("diff", "-r", root, other), (0, ""))
    tree.run("env", f"DESTDIR={other}", folder / "install.sh", "--remove")
    expect("the files that it leaves", [str(it) for it in other.rglob("*") if not it.is_dir()], [])
