"""scripts/agree/words.py [PROGRAM]: checks that the pages and the completion have the options, keys and chips of the
program, and that the pages have its version.

The script runs the completion. It doesn't check the options in the examples of README and of the manual page, because
`make runs` runs these examples.
"""
import pathlib
import re
import sys
import tempfile

from sources import TOP
from texts import cells_of, differs, finish, help_text, manual, only, printed, printed_by, quoted, read, rows_of, running
from texts import same, strings, tags, tokens

OPTION = r"(?<![^\s(`|])--?[a-zA-Z][-a-z]*"
COMPLETE = """COMP_WORDBREAKS=' ' COMP_LINE=$2 COMP_POINT=${#2} COMP_WORDS=($2) COMP_CWORD=$((${#COMP_WORDS[@]} - 1))
[[ $2 != *' ' ]] || { COMP_WORDS+=(''); COMP_CWORD=$((COMP_CWORD + 1)); }
. "$1"; cd "$0"; "_${3//-/_}"; printf '%s\\n' "${COMPREPLY[@]}" """


def completed(line, program="flashnor"):
    """Returns the words that the completion offers after this command line. The current directory contains only the
    directory `there`."""
    with tempfile.TemporaryDirectory() as folder:
        pathlib.Path(folder, "there").mkdir()
        file = TOP / "completion/flashnor.bash"
        said = printed_by("bash", "-c", COMPLETE, folder, file, f"{program} {line}", program)
    return set(said.split())


def in_bytes(text):
    """Returns the number of bytes in a size such as `64 KiB`."""
    number, unit = text.split()
    return int(number) * {"KiB": 1 << 10, "MiB": 1 << 20}[unit]


def sizes_in(text):
    """Returns the names in a text that are followed by a size in parentheses, each with its size in bytes."""
    return {(chip, str(in_bytes(size))) for chip, size in re.findall(r"(\w+) \((\d+ [KM]iB)", text)}


def take_options(told, page):
    """Compares the options and the names of their values."""
    listed = re.search(r"(?ms)^Options:\n(.*?)\n\n", told)[1]
    options = {" ".join(option).strip() for option in re.findall(r"(?m)^ +(-[-a-zA-Z]+)(?: <(.*?)>)?", listed)}
    synopsis = " ".join(part.text for part in page if part.section == "SYNOPSIS")
    synopsis = re.sub(r"(?m)^\.\S+|dummy:\S*", lambda it: "TEXT" if it[0][0] == "d" else "", synopsis)
    same("options", help=options, manual=tags(page, "OPTIONS"),
         synopsis=re.findall(r"-[-a-zA-Z]+(?: [A-Z][A-Z,.]*)?", " ".join(synopsis.split())))
    names = {option.split()[0] for option in options}
    same("all options", help=names, completion=completed("-"))
    offered = {name: completed(f"{name} ") for name in names}
    same("options with values", help={option.split()[0] for option in options if " " in option},
         completion={name for name in names if not any(word[0] == "-" for word in offered[name])})
    same("options with files", help={option.split()[0] for option in options if option.endswith(" FILE")},
         completion={name for name in names if "there" in offered[name]})
    flashrom = "docs/FLASHROM.md"
    ours = " ".join(cell for _, heads, column, cell in cells_of(flashrom) if heads[column] == "flashnor")
    ours += re.sub(r"(?m)^\|.*", "", read(flashrom)) + read("docs/SPECIFICATION.md") + read("docs/DECISIONS.md")
    only("all options", "help", names, manual=re.findall(OPTION, running(page)), help=re.findall(OPTION, told),
         pages=[option for text in quoted(ours) for option in re.findall(OPTION, text)])


def take_keys(told, page):
    """Compares the keys of `-p` and the names of their values."""
    keys = re.findall(r"(?m)^  ([a-z]+=[A-Z]+) ", told)
    same("keys with values", help=keys, manual=tags(page, "PROGRAMMER"))
    only("keys with values", "help", keys, FLASHROM=[
        text for _, heads, column, cell in cells_of("docs/FLASHROM.md") if heads[column] == "flashnor"
        for text in quoted(cell) if re.fullmatch(r"[a-z]+=[A-Z]+", text)])
    names = {key.partition("=")[0] for key in keys}
    words = [token.text for token in tokens("nor_args/src/flaws.rt")]
    same("keys", parser={word.strip('"') for word, after in zip(words, words[1:]) if word[0] == '"' and after in "=>|"},
         help=names, completion={word[len("dummy:") : -1] for word in completed("-p dummy:")})
    same("keys with files", help={key.partition("=")[0] for key in keys if key.endswith("=FILE")},
         completion={name for name in names if f"dummy:{name}=there" in completed(f"-p dummy:{name}=")})


def take_chips(told, page, program):
    """Compares the known and the emulated chips, and the names for `-c`."""
    cases, chip = printed(), r"(?m)^(\w+ [0-9a-f]{6} \d+)$"
    listed = printed_by(program, "-L") if program else cases
    table = [f"{name} {number.replace(' ', '').lower()} {in_bytes(size)}"
             for name, number, size, *_ in rows_of("docs/SPECIFICATION.md", "Name")]
    known = same("known chips", printed=re.findall(chip, listed), SPECIFICATION=table)
    names = {line.split()[0] for line in known}
    made = set(re.findall(r"emulate=(\w+)(?: -c \w+)?\nFound \w+ \(\w+\), (\d+) bytes", cases))
    same("emulated chips", printed=made, README=sizes_in(read("README.md")))
    same("emulated chips without a row", printed={(name, size) for name, size in made if name not in names},
         help=sizes_in(told), manual=sizes_in(running(page)))
    same("names of emulated chips", printed={name for name, _ in made},
         completion={word.partition("=")[2] for word in completed("-p dummy:emulate=")})
    same("names for -c", printed={"SFDP", *names}, completion=completed("-c "))


def take_versions(told):
    """Compares the version in the help with the sources, the Makefile, the manual and CHANGELOG. If Rattle's kit is
    installed, also checks that README names this kit (`rt version`) and its logic."""
    makefile = printed_by("make", "-s", "--no-print-directory", "--eval", "told: ; @echo $(VERSION)", "told")
    same("version", parser=re.findall(r"(?m)^flashnor ([\d.]+):", "\n".join(strings("nor_args/src/options.rt"))),
         help=re.findall(r"\Aflashnor ([^:]*):", told), Makefile=[makefile.strip()],
         manual=re.findall(r'(?m)^\.TH .*"flashnor ([^"]*)"', read("man/flashnor.8")),
         CHANGELOG=re.findall(r"(?m)^## \[(\d[^]]*)\] - \d{4}-\d\d-\d\d$", read("CHANGELOG.md"))[:1])
    try:
        kit = printed_by("rt", "version")
    except FileNotFoundError:
        return
    known = read("README.md")
    same("the kit's logic", rt=re.findall(r"logic (\w+)", kit), README=re.findall(r"logic `(\w+)`", known))
    if not set(re.findall(r"rattle-kit-\w+", kit)) <= set(re.findall(r"rattle-kit-\w+", known)):
        differs(f"kit: README doesn't name '{kit.strip()}'")


def main():
    """Compares options, keys, chips and versions."""
    program = next(iter(sys.argv[1:]), None)
    told, page = help_text(program), manual("man/flashnor.8")
    take_options(told, page)
    take_keys(told, page)
    take_chips(told, page, program)
    take_versions(told)
    finish()


if __name__ == "__main__":
    main()
