"""scripts/agree/hardware.py: checks that flashnor-serprog(8) has the options, keys, steps, errors and faults of the
program flashnor-serprog, and compares parts of the help, the completion, SPECIFICATION and HARDWARE with the sources.

What the program has is read from the sources. tests/serprog runs the examples of the manual page.
"""
import re

import rust
from faults import blank, line_of, refusals
from sources import CRATES
from texts import finish, manual, only, read, rows, rows_of, same, tags, tokens
from words import completed, in_bytes

NAME = "flashnor-serprog"
PAGE = "man/flashnor-serprog.8"
# Only flashnor-serprog prints the lines of these crates.
OWN = "board_progress", "board_files", "board_jobs", "serprog_board", "serprog_runs", "flashnor_serprog"
# This program can't cause these faults of an exchange and of a handshake, because it sends no frame that is too long,
# reports only the first failure, and reads through a bus that splits reads.
IMPOSSIBLE = "TooLong", "OutOfStep", "CutFrame", "ReadLimit"


def code(path):
    """Returns the text of a source below crates/."""
    return (CRATES / path).read_text(encoding="utf-8")


def codes(*crates):
    """Returns the text of all files of src/ of these crates."""
    return "".join(path.read_text(encoding="utf-8") for crate in crates
                   for path in sorted((CRATES / crate / "src").glob("**/*.rt")))


def options():
    """Returns the options of flashnor-serprog. Each has the list of its spellings, and the name of its value."""
    text = code("nor_args/src/options.rt") + code("nor_args/src/options/hardware.rt")
    left_out = re.findall(r'name != "([-a-z]+)"', text)
    renamed = dict(re.findall(r'self\.name == "([-a-z]+)" \{\s*option\.long\("([-a-z]+)"\)', text))
    table = re.findall(r"Choice \{\s*letter: (?:None|Some\('(\w)'\)),\s*name: \"([-a-z]+)\",\s*"
                       r"value: (?:None|Some\(\"([^\"]*)\"\))", text)
    found = [([f"-{letter}"] * bool(letter) + [f"--{renamed.get(name, name)}"], value) for letter, name, value in table
             if name not in left_out]
    made = re.search(r"(?s)fn make_hardware_options.*?\n}\n", text)[0]
    for name in re.findall(r"\.arg\((\w+)\(alloc\)\)", made):
        body = re.search(rf"(?s)fn {name}<.*?\n}}\n", text)[0]
        spellings = [f"-{it}" for it in re.findall(r"\.short\('(\w)'\)", body)]
        spellings += [f"--{it}" for it in re.findall(r"\.long\(\"([-a-z]+)\"\)", body)]
        found.append((spellings, "".join(re.findall(r"\.value_name\(\"(.*?)\"\)", body))))
    return found


def take_options(page):
    """Compares the options and the names of their values."""
    known = options()
    spelled = {f"{spelling} {value}".strip() for spellings, value in known for spelling in spellings}
    found = {it for tag in tags(page, "OPTIONS") for it in tag.split(", ")}
    same("options for hardware", sources=spelled, manual=found)
    synopsis = " ".join(part.text for part in page if part.section == "SYNOPSIS").replace(NAME, "")
    synopsis = re.sub(r"(?m)^\.\S+|serprog:\S*", lambda it: "TEXT" if it[0][0] == "s" else "", synopsis)
    same("options of the synopsis", sources={f"{it[0]} {value}".strip() for it, value in known},
         synopsis=re.findall(r"-[-a-zA-Z]+(?: [A-Z][A-Z,.]*)?", " ".join(synopsis.split())))
    names = {spelling for spellings, _ in known for spelling in spellings}
    offered = {name: completed(f"{name} ", NAME) for name in names}
    same("options that are completed", sources=names, completion=completed("-", NAME))
    same("options with values", sources={it for spellings, value in known if value for it in spellings},
         completion={name for name in names if not any(word[0] == "-" for word in offered[name])})
    same("options with files", sources={it for spellings, value in known if value == "FILE" for it in spellings},
         completion={name for name in names if "there" in offered[name]})


def take_chips(_):
    """Compares the rows of the table of chips, the names for `-c`, and the other names that `-L` lists."""
    text = code("nor_probe/src/table.rt")
    texts = dict(re.findall(r'ChipName::(\w+) => "([^"]+)"', text))
    table = [(texts[name], number.replace(", 0x", " "), int(size.replace("_", "")))
             for name, number, size in re.findall(r"winbond!\((\w+), \[0x([^]]+)\], ([\d_]+)\)", text)]
    listed = rows_of("docs/SPECIFICATION.md", "Name") + rows_of("docs/SPECIFICATION.md", "Further name")
    same("rows for hardware", sources=table, SPECIFICATION=[(row[0], row[1], in_bytes(row[2])) for row in listed])
    block = re.search(r"(?s)const WITH_ROW: .*?\n\];", code("serprog_board/src/board_bus.rt"))
    known = re.findall(r"\[0x(\w\w), 0x(\w\w), 0x(\w\w)\]", block[0] if block else "")
    same("chips with a row", sources={number for _, number, _ in table}, connect={" ".join(it) for it in known})
    others = code("nor_args/src/given/other_names.rt").partition("fn is_name_of")[2].split("ChipName::")[1:]
    names = [(texts[it.partition(" ")[0]], name) for it in others for name in re.findall(r'text == "(.*?)"', it)]
    same("names for -c for hardware", sources={"SFDP", *(row[0] for row in table), *(name for _, name in names)},
         completion=completed("-c ", NAME))
    listed = re.findall(r"(?m)^(W25Q\S+) .*\n((?:    .*\n)*)", code("serprog_runs/src/chip_list.rt"))
    same("other names of the rows", sources=names,
         list=[(row, name) for row, lines in listed for name in re.findall(r"W25Q[^\s,]+", lines)])


def take_keys(page):
    """Compares the keys of `-p` and the names of their values."""
    keys = re.findall(r"(?m)^  ([a-z]+=[A-Z]+) ", code("serprog_runs/src/help.rt"))
    same("keys for hardware", help=keys, manual=tags(page, "PROGRAMMER"))
    words = [token.text for token in tokens("serprog_board/src/setting.rt")]
    same("names of keys for hardware", help={key.partition("=")[0] for key in keys},
         parser={word.strip('"') for word, after in zip(words, words[1:]) if word[0] == '"' and after in "=>|"},
         completion={word[len("serprog:") : -1] for word in completed("-p serprog:", NAME)})
    names = [key.partition("=")[0] for key in keys]
    same("keys with files for hardware", help={name for name, key in zip(names, keys) if key.endswith("=PATH")},
         completion={name for name in names if f"serprog:{name}=there" in completed(f"-p serprog:{name}=", NAME)})


def take_names(page):
    """Compares the name of the program, its version, and the setting of the port."""
    text = code("serprog_runs/src/help.rt")
    same("name of the program", help=re.findall(r'program: "(.*?)"', text), definition=re.findall(
        r'(?m)^program = codes "(.*)"', (CRATES / "serprog_runs/specs/Run.antt").read_text(encoding="utf-8")),
         manual=[next(part.text for part in page if part.section == "NAME").split()[0]],
         completion=re.findall(r"(?m)^complete -F \w+ (\S+-\S+)$", read("completion/flashnor.bash")),
         installer=re.findall(r'(?m)^install .*/bin/(\S+-\S+)"$', read("scripts/archive/install.sh")))
    same("version for hardware", help=re.findall(rf'about: "{NAME} ([\d.]+):', text),
         manual=re.findall(r'(?m)^\.TH .*"flashnor ([^"]*)"', read(PAGE)),
         flashnor=re.findall(r'about: "flashnor ([\d.]+):', code("nor_args/src/options.rt")))
    modes = r"(?m)stty -F \S+ (raw .*?[0-9])(?:$|[`.])"
    same("setting of the port",
         sources=re.findall(r'STTY_ARGUMENTS: &str = "(.*)"', code("serprog_board/src/programmer_fault.rt")),
         help=re.findall(modes, text), manual=re.findall(modes, "".join(part.text for part in page)),
         HARDWARE=re.findall(modes, read("docs/HARDWARE.md")))


def take_lines(page):
    """Compares the lines of errors, of programmer faults and of progress."""
    same("lines of all errors", sources=refusals(), manual={line_of(*row) for row in rows(page, "Errors").items()})
    steps = re.findall(r'Step::\w+ => "(.*?)(?::.*?)?"', code("board_progress/src/steps.rt"))
    output = " ".join("".join(part.text for part in page if part.section == "OUTPUT").split())
    same("steps of a job", sources=steps, manual=re.search(r"each step \((.*?)\)", output)[1].split(", "))
    faults = code("serprog_board/src/programmer_fault.rt")
    derived = [(name, text) for path in ("link", "programmer") for text, name in re.findall(
        r'#\[error\("(.*?)"\)\]\s*(\w+)', code(f"nor_serprog/src/{path}.rt"))]
    known = {blank(text) for name, text in derived if name not in IMPOSSIBLE and text != "{0}"}
    known |= {f"_ {text}" for text in re.findall(r'device_row\(\s*\d+,\s*"(.*?)"', faults)}
    known |= {blank(text) for text in re.findall(r'"(the programmer .*?)"', faults)}
    shown = {blank(re.sub(r"\bXX(?=h\b)|text of the system", "{}", text)).removesuffix(".")
             for cell in rows(page, "Programmer faults").values() for text in cell.split("\v")}
    same("texts of programmer faults", sources=known, manual=shown)


def take_numbers(page):
    """Compares the numbers of each kind of fault, and the exit statuses."""
    faults, lines = code("serprog_board/src/programmer_fault.rt"), code("nor_console/src/messages.rt")
    named = dict(zip(re.findall(r"(?m)^    (\w+)(?: = 1)?,$", re.search(r"(?s)enum FileFault \{(.*?)\n\}", lines)[1]),
                     rust.numbers_of_variants(tokens("nor_console/src/messages.rt"))))
    used = set(re.findall(r"FileFault::(\w+)", codes("nor_console", *OWN)))
    found = {
        "Usage": re.findall(r"(?m)^Usage fault (\d+):", code("serprog_runs/src/help.rt")),
        "Layout": map(str, rust.numbers_of_variants(tokens("nor_layout/src/fault.rt"))),
        "File": {str(number) for name, number in named.items() if name in used},
        "Chip": re.findall(r"Chip fault (\d+)", codes(*OWN)),
        "Programmer": re.findall(r"(?:device_row|=> )\(\s*(\d+),", faults)}
    for kind, numbers in found.items():
        numbers = same(f"{kind} faults for hardware", sources=set(numbers), manual=rows(page, f"{kind} faults"))
        if kind in ("Chip", "Programmer"):
            only(f"{kind} faults for hardware", "the program", numbers, HARDWARE=re.findall(
                rf"(?i){kind} fault (\d+)", read("docs/HARDWARE.md")))
    most = int(re.search(r"ensures few \{ result ≤ (\d+) \}", code("serprog_runs/src/run.rt"))[1])
    same("exit statuses for hardware", sources=[str(status) for status in range(most + 1)],
         manual=rows(page, "EXIT STATUS"))


def main():
    """Compares everything that this script checks."""
    page = manual(PAGE)
    for take in take_options, take_chips, take_keys, take_names, take_lines, take_numbers:
        take(page)
    finish()


if __name__ == "__main__":
    main()
