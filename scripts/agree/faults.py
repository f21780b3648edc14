"""scripts/agree/faults.py: checks that the pages have the lines that the program prints for results and faults, and the
numbers of the faults.

The lines of results and errors are read from the sources (no case prints the errors of REAL), and the lines of other
faults from the cases.
"""
import re

import rust
from texts import finish, help_text, manual, only, printed, quoted, read, rows, rows_of, same, tokens

OPTION = r"(?<![^\s])(?:--?[a-zA-Z][-a-z]*|[a-z]+=)"
# These errors occur only on real chips, so flashnor(8) doesn't list them.
REAL = 1, 2, 13


def blank(text):
    """Returns a text with `_` in place of each number, placeholder and word in capitals (except before ` fault`)."""
    return re.sub(r"(0x)?\{[^}]*\}|\b0x\w+\b|\b[0-9a-f]{6}\b|\b\d+\b|\b[A-Z][A-Z0-9]*\b(?! fault)", "_", text)


def line_of(number, reason):
    """Returns the line of an error, with this number and this reason."""
    return f"Error {number}: {blank(reason)}."


def refusals(without=()):
    """Returns the lines of the errors in nor_request, except those with the numbers in `without`."""
    numbers, reasons = {}, {}
    for name, word in rust.arms(tokens("nor_request/src/refusal.rt"), "Refusal"):
        (reasons if word[0] == '"' else numbers)[name] = word.strip('"')
    left_out = {str(number) for number in without}
    return {line_of(numbers.get(name), reasons.get(name, "")) for name in {*numbers, *reasons}
            if numbers.get(name) not in left_out}


def take_lines(page):
    """Compares the lines of errors and other faults with the manual page, and checks the errors that README,
    flashnor(8) and flashnor-journal(5) show."""
    same("lines of errors", sources=refusals(REAL), pages={line_of(*row) for row in rows(page, "Refusals").items()})
    errors = refusals()
    fault = r"(?:Usage|Layout|File) fault (?:\d+|K)(?:: [^\"\n]*| at line \w+)?\."
    titles = " ".join(part.title for part in page if part.section == "ERRORS")
    same("lines of other faults", manual={blank(line) for line in re.findall(fault, titles)},
         cases={re.sub(r": .*\.$", ": _.", blank(line)) for line in re.findall(f"(?m)^{fault}$", printed())})
    shown = {"README": read("README.md"), "manual": " ".join(part.text for part in page),
             "journal": " ".join(part.text for part in manual("man/flashnor-journal.5"))}
    error = r"Error (\d+): ([a-zA-Z][a-zA-Z0-9 ,']*)\."
    only("errors shown", "sources", errors, **{
        name: {line_of(*found) for found in re.findall(error, " ".join(text.split()))} for name, text in shown.items()})


def take_answers():
    """Compares the lines of results with SPECIFICATION, and checks that the examples have no other such lines."""
    words = [token.text for token in tokens("nor_console/src/printing.rt")]
    lines = {words[at + 5].strip('"') for at in range(len(words)) if words[at : at + 3] == ["writeln", "!", "("]}
    inserted = "|".join(word[1:-1] for word in words if re.fullmatch(r'"[a-z]+"', word))

    def filled(line):
        return re.sub(rf"\b(?:{inserted})\b", "_", blank(line))
    jobs = [text for row in rows_of("docs/SPECIFICATION.md", "Job") for text in quoted(row[1])]
    # The format "{}{fault}" prints a fault after its cause, so it is no line of a result.
    answers = same("lines of results", program={filled(line) for line in lines} - {"__"},
                   SPECIFICATION={filled(line) for line in jobs})
    examples = "".join(re.findall(r"(?ms)^```$(.*?)^```$", read("README.md")))
    for path in ("man/flashnor.8", "man/flashnor-journal.5"):
        examples += "".join(re.findall(r"(?ms)^\.EX$(.*?)^\.EE$", read(path)))
    begun = "|".join({re.split(r"\W", line)[0] for line in lines} - {""})
    only("lines of results", "the program", answers, examples={
        filled(line) for line in re.findall(rf"(?m)^(?:{begun})\b.*", examples)})


def take_numbers(page):
    """Compares the numbers of each kind of flashnor's faults on its page with those in its source."""
    journal = manual("man/flashnor-journal.5")
    sfdp = [row[0] for row in rows_of("docs/SPECIFICATION.md", "SFDP fault")]
    for kind, path, found in (
            ("Usage", "nor_args/src/words.rt", rows(page, "Usage faults")),
            ("Layout", "nor_layout/src/fault.rt", rows(page, "Layout faults")),
            ("File", "nor_console/src/messages.rt", rows(page, "File faults")),
            ("SFDP", "nor_probe/src/sfdp.rt", sfdp),
            ("Journal", "nor_journal/src/fault.rt", rows(journal, "FAULTS"))):
        numbers = {str(number) for number in rust.numbers_of_variants(tokens(path))}
        same(f"numbers of {kind} faults", sources=numbers, page=found)


def take_options(page):
    """Checks that for each usage fault, the manual page names only options that the help names for this fault."""
    found = {name: {f"{number} {option}" for number, text in faults for option in re.findall(OPTION, text)}
             for name, faults in (("help", re.findall(r"(?m)^Usage fault (\d+): (.*)", help_text(None))),
                                  ("manual", rows(page, "Usage faults").items()))}
    only("options of usage faults", "help", found.pop("help"), **found)


def main():
    """Compares the lines of results and faults, the numbers of faults, and the options of usage faults."""
    page = manual("man/flashnor.8")
    take_lines(page)
    take_answers()
    take_numbers(page)
    take_options(page)
    finish()


if __name__ == "__main__":
    main()
