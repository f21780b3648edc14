"""Plants one error at a time in a copy of the pages and sources of flashnor-serprog. scripts/agree/hardware.py must
report each error, with a message that names it."""
import pathlib
import re
import shutil
import subprocess
import sys
import tempfile
import unittest

TOP = pathlib.Path(__file__).resolve().parent.parent.parent
PAGE, HELP, COMPLETION = "man/flashnor-serprog.8", "crates/serprog_runs/src/help.rt", "completion/flashnor.bash"
SOURCES = "crates/board_files crates/board_jobs crates/board_progress crates/flashnor_serprog crates/nor_args " \
    "crates/nor_console crates/nor_layout crates/nor_probe crates/nor_request crates/nor_serprog " \
    "crates/serprog_board crates/serprog_runs scripts man docs completion"
# Each plant has a file, a pattern whose first match is replaced, the new text, and the expected message.
PLANTS = {
    "an option that the page lacks": (
        PAGE, r"(?m)^\.TP\n\\fB\\-\\-quick\\fR\n(?:.*\n)*?(?=\.TP)", "", "sources has '--quick', manual hasn't"),
    "a value that the page names differently": (
        PAGE, r"(?m)^\\fB\\-\\-backup\\fR \\fIFILE\\fR$", r"\fB\-\-backup\fR \fINAME\fR",
        "manual has '--backup NAME', sources hasn't"),
    "an option that the synopsis lacks": (PAGE, r" \[\\fB\\-N\\fR\]", "", "sources has '-N', synopsis hasn't"),
    "an option of the table that the program lacks": (
        "crates/nor_args/src/options.rt", r'name != "rehearse"', 'name != "unlock"', "sources has '--rehearse"),
    "an option that the completion lacks": (
        COMPLETION, r" --noverify-all --quick --r", " --quick --r", "sources has '--noverify-all', completion hasn't"),
    "an option of flashnor in the completion": (
        COMPLETION, r"--quick --replaced", "--rehearse --quick --replaced",
        "completion has '--rehearse', sources hasn't"),
    "a file that the completion doesn't offer": (
        COMPLETION, r"-r \| --journal \| --backup \|", "-r | --journal |", "sources has '--backup', completion hasn't"),
    "another ID of a further chip": (
        "docs/SPECIFICATION.md", r"\| EF 60 17 \|", "| EF 61 17 |", "'EF 61 17', 8388608)', sources hasn't"),
    "a row that isn't asked for status 2": (
        "crates/serprog_board/src/board_bus.rt", r"    \[0xEF, 0x60, 0x17\],\n", "", "connect hasn't"),
    "a chip that the completion lacks": (
        COMPLETION, r" W25Q32JV-M", "", "sources has 'W25Q32JV-M', completion hasn't"),
    "another name that the list lacks": (
        "crates/serprog_runs/src/chip_list.rt", r"W25Q32CV, ", "", "('W25Q32FV', 'W25Q32CV')', list hasn't"),
    "another name in the list of another row": (
        "crates/serprog_runs/src/chip_list.rt", r"or W25Q32DW", "or W25Q64BV, W25Q32DW",
        "('W25Q32FW', 'W25Q64BV')', sources hasn't"),
    "a key that the completion lacks": (
        COMPLETION, "for key in dev spispeed cs", "for key in dev spispeed", "help has 'cs', completion hasn't"),
    "a key that the parser lacks": (
        "crates/serprog_board/src/setting.rt", '"cs" =>', '"ce" =>', "parser has 'ce', help hasn't"),
    "a key that the page lacks": (
        PAGE, r"(?m)^\.TP\n\\fBcs=(?:.*\n)*?(?=\.SS)", "", "help has 'cs=N', manual hasn't"),
    "another name in the help": (
        HELP, 'program: "flashnor-serprog"', 'program: "flashnor_serprog"', "help has 'flashnor_serprog', "),
    "another name of the installed program": (
        "scripts/archive/install.sh", r'(?<=/bin/)flashnor-serprog"\n', 'flashnor-ser"\n', "installer has 'flashnor-ser'"),
    "another version": (HELP, "flashnor-serprog 1.0:", "flashnor-serprog 1.1:", "help has '1.1', manual hasn't"),
    "another setting of the port": (
        "docs/HARDWARE.md", "min 0 time 50", "min 1 time 50", "HARDWARE has 'raw -echo clocal -hupcl min 1 time 50'"),
    "an error less": (PAGE, r"(?m)^13\t.*\n", "", "sources has 'Error 13: timeout at _.', manual hasn't"),
    "another text of an error": (PAGE, r"8\trange not", "8\trange never", "manual has 'Error 8: range never offered.'"),
    "another step": (
        "crates/board_progress/src/steps.rt", 'Step::Scan => "scan"', 'Step::Scan => "seek"',
        "sources has 'seek', manual hasn't"),
    "another text of a programmer fault": (
        "crates/nor_serprog/src/programmer.rt", "types of bus are", "buses are", "sources has 'the programmer"),
    "a text of a programmer fault less": (
        PAGE, r"T}\n\tT{\nthe programmer gave a wrong.*\n", "", "sources has 'the programmer gave"),
    "a usage fault that the program lacks": (PAGE, r"(?m)^10\tout of", "9\tout of", "manual has '9', sources hasn't"),
    "a file fault that the program lacks": (PAGE, r"4\tT\{\nexists", "6\tT{\nexists", "manual has '6', sources hasn't"),
    "a layout fault less": (PAGE, r"(?m)^8\ta name of.*\n", "", "sources has '8', manual hasn't"),
    "a chip fault less": (PAGE, r"(?m)^2\tmaybe\t", "6\tmaybe\t", "manual has '6', sources hasn't"),
    "a programmer fault that HARDWARE invents": (
        "docs/HARDWARE.md", "programmer fault 8", "programmer fault 18", "HARDWARE has '18', the program hasn't"),
    "another number of a programmer fault": (
        "crates/serprog_board/src/programmer_fault.rt", r"Version\(_\) => \(6", "Version(_) => (16",
        "sources has '16', manual"),
    "an exit status that the program lacks": (PAGE, r"(?m)^1\tThere was", "2\tThere was", "manual has '2'"),
    "an exit status less": (PAGE, r"(?m)^1\tThere was.*\n", "", "sources has '1', manual hasn't"),
}


class Plants(unittest.TestCase):
    """Tests on a copy of the files that scripts/agree/hardware.py reads, in which one error at a time is planted."""

    @classmethod
    def setUpClass(cls):
        folder = tempfile.TemporaryDirectory()
        cls.addClassCleanup(folder.cleanup)
        cls.tree = pathlib.Path(folder.name)
        for name in SOURCES.split():
            shutil.copytree(TOP / name, cls.tree / name, ignore=shutil.ignore_patterns("out", "__pycache__", "proofs"))

    def differences(self):
        """Runs scripts/agree/hardware.py, and returns its exit status and the lines that report differences."""
        words = ["env", "PYTHONPATH=scripts", sys.executable, "-B", "scripts/agree/hardware.py"]
        ended = subprocess.run(words, cwd=self.tree, capture_output=True, text=True, encoding="utf-8", check=False)
        return ended.returncode, [it for it in (ended.stdout + ended.stderr).splitlines() if "DIFFERS: " in it]

    def test_the_right_pages_pass(self):
        self.assertEqual(self.differences(), (0, []))

    def test_each_plant_is_refused(self):
        for name, (file, pattern, text, wanted) in PLANTS.items():
            path = self.tree / file
            right = path.read_text(encoding="utf-8")
            planted = re.sub(pattern, lambda _: text, right, count=1)
            with self.subTest(name):
                self.assertNotEqual(planted, right, f"{file} has no {pattern}")
                path.write_text(planted, encoding="utf-8")
                try:
                    status, lines = self.differences()
                finally:
                    path.write_text(right, encoding="utf-8")
                self.assertEqual(status, 1)
                self.assertTrue(any(wanted in it for it in lines), "\n".join(lines))


if __name__ == "__main__":
    unittest.main()
