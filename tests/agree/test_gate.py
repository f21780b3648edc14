"""Tests the last lines and the exit status of the merge gate (.ci/run), in a copy whose parts are replaced by shell
commands."""
import os
import pathlib
import shutil
import subprocess
import tempfile
import unittest

TOP = pathlib.Path(__file__).resolve().parent.parent.parent
PASSED = "echo 20000 passed, 0 failed"
SKIPPED = "echo 'skipped: kill, since there is no C compiler (cc)'"
LEFT_OUT = "echo 'left out: a case (there is no setpriv)'; echo 20000 passed, 0 failed"


class Gate(unittest.TestCase):
    """Tests that run the gate. A part passes if the test doesn't replace it by other commands."""

    def run_gate(self, parts, **environment):
        """Runs the gate, with the shell commands in `parts` in place of the scripts of these names, and returns its
        exit status and the lines that it prints."""
        with tempfile.TemporaryDirectory() as folder:
            top = pathlib.Path(folder)
            (top / ".ci").mkdir()
            shutil.copy(TOP / ".ci/run", top / ".ci/run")
            for name in ("scripts/lint.sh", "scripts/agree.sh", "scripts/proved.sh", "tests/agree/run.py",
                         "tests/build/examples.py", "tests/build/make.py", "tests/build/clone.sh",
                         "tests/flashnor/run.py", "tests/sweep/run.sh", "tests/kill/run.sh",
                         "tests/played/self.py", "tests/played/run.py", "tests/serprog/self.py",
                         "tests/serprog/run.py", "tests/wire/self.py", "tests/wire/run.py"):
                self.put(top / name, "#!/bin/sh\n" + parts.get(name, PASSED))
            # The gate removes the program of the crate storm, and scripts/proved.sh builds it again.
            self.put(top / "scripts/proved.sh", "#!/bin/sh\nmkdir -p crates/storm/out && "
                                                f"cp tests/build/make.py crates/storm/out/storm\n{PASSED}")
            values = {name: value for name, value in os.environ.items() if name != "CI"}
            said = subprocess.run(["bash", top / ".ci/run"], env=values | environment, stdout=subprocess.PIPE,
                                  stderr=subprocess.STDOUT, check=False)
        return said.returncode, said.stdout.decode().splitlines()

    def put(self, path, content):
        path.parent.mkdir(parents=True, exist_ok=True)
        path.write_text(content, encoding="utf-8")
        path.chmod(0o755)

    def test_all_passed(self):
        for environment in {}, {"CI": "true"}:
            status, lines = self.run_gate({}, **environment)
            self.assertEqual((status, lines[-2:]), (0, ["320001 passed, 0 failed, 0 skipped", "320001 passed, 0 failed"]))

    def test_skipped_is_counted_and_fails_with_ci(self):
        parts = {"tests/kill/run.sh": SKIPPED, "tests/flashnor/run.py": LEFT_OUT}
        for environment, failed in ({}, 0), ({"CI": "true"}, 2):
            status, lines = self.run_gate(parts, **environment)
            counts = f"300001 passed, {failed} failed"
            self.assertEqual((status, lines[-2:]), (failed > 0, [f"{counts}, 2 skipped", counts]), lines)

    def test_failed(self):
        for said in ("echo kill: 19999 passed, 1 failed; exit 1", "echo 9 passed, 0 failed", "echo passed", "exit 1",
                     "echo 20000 passed, 0 failed; exit 1"):
            status, lines = self.run_gate({"tests/kill/run.sh": said})
            self.assertEqual((status, lines[-1].split()[2:]), (1, ["1", "failed"]), lines)


if __name__ == "__main__":
    unittest.main()
