"""Cases of -o, which logs a run to a file: the lines of the log, and the files that are refused."""
import fcntl
import os
import re

import reference
from bench import WAITING, check
from losses import session_wire
from options import images, last_lines
from terminal import Screen, logged, run, untimed, with_read_back

TIMED = re.compile(r"\d+\.\d{3} (.*)")
TAKEN = reference.FILE_HINTS[5]
INCOMPLETE = f"The log is incomplete, but the job went on. {reference.CAUSES['full']}"
SEALED = reference.sealed("j")
# `FIRST` is the first line of a log. An existing file is overwritten only if it is empty or begins with `BEGIN`.
BEGIN = "Log of flashnor-serprog"
FIRST = f"{BEGIN} 1.0"
EXPECTED = "The change takes T."
TOOK = "The change took M:SS."


def lines_of(bench, name="log"):
    """Returns the lines of a log after its first, which it checks. All bytes must be printable ASCII or newlines."""
    text = bench.path(name).read_bytes()
    check("bytes of the log that aren't printable", re.sub(rb"[ -~\n]", b"", text), b"")
    check("the end of the log", text[-1:], b"\n")
    first, *lines = text.decode().splitlines()
    check("the first line", first, FIRST)
    return lines


def split(lines):
    """Returns two lists: the lines of -V without their times, and the other lines."""
    timed = [found[1] for found in map(TIMED.fullmatch, lines) if found]
    return timed, [it for it in lines if not TIMED.fullmatch(it)]


def logs_a_run(start):
    """The log contains what is printed, the plain lines of the progress, and the lines of -V.

    Without -V, standard error stays empty.
    """
    old, new = images("logs_a_run")
    bench = start(data=old)
    bench.write("new", new)
    bench.write("log", FIRST.encode() + b"\nan old log, which is longer than the new one\n" * 999)
    plan = reference.session("TINY64", old, new)
    got = bench.run("-w", "new", "--journal", "j", "-o", "log")
    check("standard error", got.err, [])
    check("status", got.status, 0)
    timed, plain = split(lines_of(bench))
    check("lines of -V", timed, ["identify", "scan", *with_read_back(logged(bench.server.log)), "compare"])
    journal = 25 + 4 * 4100 + 36
    check("other lines", untimed(plain), [
        WAITING, "identify", "scan: sector 1 of 16",
        f"Sectors to change: 4. Erases: 3. Bytes of journal: {journal}.", EXPECTED, SEALED, "erase: 1 erase",
        "read back: 1 sector", "program: 1 page", *last_lines(plan), TOOK, "compare: sector 1 of 16",
        *got.out])
    check("the order of the lines", lines_of(bench)[:3], [WAITING, lines_of(bench)[1], "identify"])
    got = bench.run("--restore", "j", "--output=new log", "-V")
    check("lines of -V on the screen", got.err, [it for it in lines_of(bench, "new log") if TIMED.fullmatch(it)])
    check("the last lines", lines_of(bench, "new log")[-2:], got.out)
    bench.check_chip(old)


def logs_plain_lines(start):
    """The log contains the plain lines of the progress, whatever --progress shows at the terminal."""
    old, _ = images("logs_plain_lines")
    bench = start(data=old)
    bench.write("image", old)
    wanted = [WAITING, "identify", "scan: sector 1 of 16", reference.found("TINY64"), "Verified."]
    for mode in "auto", "plain", "none":
        status, printed, _ = run(bench, "-v", "image", "--progress", mode, "-o", "log")
        check("status", status, 0)
        check("lines that are shown", bool(printed), mode != "none")
        timed, plain = split(lines_of(bench))
        check("lines of -V", timed, ["identify", "scan"])
        check("other lines", plain, wanted)


def times_in(lines):
    """Returns the lines that say how long a change takes or took, in which `untimed` has replaced the times."""
    return [it for it in untimed(lines) if it.startswith("The change ")]


def logs_how_long_a_change_takes(start):
    """With each --progress, the log says how long a change will take and took. A terminal shows it only with `auto`."""
    old, new = images("logs_how_long_a_change_takes")
    bench = start(data=old)
    bench.write("new", new)
    for mode in "auto", "plain", "none":
        for words in ("-w", "new", "--journal", f"j{mode}"), ("--restore", f"j{mode}"):
            # Removes the log, because a restore appends to an existing log.
            bench.path("log").unlink(missing_ok=True)
            status, printed, _ = run(bench, *words, "--progress", mode, "-o", "log")
            check("status", status, 0)
            check("lines of the log", times_in(lines_of(bench)), [EXPECTED, TOOK])
            check("lines on the screen", times_in(Screen(printed).lines), [EXPECTED, TOOK] if mode == "auto" else [])
    # A restore with -N, which reads no sector before its change, also logs both times. A quick restore that changes
    # nothing logs no times, and a change that fails logs only the expected time.
    answer = lines_of(bench)[-2:]
    bench.path("log").unlink()
    bench.expect("--restore", "jauto", "-N", "-o", "log", out=answer)
    check("lines of the log", times_in(lines_of(bench)), [EXPECTED, TOOK])
    bench.path("log").unlink()
    got = bench.run("--restore", "jauto", "--quick", "-o", "log")
    check("status and lines of the log", (got.status, times_in(lines_of(bench))), (0, []))
    programs = [at for at, (out, _) in enumerate(session_wire(old, new), 1) if out[0] == 0x02]
    got = bench.run("-w", "new", "--journal", "k", "-o", "log", events={programs[2]: "nak"})
    check("status and lines of the log", (got.status, times_in(lines_of(bench))), (1, [EXPECTED]))


def logs_faults(start):
    """The log ends with the printed lines of a fault and its advice, even if the programmer can't be opened."""
    old, new = images("logs_faults")
    bench = start(data=old)
    bench.write("new", new)
    got = bench.run("-w", "new", "--journal", "j", "-c", "W25Q64FV", "-o", "log")
    check("status", got.status, 1)
    check("the last lines", lines_of(bench)[-len(got.err):], got.err)
    bench.check_absent("j")
    got = bench.run("-w", "new", "--journal", "j", "-o", "log", events={40: "nak"})
    check("the last lines", lines_of(bench)[-len(got.err) - 1:][1:], got.err)
    check("the line before", TIMED.fullmatch(lines_of(bench)[-len(got.err) - 1])[1], "stopped")
    bench.plug()
    bench.path("dev").unlink()
    got = bench.run("-r", "out", "-o", "log")
    check("the log", lines_of(bench), got.err)
    check("status", got.status, 1)


def logs_until_a_kill(start):
    """The log of a killed run contains a line for each modifying transaction that the programmer had carried out."""
    old, new = images("logs_until_a_kill")
    bench = start(data=old)
    bench.write("new", new)
    programs = [at for at, (out, _) in enumerate(session_wire(old, new), 1) if out[0] == 0x02]
    bench.run("-w", "new", "--journal", "j", "-o", "log", events={programs[2]: "kill"})
    timed, plain = split(lines_of(bench))
    sent = logged(bench.server.log)
    check("programs that were sent", sum(it.startswith("program ") for it in sent) >= 2, True)
    check("lines of -V", [it for it in timed if it not in ("identify", "scan", "read back")][: len(sent)], sent)
    check("the line before the change", SEALED in plain, True)


def needs_a_file_of_its_own(start):
    """If the log is the device, a file of the job, or the file of standard error, the run ends with file fault 5."""
    old, new = images("needs_a_file_of_its_own")
    bench = start(data=old)
    bench.write("new", new)
    bench.write("layout", b"0:ffff all\n")
    for name in "j", "new", "layout", "dev", "out":
        if name != "j":
            bench.path("link").unlink(missing_ok=True)
            os.symlink(name, bench.path("link"))
        for log in (name, f"./{name}") if name == "j" else (name, "link"):
            if name == "out":
                bench.write("out", b"old")
                words = ["-r", "out"]
            else:
                words = ["-w", "new", "--journal", "j", "-l", "layout", "-i", "all"]
            bench.expect(*words, "-o", log, err=[f"File fault 5: {log}.", TAKEN])
            bench.check_nothing_sent()
            bench.check_absent("j")
    bench.check_file("new", new)
    bench.check_file("layout", b"0:ffff all\n")
    bench.check_file("out", b"old")
    bench.server.begin({})
    with open(bench.path("errors"), "wb") as errors:
        process = bench.start(["-r", "out", "-o", "errors"], err=errors)
        process.communicate()
    check("status", process.returncode, 1)
    bench.check_file("errors", "".join(it + "\n" for it in reference.file_fault(5, "errors", "printed")).encode())
    bench.check_nothing_sent()


def overwrites_only_logs(start):
    """If the file for the log is neither empty nor a log, the run ends with file fault 4, and keeps the file."""
    old, new = images("overwrites_only_logs")
    bench = start(data=old)
    bench.write("new", new)
    for content in (reference.journal("TINY64", old, [1]), old, b"\xff" * len(old), b"\n", BEGIN[:-1].encode(),
                    b" " + FIRST.encode() + b"\n"):
        bench.write("log", content)
        for words in ("-w", "new", "--journal", "j"), ("-r", "out"), ():
            bench.expect(*words, "-o", "log", err=["File fault 4: log.", reference.IS_NO_LOG])
            bench.check_nothing_sent()
        bench.check_file("log", content)
        bench.check_absent("j")
        bench.check_absent("out")
    for content in b"", BEGIN.encode(), FIRST.encode() + b"\n" * 99:
        bench.write("log", content)
        bench.expect("--flash-size", "-o", "log", out=[str(len(old))])
        check("the last line", lines_of(bench)[-1], str(len(old)))
    bench.path("place").mkdir()
    for log, cause in ("place", "directory"), ("missing/log", "no directory"):
        bench.expect("-r", "out", "-o", log, err=reference.file_fault(2, log, cause))
        bench.check_nothing_sent()
    if os.geteuid():
        bench.path("place").chmod(0o555)
        bench.expect("-r", "out", "-o", "place/log", err=reference.file_fault(2, "place/log", "denied"))
        bench.path("place").chmod(0o755)


def waits_for_no_other_run(start):
    """If another process has locked the log, the run ends with file fault 5, and the log stays as it is."""
    bench = start()
    with open(bench.path("log"), "wb") as log:
        log.write(FIRST.encode() + b"\nanother run\n")
        log.flush()
        fcntl.flock(log, fcntl.LOCK_EX)
        bench.expect("-r", "out", "-o", "log", err=reference.file_fault(5, "log", "locked"))
    bench.check_nothing_sent()
    bench.check_file("log", FIRST.encode() + b"\nanother run\n")


def goes_on_without_its_log(start):
    """If the log can't be written, the run goes on with its job, and then ends with file fault 2."""
    old, new = images("goes_on_without_its_log")
    bench = start(data=old)
    bench.write("new", new)
    got = bench.run("-w", "new", "--journal", "j", "-o", "/dev/full")
    check("status and standard error", (got.status, got.err), (1, ["File fault 2: /dev/full.", INCOMPLETE]))
    check("the answer", got.out[-1].partition(":")[0], "Done")
    bench.check_chip(new)
    got = bench.run("-v", "new", "-c", "W25Q64FV", "-o", "/dev/full")
    check("the last lines", got.err[-2:], ["File fault 2: /dev/full.", INCOMPLETE])
    check("the first line", got.err[0], reference.OTHER_NAME[0])


def logs_only_jobs(start):
    """--check-journal, the help, the version, and a run with a usage fault create no log."""
    old, _ = images("logs_only_jobs")
    bench = start(data=old)
    bench.write("j", reference.journal("TINY64", old, [1]))
    for words in ("--check-journal", "j"), ("-h",), ("-R",), ("--flash-size", "-E", "--journal", "k"):
        got = bench.run(*words, "-o", "log")
        check("the output", bool(got.out or got.err), True)
        bench.check_absent("log")
        bench.check_nothing_sent()
    got = bench.run("-r", "missing/out", "-w", "x", "-o", "log")
    check("status", got.status, 1)
    bench.check_absent("log")


def logs_what_could_not_be_printed(start):
    """If standard output can't be written, the log still contains the result and the fault."""
    old, _ = images("logs_what_could_not_be_printed")
    bench = start(data=old)
    status, err = bench.run_unprinted("--flash-size", "-o", "log")
    fault = "File fault 2: standard output."
    check("status and standard error", (status, err[:1]), (1, [fault]))
    _, plain = split(lines_of(bench))
    check("the answer and the fault", [it for it in plain if it in ("65536", fault)], ["65536", fault])


CASES = [logs_a_run, logs_plain_lines, logs_how_long_a_change_takes, logs_faults, logs_until_a_kill,
         needs_a_file_of_its_own, overwrites_only_logs, waits_for_no_other_run, goes_on_without_its_log,
         logs_only_jobs, logs_what_could_not_be_printed]
