"""Lists what docs/STATEMENT.md and out/STATEMENT-FULL.md contain: contracts, names, appendices, and the order of
subjects.

The other scripts for these pages name no definitions. scripts/statement_page.md has the prose of STATEMENT.md.
"""
# STATEMENT.md may have at most this number of lines of definitions and contracts, without comments and blank lines.
MOST_LINES = 220

# STATEMENT.md has the contracts of these calls. Each has its file, and the names of those of its clauses that the page
# shows. The conditions that a caller must ensure (`requires`) are always included.
HEADLINE = {
    "session": "nor_session/src/sessions.rt keeps always modelled",
    "restore": "nor_session/src/restores.rt restores_original modelled",
    "Journal::read": "nor_journal/src/journal.rt found only",
}

# For each of these records, STATEMENT.md has only the given fields. STATEMENT-FULL.md has all fields.
FIELDS = {
    "VaultState": "telling bytes sealed",
    "BusState": "chip left honest sent steady",
    "SameNature": "honest steady config",
    "AtStop": "count read reached step chip none unsent",
    "Carries": "left step",
    "Does": "config bytes kept busy latch running",
    "SessionModelled": "errors done undo",
    "CanBeUndone": "accepted",
    "IsDone": "made code is_wanted kept",
}

# STATEMENT.md describes each of these definitions in one line. The appendices have the definitions themselves.
NAMES = {
    "Sent":
        "`Sent`: the transactions that `Records` adds, the last one first, each with all bytes that it was to send. "
        "No code can read or clear this list.",
    "Records":
        "`Records out answer result old new`: if `out` is empty or begins with 03h, 04h, 05h, 35h, 4Bh, 5Ah or 9Fh, "
        "`sent` doesn't change. Otherwise all of `out` is put in front of `sent`, even if the bus stopped.",
    "IsFresh": "`IsFresh vault`: the vault is unsealed, and has accepted no byte.",
    "Vault":
        "`Vault`: the trait of a vault. `put` appends a piece to `bytes`. Each failed call counts as a refusal. A "
        "`put` that fails appends only the first bytes of its piece: none, some or all.",
    "Kinds":
        "`Kinds`: `k32` says whether 52h erases 32 KiB, `k64` whether D8h erases 64 KiB.",
    "has_srp0": "`has_srp0 kept`: SRP0 is set.",
    "has_srp1": "`has_srp1 kept`: SRP1 is set.",
    "cmp_qe_srp1": "`cmp_qe_srp1`: CMP, QE and SRP1.",
    "lb3_to_reserved": "`lb3_to_reserved`: LB3, LB2, LB1 and the reserved bit.",
    "lb3_to_lb1": "`lb3_to_lb1`: LB3, LB2 and LB1.",
    "kept_in": "`kept_in status`: the non-volatile bits in two status bytes.",
    "srp0_bit": "`srp0_bit kept`: SRP0, as 0 or 1.",
    "lb3_to_srp1": "`lb3_to_srp1 kept`: the bits from LB3 down to SRP1, as a number.",
    "with_code": "`with_code code kept`: `kept`, but with the protection bits of `code`.",
    "is_chip_size": "`is_chip_size n`: `n` is a power of two from 64 KiB to 16 MiB.",
    "IsChip": "`IsChip chip`: bytes are below 256, status bits fit their registers, and `busy` is below 65,536.",
    "Command": "`Command`: what a transaction asks for.",
    "command_of":
        "`command_of config out replies`: the command for this opcode and these lengths. The command's address is "
        "the address sent, modulo the size, or for an erase the start of the block. The command is `Ignored` if "
        "SPECIFICATION.md's table lacks it, or if the chip lacks the erase type.",
    "determined":
        "`determined config out answer`: `answer`, or no byte if `command_of` is `Ignored` (any reply is possible).",
    "last_for":
        "`last_for at sent a`: the last byte of the data `sent` that goes to the address `a`, if any. The first byte "
        "of the data goes to `at`; the addresses wrap within the page.",
    "BusyAfter":
        "`BusyAfter chip command busy`: after a status write, program or erase, `busy` is any number below 65,536. A "
        "poll lowers `busy` by 1, if `busy` isn't 0. Other commands don't change `busy`.",
    "latch_after":
        "`latch_after chip command busy`: 06h sets WEL. 04h clears WEL, and so does an operation that leaves `busy` 0, "
        "or the poll that shows the last BUSY. Otherwise WEL doesn't change.",
        "running_after":
        "`running_after chip command`: the operation that this command begins or, if it begins none, the old one.",
    "is_idle": "`is_idle chip`: `busy` is 0.",
    "is_protected":
        "`is_protected chip a`: the chip has block protection, and its protection bits protect the address `a`.",
    "is_block_protected":
        "`is_block_protected chip start len`: the first or the last of the `len` addresses from `start` on is "
        "protected. If any of these addresses is protected, the first or the last is, because the protected addresses "
        "lie at one end of the chip.",
    "is_in_work":
        "`is_in_work running a`: `a` is in the page or block of a program or erase. `is_in_work` is true for "
        "`Unknown`, and false for a status write.",
    "KeptCut":
        "`KeptCut running old new`: `new` is `old` or, if a status write is cut, the bits before this write. If "
        "`Unknown` is cut, `new` may be anything.",
    "Stopped": "`Stopped`: what a failed transaction returns.",
    "SameNature":
        "`SameNature old new`: `honest`, `steady`, `punctual`, `unlimited`, `longer`, `further` and, if `honest`, the "
        "chip's `config` are the same.",
    "IsHonestFor":
        "`IsHonestFor out n bus`: the bus is well-behaved, and accepts a transaction of this length: `out` has at most "
        "260 bytes and `n` is at most 4,096 + `bus.longer`, or the bus is `unlimited`. No transaction of the engine "
        "sends more than 260 bytes or reads more than 4,096.",
    "IsGenuine":
        "`IsGenuine further config`: if the ID has a row (W25Q64FV, W25Q128FV or, if `further`, a further row), the "
        "size, erase types and block protection are those of the row. If the ID has no row, the chip has no block "
        "protection and, if its SFDP is accepted, the size and erase types in the SFDP.",
    "IsKnown":
        "`IsKnown further config`: the chip is genuine, and its ID isn't FF FF FF or 00 00 00. The ID has a row, or the "
        "chip's SFDP is accepted.",
    "unique_of": "`unique_of config`: the chip's unique ID.",
    "SavedSector": "`SavedSector`: the `number` of a saved sector, and its `bytes`.",
    "IsContent":
        "`IsContent c`: the ID has 3 bytes, a unique ID 8 and the status 2; `is_chip_size` holds for the size. The "
        "numbers of the saved sectors ascend and are below size / 4,096; each sector has 4,096 bytes.",
    "text":
        "`text c`: the bytes of the journal (flashnor-journal(5)).",
    "IsOfType": "`IsOfType journal config`: the journal has the chip's ID and size.",
    "is_saved": "`is_saved journal s`: the journal saves sector `s`.",
    "Saves":
        "`Saves old saved journal`: the journal is valid (`IsContent`), saves exactly the sectors of `saved`, and has "
        "the bytes of these sectors in `old`.",
    "is_known_running": "`is_known_running running`: the operation isn't `Unknown`.",
    "Journal": "`Journal`: a journal that was read; in contracts, a `Content`.",
    "JournalFault": "`JournalFault`: why bytes are no journal.",
    "What":
        "`What`: `Write`, `Erase`, or `WpRange start len`, which protects exactly the `len` addresses from `start` on "
        "(none if `len` is 0).",
    "Request":
        "`Request`: the change (`what`), the `included` spans (at most 64), the required name of the chip (`named`, "
        "if any), and the flags `verify` (requests *verify*) and `unlock` (permits *unlock*).",
    "is_requested":
        "`is_requested request size a`: the request is a write or an erase, and `a` is below `size` and in one of the "
        "included spans, if the request has any.",
    "target": "`target what image a`: the byte of the image at `a` for a write, FFh for an erase.",
    "code_of": "`code_of kept`: CMP (the highest bit), SEC, TB, BP2, BP1 and BP0 as a number.",
    "IsLeastCode":
        "`IsLeastCode size start len code`: `code` is the least number below 64 whose protection bits are defined (SEC "
        "is clear, or BP isn't 6) and protect exactly the `len` addresses from `start` on.",
    "Report":
        "`Report`: the chip found, and the counts of the call, which are right (`reported`). A session with nothing to "
        "change sent no modifying command (`unsent` of `IsDone`).",
    "Refusal": "`Refusal`: the errors of calls.",
    "refusal_number": "`refusal_number refusal`: the error's number.",
    "RefusalHolds":
        "`RefusalHolds further request image chip refusal`: the error is one of errors 1 to 10, and SPECIFICATION.md "
        "says that it applies to the request and the chip.",
    "CountsRefusal": "`CountsRefusal old new`: the vault refused a call between these states.",
    "SessionAlways":
        "`SessionAlways ..` includes: on every bus, an error from 1 to 11 leaves the vault unsealed (`answers`: "
        "`unsealed`), and after success the vault is sealed and refused no call (`ends`). By `undo`, the request of a "
        "session that succeeds on a modelled bus was accepted.",
    "RanOut":
        "`RanOut needed old new`: on a punctual bus no transaction is left, and fewer than `needed` were left before.",
    "most_of":
        "`most_of s`: 65,542 + 3 * s + 65,538 * (17 * s + 2), a bound on the transactions of a call that may touch `s` "
        "sectors.",
    "RestoreModelled":
        "`RestoreModelled ..`, among others: an error of a restore is the restore's verdict or, if the bus stopped "
        "(`RanOut`), error 12 (`errors`).",
}

# These are the appendices of STATEMENT-FULL.md. Each has its title, a text that says what breaks if it is wrong, and
# the definitions and contracts that it explains, with all their clauses (for `work_on_chip` only two). An appendix also
# has all definitions that these need, except those of ELSEWHERE, and those that STATEMENT.md or an earlier appendix has
# whole.
APPENDICES = {
    "Block protection": (
        "If this is wrong, errors 7 to 10 are wrong for a real chip, and so is the chip's protected range.",
        {
            "is_protected": "nor_model/specs/Guard.antt",
            "is_block_protected": "nor_model/specs/Guard.antt",
            "is_undefined": "nor_model/specs/Guard.antt",
            "IsLeastCode": "nor_model/specs/Offer.antt",
            "IsNotOffered": "nor_model/specs/Offer.antt",
        },
    ),
    "The chip, by opcodes": (
        "If this is wrong, a real chip does something else than the model, and no promise about its bytes holds. "
        "Read this appendix with the datasheet of the W25Q64FV.",
        {
            "has_srp0": "nor_model/specs/Chip.antt",
            "has_srp1": "nor_model/specs/Chip.antt",
            "srp0_bit": "nor_model/specs/Chip.antt",
            "lb3_to_srp1": "nor_model/specs/Chip.antt",
            "command_of": "nor_model/specs/Command.antt",
            "determined": "nor_model/specs/Step.antt",
            "last_for": "nor_model/specs/Step.antt",
            "BusyAfter": "nor_model/specs/Step.antt",
            "latch_after": "nor_model/specs/Step.antt",
            "running_after": "nor_model/specs/Step.antt",
            "with_code": "nor_driver/specs/StatusWrites.antt",
            "cmp_qe_srp1": "nor_model/specs/Step.antt",
            "lb3_to_reserved": "nor_model/specs/Step.antt",
            "lb3_to_lb1": "nor_model/specs/Step.antt",
            "is_idle": "nor_model/specs/Step.antt",
            "Does": "nor_model/specs/Step.antt",
            "wears": "nor_model/specs/Step.antt",
            "IsChip": "nor_model/specs/Chip.antt",
            "is_known_running": "nor_model/specs/Power.antt",
            "is_in_work": "nor_model/specs/Power.antt",
            "KeptCut": "nor_model/specs/Power.antt",
            "kept_in": "nor_model/specs/Chip.antt",
        },
    ),
    "Identification": (
        "If this is wrong, a real chip may have another size, other erase types or other protection than the promises "
        "assume of a genuine chip. Read this appendix with JESD216.",
        {
            "IsGenuine": "nor_probe/specs/Known.antt",
            "IsKnown": "nor_probe/specs/Known.antt",
            "id_of": "nor_driver/specs/Reads.antt",
            "unique_of": "nor_driver/specs/Reads.antt",
            "shown_as": "nor_probe/specs/Known.antt",
            "chip_says": "nor_probe/specs/Known.antt",
            "part_with_id": "nor_probe/specs/Table.antt",
            "HasGeometry": "nor_probe/specs/Known.antt",
            "HasOtherName": "nor_probe/specs/Found.antt",
        },
    ),
    "The bytes of a journal": (
        "If this is wrong, other programs can't read the journals, and faults have other numbers. The headline holds "
        "for any encoding that gives different contents different bytes.",
        {
            "text": "nor_journal/specs/Text.antt",
            "IsContent": "nor_journal/specs/Text.antt",
            "IsFresh": "nor_journal/specs/Vault.antt",
            "Vault": "nor_journal/src/vault.rt",
            "held_by": "nor_journal/specs/MemVault.antt",
            "PutRefused": "nor_journal/specs/Vault.antt",
            "Journal::read": "nor_journal/src/journal.rt",
        },
    ),
    "The addresses of a request": (
        "If this is wrong, a session changes other addresses than the user meant, and refuses other requests.",
        {
            "What": "nor_request/src/request.rt",
            "Request": "nor_request/src/request.rt",
            "Ranges": "nor_layout/src/ranges.rt",
            "includes": "nor_layout/specs/Sectors.antt",
            "ReachesPast": "nor_layout/specs/Sectors.antt",
            "is_touched": "nor_plan/specs/Content.antt",
            "is_requested": "nor_request/specs/Request.antt",
            "target": "nor_request/specs/Request.antt",
        },
    ),
    "The history of a bus": (
        "If this is wrong, a modifying command may be sent before the journal is sealed, or by a refused session: "
        "`unsent` says only that `sent` is as it was. On a faulty bus little else is promised.",
        {
            "SameNature": "nor_model/specs/Bus.antt",
            "IsHonestFor": "nor_model/specs/Bus.antt",
            "AtStop": "nor_model/specs/Bus.antt",
            "Carries": "nor_model/specs/Bus.antt",
            "Transfers": "nor_model/specs/Bus.antt",
            "Records": "nor_model/specs/Bus.antt",
            "Continues": "nor_model/specs/History.antt",
            "last_reply": "nor_model/specs/History.antt",
            "IsJournalOfReplies": "nor_session/specs/Session.antt",
            "EndsAtError": "nor_request/specs/Errors.antt",
            "Meter": "nor_model/src/bus.rt",
            "SendsSaved": "nor_session/specs/Session.antt",
            "SendsFew": "nor_session/specs/Session.antt",
            "NamesAddress": "nor_session/specs/Session.antt",
        },
    ),
    "Counts and bounds": (
        "If this is wrong, a report's numbers are wrong, a call takes longer than promised, or a call that only reads "
        "changes more than promised. The headline doesn't depend on this appendix.",
        {
            "OnlyReads": "nor_driver/specs/OnlyReads.antt",
            "RanOut": "nor_driver/specs/OnlyReads.antt",
            "Spends": "nor_driver/specs/Limits.antt",
            "IsReportedFor": "nor_session/specs/Made.antt",
            "IsWithinBound": "nor_session/specs/Session.antt",
        },
    ),
    "All clauses of a session, a restore and a rewrite": (
        "If this is wrong, what is left in the vault, what a session or restore erases and programs, or the verdict of "
        "a restore isn't as promised. The clauses of STATEMENT.md don't depend on the other clauses.",
        {
            "session": "nor_session/src/sessions.rt",
            "restore": "nor_session/src/restores.rt",
            "rewrite": "nor_session/src/restores.rt",
            "RestoreModelled": "nor_session/specs/Restore.antt",
            "RefusalHolds": "nor_scan/specs/Verdict.antt",
            "accepted_alone": "nor_session/src/sessions.rt",
        },
    ),
    "All clauses of a rehearsal": (
        "If this is wrong, a rehearsal's report, or its number of restores, isn't as promised.",
        {"rehearse": "nor_session/src/rehearsals.rt"},
    ),
    "Several calls in turn": (
        "If this is wrong, a loss of power between two calls, or a second session before the first is undone, may "
        "leave a chip that can't be restored.",
        {
            "read_restores_original": "nor_session/src/laws.rt",
            "begun_restores_original": "nor_session/src/laws.rt",
            "session_written_over": "nor_session/src/laws.rt",
            "restore_written_over": "nor_session/src/laws.rt",
            "same_written_over": "nor_session/src/laws.rt",
            "power_lost_restores_original": "nor_session/src/laws.rt",
            "undone_is_restorable": "nor_session/src/laws.rt",
            "undone_in_turn": "nor_session/src/laws.rt",
            "session_can_be_rewritten": "nor_session/src/laws.rt",
        },
    ),
    "The model of files": (
        "If this is wrong, a real file system loses or mixes bytes that the next appendix relies on. "
        "docs/SPECIFICATION.md says where it asks for more than Linux file systems guarantee.",
        {"Store": "nor_files/src/store.rt"},
    ),
    "The files of a run": (
        "If this is wrong, a run of the program that is killed, or whose host crashes, may leave files from which the "
        "original chip can't be restored.",
        {"work_on_chip": "flashnor/src/run.rt keeps holds"},
    ),
    "Backups": (
        "If this is wrong, the journal of a backup may lack a sector, or can't restore the chip after a change that no "
        "session made.",
        {
            "backup": "nor_session/src/backups.rt",
            "backup_restores_original": "nor_session/src/laws.rt",
            "backup_restores_any": "nor_session/src/laws.rt",
            "read_is_backup": "nor_session/src/laws.rt",
        },
    ),
}

# The appendices use these names, but leave out their definitions, which describe the results of a run and the text of a
# layout.
ELSEWHERE = {"Work", "Fault", "Answer", "AreIncluded"}

# Each of these texts follows the definitions of its appendix.
NOTES = {
    "The model of files":
        "`Memory` (files in memory, in nor_files) is proved to keep this contract, so the contract can be kept. "
        "`Disk`, the system's files, is assumed to keep the contract. `seen_may_stay` says that a crash may leave what "
        "a read returns. Without this clause, a store whose `may_leave` never holds would meet each promise about what "
        "a crash may leave. `names_of_one` says that names which aren't apart are names of one file. Without this "
        "clause, a store for which no two names are apart would meet each promise about other files.",
    "The files of a run":
        "`R: Store` is any store of files, and `R.state` is the state that contracts see. In this appendix `Journal` "
        "is the content of a journal, which the other appendices call `Content`, and `Content` is what the chip's "
        "files hold at the start. The clauses hold at every exit, even if all calls on files fail from some call on "
        "(`left`). So the clauses hold wherever the process is killed or its host crashes. `AreIncluded` "
        "(crates/nor_console/specs/Requests.antt) says which addresses the regions of a layout have. `run_over` "
        "promises all this for each job on a chip.",
}

# Each appendix has its definitions by these subjects, in this order. Each subject lists the files whose definitions it
# has. If a definition uses one of a later subject, the order is changed.
SUBJECTS = {
    "The chip": "nor_geometry: specs/Size nor_model: src/config specs/Makers src/running specs/Sfdp specs/Chip",
    "Protected addresses": "nor_model: specs/Guard specs/Offer",
    "Commands": "nor_model: src/command specs/Command specs/Addresses",
    "The step of a chip": "nor_model: specs/Step",
    "A loss of power": "nor_model: specs/Power",
    "The bus, and its stops":
        "nor_model: specs/Bus src/bus specs/Exchange specs/History src/history specs/Sent specs/Passed specs/PolledReady",
    "Reading, and counting transactions": "nor_driver: specs/OnlyReads specs/Ready specs/ReadsInTurn specs/Polls specs/Limits",
    "IDs and status bits": "nor_model: src/status nor_driver: specs/Reads specs/StatusWrites",
    "SFDP": "nor_probe: src/sfdp specs/Sfdp",
    "Genuine chips": "nor_probe: src/table specs/Table src/probes specs/Known specs/Found specs/Replied",
    "The vault": "nor_journal: src/vault specs/Vault src/mem_vault specs/MemVault",
    "The journal": "nor_journal: specs/Number specs/Text src/fault src/journal specs/Saved nor_scan: specs/SavedScan",
    "The faults of a journal": "nor_journal: specs/Fault",
    "Refusals": "nor_request: src/refusal specs/Refusal specs/Errors",
    "A chip that can be restored": "nor_apply: specs/Within nor_session: specs/Headline",
    "The most transactions": "nor_driver: specs/Operations nor_scan: specs/Identity nor_session: specs/Bounds",
    "The fewest erases": "nor_driver: src/units specs/Units nor_plan: specs/Erase specs/Planned",
    "Requests":
        "nor_geometry: specs/Below nor_layout: src/ranges specs/Ranges specs/Sectors nor_request: src/request specs/Request",
    "Touched and raised sectors": "nor_geometry: specs/Counts nor_plan: specs/Content",
    "The verdict": "nor_scan: src/identity specs/Saving specs/Replied specs/Judging specs/Verdict",
    "A chip that is being changed":
        "nor_apply: specs/Change specs/Erasing specs/Applying nor_session: specs/Changing",
    "The result of a call": "nor_request: src/report nor_session: specs/Made",
    "What was read back": "nor_driver: specs/ReadBack nor_scan: specs/Scanning",
    "Sessions": "nor_session: specs/Session",
    "Restores": "nor_session: specs/Restore",
    "Rehearsals": "nor_session: src/rehearsals specs/Rehearsal",
    "Backups": "nor_session: specs/Backup",
    "Calls in turn": "nor_session: specs/WrittenOver specs/InTurn",
    "Files": "nor_files: specs/Files specs/OneFile specs/Faults specs/Disk specs/Calls src/store",
    "Jobs": "nor_args: specs/Text src/programmer specs/Programmer src/job",
    "A chip in files":
        "flashnor: specs/Found src/chips nor_console: specs/Stored flashnor: specs/Chips nor_console: specs/Tasks "
        "flashnor: specs/Tasks nor_console: specs/Requests nor_jobs: specs/Sources flashnor: specs/Changes "
        "src/holding specs/Endings nor_chip: specs/Start",
    "What a run leaves": "flashnor: specs/Left specs/Run src/run",
}
