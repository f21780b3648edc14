"""Lists the findings that no program can exclude at a wire without a checksum. docs/HARDWARE.md describes them for
users."""
from frames import HEAD
from jobs import JOBS

# If this is true, a restore without -N must report a changed sector that its journal doesn't save. It finds this sector
# by the checksums that the session wrote to a file beside the journal.
NAMES_OTHERS = True


def remains(finding, name, fault, frame):
    """Returns the reason why a finding is allowed for this fault in this frame of the job `name`, or None if it
    isn't."""
    is_in_data = fault.way == "to" and frame.modifies and fault.at >= frame.begin + HEAD
    if finding.kind == "once" and is_in_data and frame.kind[1] == 0x01 and fault.kind in ("double", "insert"):
        return "a byte is doubled or inserted in a status write, and the chip takes it for the second status byte"
    if finding.kind == "bits" and frame.kind[1] == 0x01:
        return "a status write with other bits clears QE or changes protection bits, which can be written again"
    if finding.kind == "silent" and "-N" in JOBS[name].words:
        return "another sector is changed, and -N leaves out the comparison that would find it"
    if finding.kind == "silent" and not NAMES_OTHERS:
        return "another sector is changed, and no later run compares it with what it held before"
    return None
