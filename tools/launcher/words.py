"""What the error line of a program means, and what to do: printed behind the line itself, which stays as docs/FORMATS.md has it."""
import re

# By the line that `simplex node RECORD INDEX COUNT` or `simplex audit COUNT` ends with.
MEANINGS = (
    (r"error: memory", "memory ran out. Nothing that was acknowledged is lost: free memory, and start it again on the same record."),
    (r"error: device", "RECORD or RECORD.2 can't be opened, made or locked, or the input can't be read. Perhaps the folder isn't there, rights are "
     "missing, or another process has this record open: only one may. Of a record the next line says which."),
    (r"error: open 4 at (\d+)", "RECORD or RECORD.2 isn't a record: at byte {0} no entry of one begins. Look whether the path names another file. "
     "Start no node on a copy from elsewhere: give the member a new name."),
    (r"error: open 5 at (\d+)", "RECORD or RECORD.2 is no record of this member: entry {0} (counted from 0) breaks the rules behind those before it. "
     "Look whether INDEX and COUNT are those that it was written with."),
    (r"error: open 6", "RECORD or RECORD.2 can't be read or written, or isn't what a crash leaves of a record; the next line says which."),
    (r"error: open 7", "memory ran out while RECORD was read. Free memory, and start it again."),
    (r"error: open (\d+)", "this member can't be set up so (fault {0} of an opening, docs/FORMATS.md). The record wasn't touched."),
    (r"error: step 1", "memory ran out inside a step, none of which left. Free memory, and start it again on the same record."),
    (r"error: step 2", "RECORD can't be written: is its disk full? What was acknowledged is on it. Make room, and start it again."),
    (r"error: step (\d+)", "a step before had failed already (fault {0}, docs/FORMATS.md). Start it again on the same record."),
    (r"error: read", "the input failed in the middle. Events that were answered are on the disk; start it again and hand the others in."),
    (r"error: write", "the output failed: is it a closed pipe, or a full disk? Of the last reply a part may be out. Open the record again."),
    (r"fault at byte (\d+)", "byte {0} of the input begins nothing that is read here; all before it was taken. docs/FORMATS.md has how it is "
     "spelled; hexadecimal digits have to be turned into bytes first."),
)


def meaning(line: str, record: str | None = None) -> str | None:
    """What an error line means in words, with the record's path in it, or nothing where the line is none of these."""
    for pattern, text in MEANINGS:
        if found := re.fullmatch(pattern, line.strip()):
            return text.format(*found.groups()).replace("RECORD", record or "the record")
    return None
