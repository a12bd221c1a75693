"""What `./voumlis` does. Read in this order:

    trouble     what ends a command in one line
    sources     the crates that a program stands on, their checksum, the kit
    children    programs that are started, and that end when this one does
    progress    the line that says what is under way, and how long it takes
    building    a program by `rt try`, unproved, and what was built kept
    page        the module of the page that plays scenarios, for a browser
    dist        the proved programs, the archive and the page in `dist/`, with a manifest
    programs    which program is run: a proved one that fits the sources, a kept one, or one that is built now
    rows        the quick test: the rows of every driver, unproved
    worlds      a scenario's run, in words and as a page
    words       what an error line of a program means, and what to do
    commands    the commands themselves

It stands outside the proved core: nothing here is proved, and nothing of the core rests on it.
"""
from pathlib import Path

TOP = Path(__file__).resolve().parent.parent.parent
# What is made, and can be made again: kept programs, pictures, folders of a build under way. Git knows nothing of it.
MADE = TOP / "out"
