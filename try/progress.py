"""How the scripts of this folder say how far they are: `./test` shows it while they run."""
import os

# The file to which a byte is added for each case that was tried; the variable names it, or there is none.
FILE = os.environ.get("REGAUDIT_PROGRESS")


def tried():
    """One more case was tried."""
    if FILE:
        with open(FILE, "ab") as file:
            file.write(b".")
