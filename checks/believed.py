"""How much a reader has to believe: lines of specs/ without blank ones and imports, comments included."""
import re


def believed(text):
    return sum(1 for line in text.splitlines() if line.strip() and not re.match(r"(?:pub )?(?:use|mod) ", line))
