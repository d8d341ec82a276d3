"""What the tree has: crates, files, definitions and theorems, functions and types of the code and the names of the header, edits that
must be refused."""
import re
from pathlib import Path

ROOT = Path(__file__).resolve().parents[2]
CRATES = ROOT / "crates"

# A definition, law or theorem, a field of a record or a case of a data type: a name, and then a colon, which may begin the next line.
NAMED = re.compile(r"^\s*(?:(?:abbrev|unfoldable|pub) )*([^\s(){}=:]+)(?: |\n +):(?: |$)", re.M)
KIND = re.compile(r"^(?:pub )?(?:record|data) (\S+)", re.M)
FUNCTION = re.compile(r'^\s*(?:pub(?:\(crate\))? )?(?:extern "C" )?fn (\w+)', re.M)
DECLARED = re.compile(r"^\s*(?:pub )?(?:enum|struct|const) (\w+)", re.M)
VARIANT = re.compile(r"^ {4}([A-Z]\w*)(?:\(.*\))?,", re.M)
FIELD = re.compile(r"^ {4}(?:pub )?([a-z]\w*): .*,$", re.M)


class Tree:
    def __init__(self):
        self.crates = set(re.findall(r"\w+", re.sub(r"(?m)^#.*$", "", (ROOT / "crates.txt").read_text())))
        files = [*CRATES.glob("*/specs/*.antt"), *CRATES.glob("*/proofs/*.antt")]
        self.defined = {file: names_of(file.read_text()) for file in files}
        self.sources = {file: file.read_text() for file in CRATES.glob("*/src/*.rt")}
        self.edits = {f"{file.parts[-3]}/{file.stem}": file.read_text() for file in CRATES.glob("*/must-fail/*.edit")}
        self.definitions = set().union(*self.defined.values())
        text = "\n".join(self.sources.values())
        self.code = {name for pattern in (FUNCTION, DECLARED, VARIANT, FIELD) for name in pattern.findall(text)}
        header = (ROOT / "include/churawel.h").read_text()
        self.code |= set(re.findall(r"\b(?:churawel|CHURAWEL)_\w+", header))
        self.modules = {file.stem for file in (*self.defined, *self.sources)}

    def path(self, word):
        """the file or folder that a word with a stroke names, if there is one; the folder crates and an ending may be left out,
        and ROOM/FILE is a file of definitions"""
        room, _, rest = word.partition("/")
        for folder, inside in ((ROOT, word), (CRATES, word), (CRATES / room / "specs", rest)):
            for ending in ("", ".antt", ".rt"):
                if inside and (folder / (inside + ending)).exists():
                    return folder / (inside + ending)
        return None

    def has_function(self, word):
        """TYPE::NAME or CRATE::NAME"""
        place, name = word.split("::")
        for file, text in self.sources.items():
            if name in FUNCTION.findall(text) and (file.parts[-3] == place or re.search(rf"^impl {place}\b", text, re.M)):
                return True
        return False


def names_of(text):
    return set(NAMED.findall(text)) | set(KIND.findall(text))
