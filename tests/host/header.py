# Holds include/churawel.h, which is kept by hand, to the source: the exported functions with their parameters and types,
# the lengths, the numbers of the functions, of refusal and of a shelf's answer, and the two halves of an answer. Then copies of the
# header that are wrong in one place, each of which must be found. A line for each case; the last line is 'N passed, M
# failed', and the exit status is 0 only where M is 0.
import re
import sys
from functools import cache
from itertools import zip_longest
from pathlib import Path

ROOT = Path(__file__).resolve().parents[2]

NUMBERS = {"u8": "uint8_t", "u16": "uint16_t", "u32": "uint32_t", "u64": "uint64_t", "usize": "size_t"}
SLICES = {"&[u8]": "const uint8_t *", "&mut [u8]": "uint8_t *"}

# Where a length stands in the source: as a constant, or in the tests that refuse another one.
LENGTHS = {
    "DRIVE_BYTES": r"\bconst DRIVE_BYTES: usize = (\d+);",
    "WIDE_DRIVE_BYTES": r"\bconst WIDE_DRIVE_BYTES: usize = (\d+);",
    "FCB_BYTES": r"\bconst FCB_BYTES: usize = (\d+);",
    "BUFFER_BYTES": r"\bconst RECORD_BYTES: usize = (\d+);",
    "RECORDS_MOST": r"Refusal::BadCount, .* <= (\d+)\)",
    "FAULT_BYTES": r"\bconst FAULT_BYTES: usize = (\d+);",
    "FILE_BYTES": r"\bconst FILE_BYTES: usize = (\d+);",
    "SHELF_BYTES": r"\bconst SHELF_BYTES: usize = (\d+);",
    "TABLE_BYTES": r"\bconst TABLE_BYTES: usize = (\d+);",
    "MCB_BYTES": r"\bconst MCB_BYTES: usize = (\d+);",
    "CMD_MOST": r"\bconst LONGEST: usize = (\d+);",
}

# Where the numbers of the edition desk stand.
DESK = {
    "CONTENTS": r"\bconst CONTENTS: u8 = (\d+);",
    "NEITHER": r"\bconst NEITHER: u8 = (\d+);",
    "LISTS": r"\bconst LISTS: u8 = (\d+);",
}

# Names that the header has and the source has not: a name for each number of a call, and a name for a refusal.
CALLS = {"LogIn": ["RESET", "RESET_DRIVE"], "Protect": ["WRITE_PROTECT"]}
REFUSALS = {"BadCount": "COUNT", "NoRoom": "NO_MATCH"}


# ---- the source, worked out once for all copies of the header


def in_order(file):
    """a crate's first file, then its others as the first one names them"""
    crate = file.relative_to(ROOT / "crates").parts[0]
    sources = ROOT / "crates" / crate / "src"
    first = next(path for name in ("lib.rt", "main.rt") if (path := sources / name).exists())
    return crate, first.read_text().find(f"mod {file.stem};")


def all_sources():
    """every source file under crates in one text, without comments"""
    files = sorted((ROOT / "crates").glob("*/src/**/*.rt"), key=in_order)
    return "\n".join(re.sub(r"//.*", "", file.read_text()) for file in files)


def in_c(parameter):
    """a parameter as C has it; a slice is a pointer and a number of bytes"""
    name, kind = (word.strip() for word in parameter.split(":"))
    if kind in SLICES:
        return [f"{SLICES[kind]} {name}", f"size_t {name}_bytes"]
    return [f"{NUMBERS.get(kind, kind)} {name}"]


@cache
def exported(source):
    """what each exported function returns and takes, in the words of C"""
    functions = {}
    for name, taken, returned in re.findall(r'#\[unsafe\(no_mangle\)\]\s*pub extern "C" fn (\w+)\(([^()]*)\) -> (\w+)', source):
        parameters = [parameter for parameter in taken.split(",") if parameter.strip()]
        functions[name] = [NUMBERS.get(returned, returned)] + sum(map(in_c, parameters), [])
    marks = source.count("no_mangle"), source.count('extern "C"')
    assert marks == (len(functions), len(functions)), "an exported function of the source can't be read"
    return functions


def constants_in(source, patterns, between):
    """each name with the number that the source has for it"""
    lines = []
    for name, pattern in patterns.items():
        numbers = sorted(set(re.findall(pattern, source)))
        lines.append(f"{name}{between}{' and '.join(numbers) or 'nowhere'}")
    return lines


@cache
def lengths_in(source):
    """a name's length is that of a line but for its siglum"""
    (line,) = set(re.findall(r"\bpub const LINE_BYTES: usize = (\d+);", source))
    (siglum,) = set(re.findall(r"\bconst NAME_AT: usize = (\d+);", source))
    return [f"NAME_BYTES {int(line) - int(siglum)}"] + constants_in(source, LENGTHS, " ")


@cache
def desk_in(source):
    return constants_in(source, DESK, " = ")


def arms(source, function):
    """the two sides of each arm in the one match of a function, wherever it stands"""
    bodies = re.findall(rf"\bfn {function}\(.*?\bmatch \w+ {{([^{{}}]*)}}", source, re.S)
    assert len(bodies) == 1, f"{function} is there {len(bodies)} times"
    found = re.findall(r"(\S.*?) => (.*),", bodies[0])
    assert len(found) == bodies[0].count("=>"), f"an arm of {function} can't be read"
    return found


def variant_of(path):
    """the innermost name: ReadRandom of Call::ReadRandom, and where it stands in another variant"""
    return re.findall(r"\w+", path)[-1]


def spelled(variant):
    """SearchFirst as SEARCH_FIRST"""
    return re.sub(r"(?<=[a-z])(?=[A-Z])", "_", variant).upper()


@cache
def calls_in(source):
    """the numbers that call_of knows, rising"""
    named = {}
    for numbers, call in arms(source, "call_of"):
        variant = variant_of(call)
        names = CALLS.get(variant, [spelled(variant)])
        if numbers != "_":
            named.update(zip_longest(map(int, numbers.split(" | ")), names))
    return [f"{name} = {number}" for number, name in sorted(named.items())]


@cache
def refusals_in(source, function, of=""):
    """the numbers of refusal that a function knows, in the source's order; None is no refusal"""
    lines = []
    for refusal, number in arms(source, function):
        variant = variant_of(refusal)
        if variant != "None":
            lines.append(f"{of}{REFUSALS.get(variant, spelled(variant))} = {number}")
    return list(dict.fromkeys(lines))


@cache
def placings_in(source):
    """how records lie, by the geometry's constants"""
    return [f"{name} = {number}" for name, number in re.findall(r"const (STRAIGHT|EIGHT_INCH): usize = (\d+);", source)]


@cache
def shelved_in(source):
    """the numbers of a shelf's answer"""
    named = [("Counted" if case.startswith("Ok") else variant_of(case), number) for case, number in arms(source, "shelved_number")]
    return [f"{spelled(variant)} = {number}" for variant, number in named]


@cache
def memory_calls_in(source):
    """the numbers of the memory calls, by their names, and load, which stands behind them"""
    named = re.findall(r"\bpub const (\w+_MEM|GET_ABS_MAX): u8 = (\d+);", source)
    return [f"{name} = {number}" for name, number in named] + [f"PROGRAM_LOAD = {int(named[-1][1]) + 1}"]


@cache
def memory_refusals_in(source):
    """the numbers of load's own refusals in the source's order, and then those that the memory calls have beside them"""
    both = arms(source, "load_refusal_number") + arms(source, "memory_refusal_number")
    lines = [f"{spelled(variant_of(refusal))} = {number}" for refusal, number in both if number.isdigit()]
    return [line for line in dict.fromkeys(lines) if not line.startswith("NOT_SERVED")]


def multiplied(source, function, width):
    """what the value is multiplied with, in the function that puts a number and a value together"""
    (step,) = map(int, re.findall(rf"(?s)\bfn {function}\(number: u\d+, value.*?u{width}::from\(number\) \+ (\d+) \* u{width}::from\(value\)", source))
    return step


@cache
def halves_in(source):
    """the mask of the number and the shifts of value and length, by what these are multiplied with"""
    value, length = multiplied(source, "halves", 32), multiplied(source, "with_high", 64)
    shifts = [f"{name}: >> {step.bit_length() - 1}" for name, step in (("VALUE", value), ("LENGTH", length))]
    return [f"NUMBER: & {value - 1}"] + shifts


@cache
def told_in(source):
    """the number, which list, and where the name begins, by what these are multiplied with"""
    assert re.search(r"Place::House\(\w+\)\) => with_high\(halves\(0, 1\), start", source), "the house list is told otherwise"
    lists, place = multiplied(source, "halves", 32), multiplied(source, "with_high", 64)
    width = place // lists
    return [f"TOLD: >> 0 & {lists - 1}", f"LIST: >> {lists.bit_length() - 1} & {width - 1}", f"NAME_AT: >> {place.bit_length() - 1}"]


# ---- the header


def bare(header):
    """without comments, without functions that the header itself has, and without what is for C++ alone"""
    header = re.sub(r"/\*.*?\*/", "", header, flags=re.S)
    header = re.sub(r"(?ms)^static inline .*?^}$", "", header)
    return re.sub(r"#ifdef __cplusplus\n.*?#endif\n", "", header, flags=re.S)


def statements(header):
    """declarations, each as its words with a blank between them"""
    parts = re.sub(r"(?m)^#.*$", "", header).split(";")
    return [" ".join(re.findall(r"\w+|\S", part)) for part in parts if part.strip()]


def declared(header):
    """what each declared function returns and takes; what can't be read stands for itself"""
    functions = {}
    for statement in statements(header):
        function = re.fullmatch(r"(.+) (\w+) \( (.*) \)", statement)
        if function:
            functions[function[2]] = [function[1]] + function[3].split(" , ")
        elif not statement.startswith("enum {"):
            functions[statement] = []
    return functions


def lengths_of(header):
    return sorted(re.findall(r"(?m)^#define CHURAWEL_(\w+ .*\S)", header), key=lambda line: not line.startswith("NAME"))


def constants_of(header):
    """the enumerations, each as a list of NAME = NUMBER"""
    lists = re.findall(r"enum { (.*?) }", "\n".join(statements(header)))
    return [re.sub(r"CHURAWEL_((FN|REFUSED|SHELF|DESK)_)?", "", body).split(" , ") for body in lists]


def halves_of(header):
    macros = re.findall(r"(?m)^#define CHURAWEL_(\w+)\(answer\) \(\(answer\) (\S+) (\w+?)u?\)\s*$", header)
    return [f"{name}: {operator} {int(number, 0)}" for name, operator, number in macros]


def told_of(header):
    """each macro over what churawel_manuscript answers: its shift, and its mask if it has one"""
    macros = re.findall(r"(?m)^#define CHURAWEL_(\w+)\(told\) \(\(\w+\)\(\(told\)(?: >> (\d+))?(?: & (\w+?)u?)?\)\)\s*$", header)
    return [f"{name}: >> {shift or 0}" + (f" & {int(mask, 0)}" if mask else "") for name, shift, mask in macros]


# ---- the cases

FUNCTIONS = "the header declares the exported functions, in the source's order"
LENGTHS_AGREE = "the header's lengths are the source's"
CALLS_AGREE = "the header's functions have the numbers of call_of"
REFUSALS_AGREE = "the header's refusals have their numbers and the source's order"
PLACINGS_AGREE = "the header's placings are the source's"
SHELVED_AGREE = "the header's answers of a shelf have the numbers of shelved_number"
DESK_AGREES = "the header's numbers of the edition desk are the source's"
MEMORY_CALLS_AGREE = "the header's memory calls have the source's numbers"
MEMORY_REFUSALS_AGREE = "the header's refusals of memory calls and load have their numbers and the source's order"
HEX_REFUSALS_AGREE = "the header's refusals of a hex text have their numbers and the source's order"
HALVES_AGREE = "the header takes an answer apart as the source puts it together"
TOLD_AGREES = "and so it does with what a siglum means"


def signature(name):
    return f"{name} returns and takes the same in header and source"


def cases(header, source):
    """what is compared, what the header has, and what the source has"""
    header = bare(header)
    have, want = declared(header), exported(source)
    calls, refusals, placings, shelved, desk, memory_calls, memory_refusals, hex_refusals = constants_of(header)
    yield FUNCTIONS, list(have), list(want)
    for name in want:
        yield signature(name), have.get(name, []), want[name]
    yield LENGTHS_AGREE, lengths_of(header), lengths_in(source)
    yield CALLS_AGREE, calls, calls_in(source)
    yield REFUSALS_AGREE, refusals, refusals_in(source, "refusal_number")
    yield PLACINGS_AGREE, placings, placings_in(source)
    yield SHELVED_AGREE, shelved, shelved_in(source)
    yield DESK_AGREES, desk, desk_in(source)
    yield MEMORY_CALLS_AGREE, memory_calls, memory_calls_in(source)
    yield MEMORY_REFUSALS_AGREE, memory_refusals, memory_refusals_in(source)
    yield HEX_REFUSALS_AGREE, hex_refusals, refusals_in(source, "number_of", "HEX_")
    yield HALVES_AGREE, halves_of(header), halves_in(source)
    yield TOLD_AGREES, told_of(header), told_in(source)


def difference(has, wants):
    """the first place in which the header is not what the source wants, or nothing"""
    for one, other in zip_longest(has, wants, fillvalue="nothing"):
        if one != other:
            return f"the header has '{one}' where the source has '{other}'"
    return ""


NAMES = ("log_in", "call", "cut", "fault", "file", "shelf", "fresh_copy", "replace_siglum", "manuscript", "memory", "load", "gencmd")
LOG_IN, CALL, CUT, FAULT, FILE, SHELF, FRESH, REPLACE, MANUSCRIPT, MEMORY, LOAD, GENCMD = (signature(f"churawel_{name}") for name in NAMES)

# What is wrong, the text to alter (there once), what it becomes, and the case that must find it.
WRONG = [
    ("a byte that is 32 bits wide", r"(_call\([^;]*)uint8_t parameter", r"\1uint32_t parameter", CALL),
    ("a length of 32 bits", r"(_call\([^;]*)size_t fcb_bytes", r"\1uint32_t fcb_bytes", CALL),
    ("a result of 16 bits", r"uint32_t churawel_log_in", "uint16_t churawel_log_in", LOG_IN),
    ("a lent slice that is not const", r"(?s)(\w+_log_in\(.*?)const (uint8_t \*volume)", r"\1\2", LOG_IN),
    ("a changed slice that is const", r"(_call\([^;]*)(uint8_t \*buffer)", r"\1const \2", CALL),
    ("two numbers in the other order", r"(?s)(\w+_log_in\(\s*)(uint32_t \w+), (uint32_t \w+)", r"\1\3, \2", LOG_IN),
    ("two slices in the other order", r"(uint8_t \*fcb.*),(\s*)(uint8_t \*buffer, \w+ \w+)", r"\3,\2\1", CALL),
    ("a length before its pointer", r"(_call\([^;]*)(uint8_t \*buffer), (size_t buffer_bytes)", r"\1\3, \2", CALL),
    ("a parameter that is missing", r"(_call\(\s*)uint8_t function, ", r"\1", CALL),
    ("a parameter too many", r"(_call\(\s*uint8_t function, )", r"\1uint8_t drive_code, ", CALL),
    ("a cut's most stores in 16 bits", r"uint32_t most", "uint16_t most", CUT),
    ("a cut without its most stores", r"uint32_t most, ", "", CUT),
    ("a cut's most stores behind the function", r"(uint32_t most), (uint8_t function)(?=, uint8_t p)", r"\2, \1", CUT),
    ("a cut that changes the control block", r"(_cut\([^;]*)const (uint8_t \*fcb)", r"\1\2", CUT),
    ("a cut that changes the buffer", r"const (uint8_t \*buffer)", r"\1", CUT),
    ("a cut that leaves the drive", r"(_cut\([^;]*)(uint8_t \*drive)", r"\1const \2", CUT),
    ("a cut that leaves the volume", r"(_cut\([^;]*)(uint8_t \*volume)", r"\1const \2", CUT),
    ("a fault that is not changed", r"(uint8_t \*fault)", r"const \1", FAULT),
    ("a fault without its length", r", size_t fault_bytes", "", FAULT),
    ("a drive that is not const", r"(_file\(\s*)const (uint8_t \*drive)", r"\1\2", FILE),
    ("a slot of 16 bits", r"uint32_t from", "uint16_t from", FILE),
    ("sigla in the other order", r"(uint16_t old_siglum), (uint16_t new_siglum)", r"\2, \1", REPLACE),
    ("a chapter of 8 bits", r"uint16_t chapter", "uint8_t chapter", REPLACE),
    ("a replacement that changes the drive", r"(_siglum\(\s*)const (uint8_t \*drive)", r"\1\2", REPLACE),
    ("a replacement that leaves the volume", r"(_siglum\([^;]*)(uint8_t \*volume)", r"\1const \2", REPLACE),
    ("a manuscript in 32 bits", r"uint64_t churawel_manuscript", "uint32_t churawel_manuscript", MANUSCRIPT),
    ("the house list first", r"(const uint8_t \*own, size_t own_bytes),(\s*)(const uint8_t \*house, size_t house_bytes)", r"\3,\2\1", MANUSCRIPT),
    ("a memory's bytes in 32 bits", r"size_t memory_bytes(?=\);\s*/\*\s*\* Loads)", "uint32_t memory_bytes", MEMORY),
    ("a table that is not changed", r"(_memory\([^;]*)(uint8_t \*table)", r"\1const \2", MEMORY),
    ("a load that changes the volume", r"(_load\([^;]*)const (uint8_t \*volume)", r"\1\2", LOAD),
    ("a load that leaves the memory", r"(_load\([^;]*)(uint8_t \*memory)", r"\1const \2", LOAD),
    ("a load's table behind its memory", r"(uint8_t \*table, \w+ \w+),(\s*)(uint8_t \*memory, \w+ \w+)", r"\3,\2\1", LOAD),
    ("a length of the text that is 32 bits wide", r"size_t text_bytes", "uint32_t text_bytes", GENCMD),
    ("an answer of 32 bits for a CMD file", r"uint64_t churawel_gencmd", "uint32_t churawel_gencmd", GENCMD),
    ("an output buffer that is const", r"(uint8_t \*out)", r"const \1", GENCMD),
    ("a function that is missing", r"(?s)uint32_t churawel_call\(.*?\);", "", FUNCTIONS),
    ("a function too many", r"(uint32_t churawel_call\()", r"void churawel_close(uint8_t *drive);\n\1", FUNCTIONS),
    ("a function of another name", r"churawel_log_in\(", "churawel_login(", FUNCTIONS),
    ("two functions in the other order", r"(?s)(uint32_t \w+_log_in.*?;)(.*)(uint32_t \w+_call.*?;)", r"\3\2\1", FUNCTIONS),
    ("a variable", r"(uint32_t churawel_call\()", r"extern int churawel_calls;\n\1", FUNCTIONS),
    ("a drive of 63 bytes", r"DRIVE_BYTES 64", "DRIVE_BYTES 63", LENGTHS_AGREE),
    ("a wide drive of 64 words alone", r"WIDE_DRIVE_BYTES 544", "WIDE_DRIVE_BYTES 512", LENGTHS_AGREE),
    ("a control block of 33 bytes", r"FCB_BYTES 36", "FCB_BYTES 33", LENGTHS_AGREE),
    ("a buffer of 127 bytes", r"BUFFER_BYTES 128", "BUFFER_BYTES 127", LENGTHS_AGREE),
    ("a fault of 31 bytes", r"FAULT_BYTES 32", "FAULT_BYTES 31", LENGTHS_AGREE),
    ("seventeen records", r"RECORDS_MOST 16", "RECORDS_MOST 17", LENGTHS_AGREE),
    ("a shorter longest CMD file", r"CMD_MOST 262272", "CMD_MOST 262144", LENGTHS_AGREE),
    ("a length that the source has not", r"(#define \w+_FCB_BYTES)", r"#define CHURAWEL_SLOT_BYTES 32\n\1", LENGTHS_AGREE),
    ("another number of a function", r"SIZE = 35", "SIZE = 38", CALLS_AGREE),
    ("two functions' numbers exchanged", r"(OPEN = )15(.*\s*.*CLOSE = )16", r"\g<1>16\g<2>15", CALLS_AGREE),
    ("13 and 37 exchanged", r"(?s)(RESET = )13(.*RESET_DRIVE = )37", r"\g<1>37\g<2>13", CALLS_AGREE),
    ("a function's number that is missing", r"CHURAWEL_FN_MAKE = 22,", "", CALLS_AGREE),
    ("a function's number too many", r"(CHURAWEL_FN_OPEN = )", r"CHURAWEL_FN_SELECT = 14, \1", CALLS_AGREE),
    ("another number of a refusal", r"CHURAWEL_REFUSED_OUTSIDE = 41", "CHURAWEL_REFUSED_OUTSIDE = 31", REFUSALS_AGREE),
    ("a refusal that is missing", r"CHURAWEL_REFUSED_UNTYPEABLE = 45,", "", REFUSALS_AGREE),
    ("two refusals in the other order", r"(\w+_COUNT = 46,)(.*\s*)(\w+_BUFFER_LENGTH = 35,)", r"\3\2\1", REFUSALS_AGREE),
    ("a log-in without its placing", r"(?s)(_log_in\([^;]*?), uint32_t placing", r"\1", LOG_IN),
    ("a fault without its placing", r"(?s)(_fault\([^;]*?), uint32_t placing", r"\1", FAULT),
    ("the placing before the directory", r"(?s)(_log_in\([^;]*?)(uint32_t directory_blocks), (uint32_t placing)", r"\1\3, \2", LOG_IN),
    ("another number of a placing", r"EIGHT_INCH = 1", "EIGHT_INCH = 2", PLACINGS_AGREE),
    ("a placing that is missing", r"CHURAWEL_STRAIGHT = 0,", "", PLACINGS_AGREE),
    ("another number for a full shelf", r"SHELF_FULL = 47", "SHELF_FULL = 46", SHELVED_AGREE),
    ("a shelf of 56 bytes", r"SHELF_BYTES 64", "SHELF_BYTES 56", LENGTHS_AGREE),
    ("a shelf that is const", r"uint8_t \*shelf", "const uint8_t *shelf", SHELF),
    ("a shelf without the volume's placing", r"(?s)(_shelf\([^;]*?), uint32_t placing", r"\1", SHELF),
    ("a first volume that is changed", r"const (uint8_t \*first)", r"\1", FRESH),
    ("a second volume that is not", r"(uint8_t \*second)", r"const \1", FRESH),
    ("both volumes in the other order", r"(const uint8_t \*first, \w+ \w+),(\s*)(uint8_t \*second, \w+ \w+)", r"\3,\2\1", FRESH),
    ("a copy without its placing", r"(?s)(_fresh_copy\([^;]*?), uint32_t placing", r"\1", FRESH),
    ("another number of the desk", r"CHURAWEL_DESK_NEITHER = 51", "CHURAWEL_DESK_NEITHER = 53", DESK_AGREES),
    ("names of 32 bytes", r"NAME_BYTES 30", "NAME_BYTES 32", LENGTHS_AGREE),
    ("a table of 64 bytes", r"TABLE_BYTES 66", "TABLE_BYTES 64", LENGTHS_AGREE),
    ("a memory call's number", r"FREE_MEM = 57", "FREE_MEM = 58", MEMORY_CALLS_AGREE),
    ("load as a memory call", r"PROGRAM_LOAD = 59", "PROGRAM_LOAD = 58", MEMORY_CALLS_AGREE),
    ("62 for 63", r"NO_PLACE = 63", "NO_PLACE = 62", MEMORY_REFUSALS_AGREE),
    ("60 before 65", r"(\w+_RULES = 65,)(.*\s*)(\w+_HEADER = 60,)", r"\3\2\1", MEMORY_REFUSALS_AGREE),
    ("two refusals of a hex text exchanged", r"(HEX_SUM = )71(.*\s*.*TYPE = )72", r"\g<1>72\g<2>71", HEX_REFUSALS_AGREE),
    ("a refusal of a hex text that is missing", r"CHURAWEL_REFUSED_HEX_NO_CODE = 75,", "", HEX_REFUSALS_AGREE),
    ("a mask of eight bits", r"\(answer\) & 0xFFFFu", "(answer) & 0xFFu", HALVES_AGREE),
    ("a shift by eight bits", r"\(answer\) >> 16", "(answer) >> 8", HALVES_AGREE),
    ("a length's shift by 16 bits", r"\(answer\) >> 32", "(answer) >> 16", HALVES_AGREE),
    ("a list in another place", r"\(told\) >> 16", "(told) >> 24", TOLD_AGREES),
    ("a name's place without its shift", r"\(told\) >> 32", "(told) >> 16", TOLD_AGREES),
]


def found(header, source, alteration):
    """alters a copy of the header; why the wrong place is not found, or nothing"""
    _, pattern, text, where = alteration
    altered, times = re.subn(pattern, text, header)
    if times != 1:
        return f"what is to be altered is there {times} times"
    differences = {what: difference(has, wants) for what, has, wants in cases(altered, source)}
    return "" if differences[where] else f"not by the case '{where}'"


def all_cases():
    """what each case is, and what is wrong, or nothing"""
    header = (ROOT / "include/churawel.h").read_text()
    source = all_sources()
    for what, has, wants in cases(header, source):
        yield what, difference(has, wants)
    for alteration in WRONG:
        yield f"found in an altered header: {alteration[0]}", found(header, source, alteration)


def main():
    passed = failed = 0
    for what, wrong in all_cases():
        passed, failed = (passed, failed + 1) if wrong else (passed + 1, failed)
        print(f"FAILED {what}: {wrong}" if wrong else f"ok {what}")
    print(f"{passed} passed, {failed} failed")
    return failed != 0


sys.exit(main())
