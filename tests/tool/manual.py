"""The man page held to --help and to the table of refusals: every command, option, sentence and number of the one stands in the
other. And what README.md shows is what the tool prints."""
import re

import sigla
from desk import ROOT, Desk
from disk import entry, volume

PAGE = ROOT / "docs/churawel.1"
HEADER = ROOT / "include/churawel.h"
COMMANDS = ["who", "replace", "list", "check", "shelf", "get", "type", "put", "rename", "erase", "attributes", "new", "fresh", "gencmd"]


def plain(roff):
    """the words of a man page, without what only says how they look"""
    text = re.sub(r'(?m)^\.\\".*\n', "", roff)
    text = re.sub(r"\\f[BIR]", "", text).replace("\\-", "-")
    return re.sub(r"(?m)^\.(?:TP|PP|nf|fi)$", "\n", text)


def words(text):
    """one line, one blank between words"""
    return " ".join(text.split())


def section(page, title):
    return re.search(rf"(?ms)^\.SH {title}\n(.*?)(?=^\.SH |\Z)", page)[1]


def tagged(page, title):
    """the entries of a section: tag, and its text"""
    entries = re.split(r"(?m)^\.TP\n", section(page, title))[1:]
    return {plain(entry).split("\n")[0]: words(plain(entry).split("\n", 1)[1]) for entry in entries}


def options_of(printed):
    """the options of a help text, spelled, and what they do"""
    block = printed.split("\nOptions:\n")[1].split("\n\n")[0]
    return dict(re.match(r"  (\S.*?) {2,}(.*)|  (\S{22}) (.*)", at).group(1, 2) for at in block.splitlines() if at)


def short(spelled):
    """the first way to spell an option, without its value"""
    return re.split(r"[, ]", spelled)[0]


def spellings(spelled):
    """each way to give an option of a help text, with a value where it has one"""
    *_, value = spelled.split(" ")
    given = {"B,T,D": ["1024,40,1"], "FORMAT": ["eight-inch"], "USER": ["3"], "zero": ["zero"]}.get(value, [])
    return [[word.split(" ")[0], *given] for word in spelled.split(", ")]


def options_are_taken(desk, command, takes):
    for option in takes:
        for words_given in spellings(option):
            desk.leaves(f"{command} {' '.join(words_given)}", 0, command, *words_given, "--help", out=desk.run(command, "--help")[1])


def help_of_commands(desk, page):
    """each command's help beside the page; all options that they have"""
    tags, options = tagged(page, "COMMANDS"), {}
    for command in COMMANDS:
        status, printed, said = desk.run(command, "--help")
        printed = printed.decode()
        usage, text = re.match(r"Usage: churawel (.*)\n\n((?:.+\n)+)", printed).groups()
        tag = usage.replace("[OPTION ..] ", "")
        takes = options_of(printed)
        options.update(takes)
        expected = f"{words(text)} Options: {', '.join(short(option) for option in takes)}."
        desk.same(f"{command} --help and the page", (status, said, tags.get(tag)), (0, b"", expected))
        options_are_taken(desk, command, takes)
    desk.same("the page has these commands and no others", [tag.split()[0] for tag in tags], COMMANDS)
    return options


def help_of_all(desk, page, options):
    status, printed, _ = desk.run("--help")
    printed = printed.decode()
    options.update(options_of(printed))
    desk.same("--help names these commands and no others", re.findall(r"(?m)^  ([a-z]+) +[A-Z]", printed), COMMANDS)
    desk.same("the options of the page and of --help", tagged(page, "OPTIONS"), options)
    text = words(plain(page))
    for paragraph in printed.split("\n\n"):
        if not paragraph.startswith(("Usage", "Commands", "Options")):
            for sentence in re.split(r"(?<=\.) ", words(paragraph)):
                desk.same(f"the page says: {sentence:.50}..", sentence in text, True)
    for command in COMMANDS:
        first = desk.run(command, "--help")[1].decode().split("\n\n")[1].split("\n")[0]
        desk.same(f"--help says what {command} does", first in printed, True)


def refusals(desk, page):
    """the header's numbers, in its order, have a sentence in the one table, and the page has the same"""
    # no command has the numbers of the memory calls and of load
    header = re.sub(r"(?s)/\* The memory calls and load.*?uint32_t churawel_memory", "", HEADER.read_text())
    numbers = dict(re.findall(r"(CHURAWEL_(?:REFUSED_\w+|SHELF_FULL|DESK_\w+)) = (\d+)", header))
    table = re.findall(r'\{(CHURAWEL_\w+), "(.*)"\}', (ROOT / "tool/words.c").read_text())
    desk.same("each number of the header has a sentence", [name for name, _ in table], list(numbers))
    desk.same("each sentence is another", len({sentence for _, sentence in table}), len(table))
    desk.same("the page has the same sentences", tagged(page, "REFUSALS"), {numbers[name]: sentence for name, sentence in table})


def environment(desk, page):
    """CHURAWEL_GEOMETRY counts behind every option that says a geometry, and the page names them"""
    text = tagged(page, "ENVIRONMENT")["CHURAWEL_GEOMETRY"]
    desk.same("the page says what counts before CHURAWEL_GEOMETRY", [option for option in ("-g", "-f", "256256") if option not in text], [])


def version(desk, page):
    number = (ROOT / "tool/VERSION").read_text().strip()
    desk.done("--version", "--version", out=f"churawel {number}\n".encode())
    desk.same("the page's version", f'"churawel {number}"' in page.split(".SH")[0], True)


def readme(desk):
    """the disks and lists of README.md, and each command with what it prints there"""
    desk.write("own.lst", sigla.OWN)
    desk.write("house.lst", sigla.HOUSE)
    desk.write("VITA.IMG", sigla.disk())
    marked = bytearray(entry(name="SIGLA.TXT", rc=1, blocks=[1]))
    marked[9] |= 0x80
    rest = entry(user=3, name="APPARAT.TXT", ex=1, rc=36, blocks=range(18, 23))
    for image, first in (("EDITION.IMG", 2), ("WORN.IMG", 1)):
        apparat = entry(user=3, name="APPARAT.TXT", rc=128, blocks=[first, *range(3, 18)])
        desk.write(image, volume((1024, 40, 1), {0: marked, 1: apparat, 2: rest}))
    shown = re.findall(r"(?m)^    \$ \./churawel (.*)\n((?:    [^$].*\n)+)", (ROOT / "README.md").read_text())
    desk.same("README.md shows four commands", len(shown), 4)
    for command, expected in shown:
        desk.same(f"README.md: {command}", desk.run(*command.split())[1].decode(), re.sub("(?m)^    ", "", expected))


def run(tally):
    desk, page = Desk(tally, "manual"), PAGE.read_text()
    help_of_all(desk, page, help_of_commands(desk, page))
    refusals(desk, page)
    environment(desk, page)
    version(desk, page)
    readme(desk)
