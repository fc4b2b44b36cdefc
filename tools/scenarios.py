#!/usr/bin/env python3
"""What `bin/usbtrace` does with files by name, which no row can say.

    tools/scenarios.py check    tests the files of scenarios/, and tries words with files; says what is otherwise than it is to be"""
import html.parser
import pathlib
import subprocess
import sys
import tempfile

ROOT = pathlib.Path(__file__).resolve().parent.parent
PROGRAM = ROOT / "bin" / "usbtrace"
SCENARIOS = sorted(f"scenarios/{path.name}" for path in (ROOT / "scenarios").glob("*.txt"))
ROW = "rows/cancel_amid_transfer"


def ran(words, text=b""):
    """Status, standard output and standard error of the program with these words, run in the repository over this text."""
    given = text.encode(errors="surrogateescape") if isinstance(text, str) else text
    done = subprocess.run([PROGRAM, *words], cwd=ROOT, capture_output=True, input=given, timeout=60)
    return done.returncode, done.stdout.decode(), done.stderr.decode()


def file_of(folder, name, text):
    """A file of this folder with this text."""
    path = pathlib.Path(folder) / name
    path.write_bytes(text.encode())
    return str(path)


def differing(folder):
    """A test that differs, as a file of this folder."""
    return file_of(folder, "differs.txt", "open 1 0\nexpect h1 done\n")


# Why the line `no line` is bad.
WHY_NO_VERB = "    `no`: the first word is no verb, as `device`, `open` or `submit`\n"


def in_folders(folder):
    """Words with folders, and what is to come of them."""
    inner = pathlib.Path(folder) / "all" / "inner"
    inner.mkdir(parents=True)
    (inner / "b.txt").write_text("open 1 0\nexpect h1 refused 3\n")
    (inner.parent / "c.txt").write_text("no line\n")
    (inner.parent / "notes.md").write_text("no test\n")
    (inner.parent / "again").symlink_to(inner.parent)
    told = f"{inner.parent}/c.txt: not tested\n{inner}/b.txt: passed\n1 passed, 1 failed\n"
    refused = f"usbtrace: {inner.parent}/c.txt: line 1 refused\n{WHY_NO_VERB}"
    yield ["test", str(inner.parent)], (1, told, refused)
    none = pathlib.Path(folder) / "none"
    none.mkdir()
    without = f"usbtrace: {none} has no file whose name ends in .txt\n"
    yield ["test", str(none)], (1, f"{none}: not tested\n0 passed, 1 failed\n", without)


# Tests with a bad line each, the number of that line, and why it is bad: a line of the test's own, with an arrow, with a star, of a macro,
# and of a macro that another calls.
BAD_LINES = (
    ("open 1 0\nsubmit 1 8q bulk 8\n", 2, "`8q`: the endpoint isn't two hexadecimal digits"),
    ("submit 1 8q bulk 8 -> h1 number ...\n", 1, "`8q`: the endpoint isn't two hexadecimal digits"),
    ("submit 1 8q bulk 8 *2\n", 1, "`8q`: the endpoint isn't two hexadecimal digits"),
    (
        "macro read\nsubmit 1 $1 bulk 8\nend\nread 8q\n",
        4,
        "in its macro, `submit 1 8q bulk 8`: `8q`: the endpoint isn't two hexadecimal digits",
    ),
    (
        "macro inner\ncancel 64 $1\nend\nmacro outer\ninner $1\nend\n\nouter 5\n",
        8,
        "in its macro, `cancel 64 5`: `64`: the handle isn't a decimal number from 0 to 63",
    ),
)


def with_bad_lines(folder):
    """Tests with a bad line, as files and as standard input, and what is to come of them."""
    for number, (text, line, why) in enumerate(BAD_LINES):
        file = file_of(folder, f"bad{number}.txt", text)
        told = f"usbtrace: {file}: line {line} refused\n    {why}\n"
        yield ["test", file], (1, f"{file}: not tested\n0 passed, 1 failed\n", told), ""
        yield ["test"], (1, "", f"usbtrace: line {line} refused\n    {why}\n"), text


# A device with a bulk endpoint of either direction.
DEVICE = "device 0 0902300002010080320904000002ff00000007058102080000070502020800000904010001ff0000000705830308000a\n"


def that_expect_nothing(folder):
    """Tests that expect nothing, or only packets, and what is to come of them."""
    empty, passed = "open 1 0\n# expect h1 done\n", "1 passed, 0 failed\n"
    file = file_of(folder, "empty.txt", empty)
    yield ["test", file], (0, f"{file}: passed\n{passed}", f"usbtrace: {file} expects nothing\n"), ""
    yield ["test"], (0, "passed\n", "usbtrace: the test expects nothing\n"), empty
    uncalled = "macro opened\nopen 1 0\nexpect h1 refused 3\nend\n"
    yield ["test"], (0, "passed\n", "usbtrace: the test expects nothing\n"), uncalled
    yield ["test"], (0, "passed\n", ""), uncalled + "opened\n"
    yield ["test"], (0, "passed\n", ""), "open 1 0 -> h1 refused 3\n"
    written = DEVICE + "script 0 02 a:0102\nopen 1 0\nclaim 1 0\nsubmit 1 02 bulk x:0102\nserve 0 02\n"
    yield ["test"], (0, "passed\n", ""), written
    fed = written.replace("script 0 02 a:0102\n", "script 0 02 n\n").replace("serve", "feed 0 02 a:0102\nserve 0 02\nserve")
    yield ["test"], (0, "passed\n", ""), fed
    yield ["test"], (0, "passed\n", "usbtrace: the test expects nothing\n"), written.replace("a:0102", "a")


# A test that differs at six lines, and the same as `--update` makes it: there is no device, so each open is refused; and so is the claim,
# since its handle isn't open.
STALE = """open 1 0
expect h1 done
claim 1 0 -> h1 done
expect NOTHING
open 2 0 *2 -> any h2 done
expect h2 refused 4
open 1 0
expect h1 done ...
expect left h1 open
"""
FRESH = """open 1 0
expect h1 refused 3
claim 1 0 -> h1 refused 3
expect NOTHING
open 2 0 *2 -> h2 refused 3
expect h2 refused 3
open 1 0
expect h1 refused 3
expect left NOTHING
"""
# A test whose macro differs, and a line of its own.
CALLED = "macro opened\nopen $1 0\nexpect h$1 done\nend\nopened 1\nopen 2 0 -> h2 done\nopened 3 -> NOTHING\n"


def updated(folder):
    """Tests that are rewritten, what is to come of them, and what is to stand in them then."""
    stale, fresh = file_of(folder, "stale.txt", STALE), file_of(folder, "fresh.txt", FRESH)
    told = f"{stale}: 6 lines updated\n{fresh}: passed\n2 passed, 0 failed\n"
    yield ["test", "--update", stale, fresh], (0, told, ""), {stale: FRESH, fresh: FRESH}
    yield ["test", stale], (0, f"{stale}: passed\n1 passed, 0 failed\n", ""), {stale: FRESH}
    yield ["test", "--update", stale], (0, f"{stale}: passed\n1 passed, 0 failed\n", ""), {stale: FRESH}
    called = file_of(folder, "called.txt", CALLED)
    within = "".join(f"{called}: line {line} differs within its macro: not updated\n" for line in (5, 7))
    now = CALLED.replace("h2 done", "h2 refused 3")
    yield ["test", "--update", called], (1, f"{within}{called}: 1 line updated\n0 passed, 1 failed\n", ""), {called: now}
    bad = file_of(folder, "bad.txt", "open 1 0\nexpect h1 done\nno line\n")
    told = f"usbtrace: {bad}: line 3 refused\n{WHY_NO_VERB}"
    unchanged = {bad: "open 1 0\nexpect h1 done\nno line\n"}
    yield ["test", "--update", bad], (1, f"{bad}: not tested\n0 passed, 1 failed\n", told), unchanged
    refused = "usbtrace: --update: say which files are rewritten, without --junit and --html\n"
    yield ["test", "--update"], (2, "", refused), {}
    yield ["test", "--update", "--junit", "none", fresh], (2, "", refused), {fresh: FRESH}


def judged_updates(folder):
    """What is wrong with tests that are rewritten."""
    for asked, wanted, texts in updated(folder):
        got = ran(asked)
        if got != wanted:
            yield f"usbtrace {' '.join(asked)}:\n  wanted {wanted}\n  got    {got}"
        for file, text in texts.items():
            there = pathlib.Path(file).read_text()
            if there != text:
                yield f"usbtrace {' '.join(asked)}: in {file}\n  wanted {text!r}\n  there  {there!r}"


class Page(html.parser.HTMLParser):
    """A page: its rows, each with its class and its texts; and whether each of its elements is closed where it has to be."""

    def __init__(self, text):
        super().__init__()
        self.open, self.rows, self.is_sound, self.kinds = [], [], True, set()
        self.feed(text)
        self.close()
        self.is_sound = self.is_sound and not self.open

    def handle_starttag(self, tag, attrs):
        self.open.append(tag)
        self.kinds.add(tag)
        if tag == "tr":
            self.rows.append((dict(attrs).get("class"), []))

    def handle_startendtag(self, tag, attrs):
        self.kinds.add(tag)

    def handle_endtag(self, tag):
        self.is_sound = self.is_sound and bool(self.open) and self.open.pop() == tag

    def handle_data(self, data):
        if "tr" in self.open and data.strip():
            self.rows[-1][1].append(data.strip())


def page_name(file):
    """Where the page of a file's test is, in the folder of all pages."""
    return "/".join(name for name in file.split("/") if name not in ("", ".", "..")) + ".html"


def judged_page(folder):
    """What is wrong with the page of a test that differs at its line 14, of 30."""
    lines = [f"# comment {number}" for number in range(1, 31)]
    lines[12], lines[13] = "open 1 0", "expect h1 <done>"
    file = file_of(folder, "paged.txt", "\n".join(lines) + "\n")
    pages = pathlib.Path(folder) / "new" / "pages"
    ran(["test", "--html", str(pages), file, SCENARIOS[0]])
    made = sorted(str(path.relative_to(pages)) for path in pages.rglob("*.html")) if pages.is_dir() else []
    if made != [page_name(file)]:
        return f"usbtrace test --html: made {made}"
    page = Page((pages / made[0]).read_text())
    numbers = [texts[0] for _, texts in page.rows]
    marked = [texts[:2] for kind, texts in page.rows if kind == "differs"]
    steps = [texts[2] for _, texts in page.rows if texts[0] == "13"]
    wanted = ([str(number) for number in range(4, 25)], [["14", "expect h1 <done>"]], True, True)
    got = (numbers, marked, page.is_sound, "svg" in page.kinds)
    if got != wanted:
        return f"usbtrace test --html:\n  wanted {wanted}\n  got    {got}"
    if not steps or not steps[0].startswith("13 open 1 0 | h1 refused 3\n    "):
        return f"usbtrace test --html: below line 13 stands {steps}"
    return None


def with_pages(folder):
    """Words that ask for pages, and what is to come of them."""
    differs = differing(folder)
    told = f"{differs}: line 2 differs\n  wanted h1 done\n  got    h1 refused 3\n0 passed, 1 failed\n"
    page = f"{differs}/{page_name(differs)}"
    yield ["test", "--html", differs, differs], (1, told, f"usbtrace: {page} can't be written\n")
    refused = "usbtrace: --html: say once into which folder, behind it, and which files are tested\n"
    yield ["test", differs, "--html"], (2, "", refused)
    yield ["test", "--html", "pages"], (2, "", refused)
    yield ["test", "--html", "pages", "--html", "pages", differs], (2, "", refused)


# What came of a test that differs, one that passes, one that isn't there and one with a bad line, as XML.
JUNIT = """<?xml version="1.0" encoding="UTF-8"?>
<testsuites>
  <testsuite name="usbtrace" tests="4" failures="1" errors="2">
    <testcase classname="usbtrace" name="{differs}">
      <failure message="line 2 differs">line 2 differs
  wanted h1 done
  got    h1 refused 3
</failure>
    </testcase>
    <testcase classname="usbtrace" name="{passes}"/>
    <testcase classname="usbtrace" name="./none.txt">
      <error message="can't be read">can't be read</error>
    </testcase>
    <testcase classname="usbtrace" name="{bad}">
      <error message="line 1 refused">line 1 refused
    `no`: the first word is no verb, as `device`, `open` or `submit`</error>
    </testcase>
  </testsuite>
</testsuites>
"""


def judged_junit(folder):
    """What is wrong with the XML of four tests; None where nothing is."""
    differs, passes, file = differing(folder), SCENARIOS[0], pathlib.Path(folder) / "results.xml"
    bad = file_of(folder, "no_line.txt", "no line\n")
    ran(["test", "--junit", str(file), differs, passes, "./none.txt", bad])
    wanted = JUNIT.format(differs=differs, passes=passes, bad=bad)
    got = file.read_text() if file.is_file() else "no file"
    return None if got == wanted else f"usbtrace test --junit:\n  wanted {wanted}\n  got    {got}"


# The replies of the rows cancel_amid_transfer and cancel_loses_to_stall.
CANCELLED = """{"handle":1,"reply":"done"}
{"handle":1,"reply":"done"}
{"handle":1,"reply":"number","transfer":0}
{"handle":1,"reply":"moved","transfer":0,"bytes":8}
{"handle":1,"reply":"done"}
{"handle":1,"reply":"refused","refusal":3,"name":"NotFound"}
{"handle":1,"reply":"ran","order":"stop","endpoint":"81","ok":true}
{"handle":1,"reply":"paused","transfer":0}
{"handle":1,"reply":"settled","order":"stop","endpoint":"81","ok":true}
{"handle":1,"reply":"called","transfer":0,"endpoint":"81","round":0,"status":"CANCELLED","actual":8,"data":"0102030405060708"}
{"handle":1,"reply":"ran","order":"move","endpoint":"81","ok":true}
{"handle":1,"reply":"settled","order":"move","endpoint":"81","ok":true}
"""
STALLED = """{"handle":1,"reply":"done"}
{"handle":1,"reply":"done"}
{"handle":1,"reply":"number","transfer":0}
{"handle":1,"reply":"number","transfer":1}
{"handle":1,"reply":"done"}
{"handle":1,"reply":"ended","transfer":0,"code":6}
{"handle":1,"reply":"ran","order":"stop","endpoint":"81","ok":false}
{"handle":1,"reply":"finished","transfer":0}
{"handle":1,"reply":"settled","order":"stop","endpoint":"81","ok":false}
{"handle":1,"reply":"ran","order":"reset","endpoint":"81","ok":true}
{"handle":1,"reply":"settled","order":"reset","endpoint":"81","ok":true}
{"handle":1,"reply":"ran","order":"move","endpoint":"81","ok":true}
{"handle":1,"reply":"settled","order":"move","endpoint":"81","ok":true}
{"handle":1,"reply":"called","transfer":0,"endpoint":"81","round":0,"status":"STALL","actual":0,"data":""}
{"handle":1,"reply":"called","transfer":1,"endpoint":"81","round":0,"status":"CANCELLED","actual":0,"data":""}
"""
DEVICE = "device 0 0902300002010080320904000002ff00000007058102080000070502020800000904010001ff0000000705830308000a\n"
OPENED = "open 1 0\nclaim 1 0\n"
# A write that isn't as expected, and its report.
WRITTEN = f"{DEVICE}script 0 02 a:01\n{OPENED}submit 1 02 bulk x:03\nserve 0 02\n"
SENTENCES = ('"line 6: device 0, endpoint 02: packet 1 differs at offset 0: came [03] (length 1), expected [01] (length 1)"',
             '"what was written isn\'t what the scenario expects: 1 difference"')
# Steps that have reasons: nothing to do, a packet that isn't ready, and a refused step that is nobody's.
QUIET = f"{DEVICE}script 0 81 n\n{OPENED}command\nsubmit 1 81 bulk 8\nserve 0 81\nunplug 0\nunplug 0\n"
QUIET_OBJECTS = """{"line":3,"step":"open 1 0","handle":1,"reply":"done"}
{"line":4,"step":"claim 1 0","handle":1,"reply":"done"}
{"line":5,"step":"command","handle":null,"reply":"idle","reason":"no order waits"}
{"line":6,"step":"submit 1 81 bulk 8","handle":1,"reply":"number","transfer":0}
{"line":7,"step":"serve 0 81","handle":1,"reply":"nak","transfer":0,"reason":"the device isn't ready at 81"}
{"line":8,"step":"unplug 0","handle":null,"reply":"done"}
{"line":9,"step":"unplug 0","handle":null,"reply":"refused","refusal":2,"name":"NoDevice","reason":"device 0 was unplugged"}
"""
QUIET_COLOURED = """3 open 1 0 | h1 done
4 claim 1 0 | h1 done
5 command | - idle
\x1b[2m    no order waits\x1b[0m
6 submit 1 81 bulk 8 | h1 number 0
7 serve 0 81 | h1 nak 0
\x1b[2m    the device isn't ready at 81\x1b[0m
8 unplug 0 | - done
\x1b[31m9 unplug 0 | - refused 2\x1b[0m
\x1b[2m    device 0 was unplugged\x1b[0m
"""
PACKETS = """{"line":3,"step":"open 1 0","handle":1,"reply":"done"}
{"line":4,"step":"claim 1 0","handle":1,"reply":"done"}
{"line":5,"step":"submit 1 81 bulk 8","handle":1,"reply":"number","transfer":0}
{"line":6,"step":"serve 0 81","handle":1,"reply":"ended","transfer":0,"code":1,\
"packet":{"endpoint":"81","direction":"IN","bytes":8,"data":"0102030405060708"}}
{"line":7,"step":"submit 1 81 bulk 8","handle":1,"reply":"number","transfer":1}
{"line":8,"step":"serve 0 81","handle":1,"reply":"ended","transfer":1,"code":13,\
"packet":{"endpoint":"81","direction":"IN","bytes":0,"data":""}}
"""
READ = "submit 1 81 bulk 8\nserve 0 81\n"
NO_VERB = "the first word is no verb, as `device`, `open` or `submit`"


def objects_of_runs():
    """Words by which entries are printed as objects, what is to come of them, and the text that they read."""
    yield ["run", "--json", f"{ROW}.in"], (0, CANCELLED, "")
    yield ["run", "--json", "rows/cancel_loses_to_stall.in"], (0, STALLED, "")
    yield ["explain", "--json"], (0, QUIET_OBJECTS, ""), QUIET
    packets = f"{DEVICE}script 0 81 d:0102030405060708 d:\n{OPENED}{READ}{READ}"
    yield ["run", "--json", "--steps", "--packets"], (0, PACKETS, ""), packets
    done = '{"handle":1,"reply":"done"}\n'
    told = f'{done}{done}{{"handle":1,"reply":"number","transfer":0}}\n{{"handle":1,"reply":"ended","transfer":0,"code":1}}\n'
    sentences = [f'{{"report":{it}}}\n' for it in SENTENCES]
    yield ["run", "--json"], (3, told + "".join(sentences), ""), WRITTEN
    yield ["run", "--json", "--lenient"], (0, told + "".join(sentences), ""), WRITTEN
    yield ["run", "--json"], (1, "", "usbtrace: line 1 refused\n"), "no line\n"


def objects_of_checks():
    """The same of checks."""
    counts = '{"devices":1,"scripts":1,"steps":1}\n'
    told = f'{{"line":4,"problem":"`no`: {NO_VERB}"}}\n'
    yield ["check", "--json"], (1, told + counts, ""), f"{DEVICE}script 0 81 n\nopen 1 0\nno line\n"
    many = "".join(f'{{"line":{at},"problem":"`x`: {NO_VERB}"}}\n' for at in range(1, 1001))
    none = '{"devices":0,"scripts":0,"steps":0}\n'
    yield ["check", "--json"], (1, many + '{"more":2}\n' + none, ""), "x\n" * 1002
    step = '{"line":3,"step":"unplug 0","handle":null,"reply":"refused","refusal":2,"name":"NoDevice","reason":"device 0 was unplugged"}\n'
    yield ["check", "--json"], (0, '{"devices":1,"scripts":0,"steps":2}\n' + step, ""), f"{DEVICE}unplug 0\nunplug 0\n"
    yield ["check", "--json", "-h"], (0, (ROOT / "rows/short_help_of_check.out").read_text(), "")


def objects_of_tests(folder):
    """The same of tests."""
    yield ["test", "--json"], (0, '{"result":"passed"}\n', ""), "open 1 0 -> h1 refused 3\n"
    failed = '"result":"failed","line":2,"wanted":"h1 done","got":"h1 refused 3"}\n'
    yield ["test", "--json"], (1, "{" + failed, ""), "open 1 0\nexpect h1 done\n"
    told = '{"result":"failed","line":2,"wanted":"? \\u001b\\"","got":"h1 refused 3"}\n'
    yield ["test", "--json"], (1, told, ""), 'open 1 0\nexpect \udcff \x1b"\n'
    report = f'"result":"unexpected","report":[{",".join(SENTENCES)}]}}\n'
    yield ["test", "--json"], (3, "{" + report, ""), WRITTEN
    quoted = pathlib.Path(folder) / 'a "b\\c\u00e4.txt'
    quoted.write_text("open 1 0 -> h1 refused 3\n")
    other = pathlib.Path(folder) / "written.txt"
    other.write_text(WRITTEN)
    differs = differing(folder)
    told = (f'{{"file":"{folder}/a \\"b\\\\c\u00e4.txt","result":"passed"}}\n{{"file":"{other}",{report}{{"file":"{differs}",{failed}'
            '{"file":"./none.txt","result":"not tested","reason":"can\'t be read"}\n{"passed":1,"failed":3}\n')
    files = [str(quoted), str(other), differs, "./none.txt"]
    yield ["test", "--json", "--color", "always", *files], (1, told, "usbtrace: ./none.txt can't be read\n")


def judged_full():
    """What is wrong with forms that a full disk refuses; None where nothing is."""
    for form in (["--json"], ["--color", "always"]):
        with open("/dev/full", "wb") as full:
            done = subprocess.run([PROGRAM, "run", *form, f"{ROW}.in"], cwd=ROOT, stdout=full, stderr=subprocess.PIPE, timeout=60)
        if (done.returncode, done.stderr) != (1, b"usbtrace: input or output failed\n"):
            return f"usbtrace run {' '.join(form)} > /dev/full: {done.returncode}, {done.stderr}"
    return None


def coloured(folder):
    """Words with colours, what is to come of them, and the text that they read."""
    red, green, end = "\x1b[31m", "\x1b[32m", "\x1b[0m"
    refused = "open 1 0\n"
    yield ["run", "--color", "always"], (0, f"{red}h1 refused 3{end}\n", ""), refused
    for when in (["--color", "never"], ["--color", "auto"], []):
        yield ["run", *when], (0, "h1 refused 3\n", ""), refused
    yield ["explain", "--color", "always"], (0, QUIET_COLOURED, ""), QUIET
    told = f"{red}line 1: `no`: {NO_VERB}{end}\n0 devices, 0 scripts, 0 steps\n"
    yield ["check", "--color", "always"], (1, told, ""), "no line\n"
    yield ["test", "--color", "always"], (0, f"{green}passed{end}\n", ""), "open 1 0 -> h1 refused 3\n"
    differs, none = differing(folder), "usbtrace: ./none.txt can't be read\n"
    told = (f"{red}{differs}: line 2 differs{end}\n  wanted h1 done\n  got    h1 refused 3\n{green}{SCENARIOS[0]}: passed{end}\n"
            f"{red}./none.txt: not tested{end}\n{red}1 passed, 2 failed{end}\n")
    yield ["test", "--color", "always", differs, SCENARIOS[0], "./none.txt"], (1, told, none)
    yield ["test", "--color", "always", SCENARIOS[0]], (0, f"{green}{SCENARIOS[0]}: passed{end}\n{green}1 passed, 0 failed{end}\n", "")
    bad = (2, "", "usbtrace: --color: say once, behind it: always, never or auto\n")
    for words in (["--color"], ["--color", "red"], ["--color", "auto", "--color", "auto"]):
        yield ["run", *words], bad, refused
    yield ["check", "--color", "always", "-h"], (0, (ROOT / "rows/short_help_of_check.out").read_text(), "")
# A test that names files: descriptors, twelve bytes in answers of eight, and four bytes that are written and expected.
INSERTING = """device 0 @descriptors
script 0 81 d:@twelve/8
script 0 02 a:@four
open 1 0 -> h1 done
claim 1 0 -> h1 done
submit 1 81 bulk 16 -> h1 number 0
serve 0 81 -> h1 moved 0 8
serve 0 81 -> h1 ended 0 code 13
settle -> any h1 called 0 ep 81 round 0 COMPLETED 12 data 000102030405060708090a0b
return 1 0 -> h1 done
submit 1 02 bulk x:@four -> h1 number 1
serve 0 02 -> h1 ended 1 code 1
"""
# One byte more than the files of a text may have.
TOO_LONG = 33_554_433
# Vendor 1209, product 000a, release 12.34, strings 1 to 3; and a configuration with endpoints 81 (IN) and 02 (OUT), packets of 8 bytes.
DEVICE_DESCRIPTOR = bytes.fromhex("120100020000004009120a00341201020301")
CONFIGURATION = bytes.fromhex("0902200001010080320904000002ff0000000705810208000007050202080000")
TWO_INTERFACES = bytes.fromhex(
    "0902300002010080320904000002ff00000007058102080000070502020800000904010001ff0000000705830308000a"
)
DESCRIBED = f"""# 1209:000a, USB 2.00, 1 configuration
# configuration 1: 1 interface
# interface 0: class ff (vendor specific)
#   81 bulk IN, packets of 8 bytes
#   02 bulk OUT, packets of 8 bytes
device 0 {CONFIGURATION.hex()}
ids 0 1209 000a 1234
"""


def with_files(folder):
    """A folder with the files that tests name."""
    path = pathlib.Path(folder) / "files"
    path.mkdir()
    (path / "descriptors").write_bytes(DEVICE_DESCRIPTOR + CONFIGURATION)
    (path / "twelve").write_bytes(bytes(range(12)))
    (path / "four").write_bytes(b"\x0a\x0b\x0c\x0d")
    (path / "none").write_bytes(b"")
    with open(path / "large", "wb") as large:
        large.truncate(TOO_LONG)
    return path


def inserting(path):
    """Words with texts that name files beside them, and what is to come of them."""
    text, bad, large = path / "names.txt", path / "bad.txt", path / "large.txt"
    text.write_text(INSERTING)
    yield ["test", str(text)], (0, f"{text}: passed\n1 passed, 0 failed\n", "")
    bad.write_text("# it isn't there\nscript 0 81 n d:@nowhere/8 n\n")
    told = "line 2: nowhere can't be read\n"
    for word in ("run", "explain", "left", "check", "draw", "capture", "live"):
        yield [word, str(bad)], (1, "", f"usbtrace: {told}")
    yield ["test", str(bad)], (1, f"{bad}: not tested\n0 passed, 1 failed\n", f"usbtrace: {bad}: {told}")
    large.write_text("script 0 81 d:@four\nfeed 0 81 d:@large\n")
    yield ["run", str(large)], (1, "", "usbtrace: line 2: large is too long\n")


def describing(path):
    """Words with a file of descriptors, beside which its strings stand, and what is to come of them."""
    (path / "manufacturer").write_text("Tirnouch\n")
    (path / "product").write_text("Gr\u00f6\u00dfe\n", encoding="utf-8")
    (path / "copy").write_bytes((path / "descriptors").read_bytes())
    strings = "string 0 1 Tirnouch\nstring 0 2 u:47007200f600df006500\n"
    yield ["device", str(path / "descriptors")], (0, DESCRIBED + strings, "")
    yield ["device", str(path / "copy")], (0, DESCRIBED, "")


# Handles whose submissions have rules of their own: transfers 0 and 1 of handle 1 once, and three times; that of handle 2 once. Transfer 1 is
# submitted last, so its resubmissions have the numbers behind it, whatever the threads do.
RULED = f"""\
device 0 {TWO_INTERFACES.hex()}
script 0 81 d:0a d:0b d:0c d:0d
script 0 83 d:1a d:1b
script 0 02 a a
open 1 0
claim 1 0
submit 1 02 bulk x:07
submit 1 81 bulk 1 then=again:COMPLETED:2
open 2 0
claim 2 1
submit 2 83 int 1
"""
RULED_TOLD = """\
h1 called 0 ep 02 round 0 COMPLETED 1 data -
h1 called 1 ep 81 round 0 COMPLETED 1 data 0a
h1 called 2 ep 81 round 1 COMPLETED 1 data 0b
h1 called 3 ep 81 round 2 COMPLETED 1 data 0c
h2 called 0 ep 83 round 0 COMPLETED 1 data 1a
"""


def living(path):
    """A scenario in threads, each of whose callbacks answers by its own rule; and as many callbacks as `--rounds` allows, and one more."""
    text = path / "ruled.txt"
    text.write_text(RULED)
    told = "usbtrace: more than 4 callbacks are called: --rounds sets how many may be\n"
    yield ["live", str(text)], (0, RULED_TOLD, "")
    yield ["live", "--rounds", "5", str(text)], (0, RULED_TOLD, "")
    yield ["live", "--rounds", "4", str(text)], (1, "", told)


def judged_input(path):
    """What is wrong with a scenario on standard input, of which the files are in the current folder; None where nothing is."""
    text = "device 0 @descriptors\nscript 0 81 d:@none/8 d:@four\nopen 1 0\nclaim 1 0\nsubmit 1 81 bulk 8\nserve 0 81\n"
    done = subprocess.run([PROGRAM, "run"], cwd=path, input=text.encode(), capture_output=True, timeout=60)
    wanted, got = "h1 done\nh1 done\nh1 number 0\nh1 ended 0 code 13\n", done.stdout.decode() + done.stderr.decode()
    return None if got == wanted else f"usbtrace run, of standard input:\n  wanted {wanted}\n  got    {got}"


def cases(folder):
    """Words, what is to come of them, and the text that they read, if they read one."""
    passed = "".join(f"{name}: passed\n" for name in SCENARIOS)
    differs = differing(folder)
    told = f"{differs}: line 2 differs\n  wanted h1 done\n  got    h1 refused 3\n"
    yield ["test", *SCENARIOS], (0, f"{passed}{len(SCENARIOS)} passed, 0 failed\n", "")
    yield ["test", differs, SCENARIOS[0]], (1, f"{told}{SCENARIOS[0]}: passed\n1 passed, 1 failed\n", "")
    yield ["test", "./none.txt"], (1, "./none.txt: not tested\n0 passed, 1 failed\n", "usbtrace: ./none.txt can't be read\n")
    yield ["test", "scenarios/"], (0, f"{passed}{len(SCENARIOS)} passed, 0 failed\n", "")
    yield from in_folders(folder)
    yield from with_pages(folder)
    yield ["run", f"{ROW}.in"], (0, (ROOT / f"{ROW}.out").read_text(), "")
    yield ["run", "./none.txt"], (1, "", "usbtrace: ./none.txt can't be read\n")
    yield ["run", f"{ROW}.in", f"{ROW}.in"], (2, "", "usbtrace: only `test` takes more than one file\n")
    path = with_files(folder)
    yield from inserting(path)
    yield from describing(path)
    yield from living(path)
    yield ["--version"], (0, "usbtrace 0.1.0\n", "")
    yield from objects_of_runs()
    yield from objects_of_checks()
    yield from objects_of_tests(folder)
    yield from coloured(folder)


def all_wrong(folder):
    """All that is otherwise than it is to be."""
    for asked, wanted, *text in [*cases(folder), *with_bad_lines(folder), *that_expect_nothing(folder)]:
        got = ran(asked, *text)
        if got != wanted:
            yield f"usbtrace {' '.join(asked)}:\n  wanted {wanted}\n  got    {got}"
    yield from filter(None, [judged_junit(folder), judged_page(folder), judged_full(), judged_input(pathlib.Path(folder) / "files")])
    yield from judged_updates(folder)


def main(words):
    if words != ["check"]:
        print(__doc__)
        return 2
    with tempfile.TemporaryDirectory() as folder:
        wrong = list(all_wrong(folder))
    for one in wrong:
        print(one)
    return 1 if wrong else 0


sys.exit(main(sys.argv[1:]))
