#!/usr/bin/env python3
"""Runs the commands that the documents show and compares what they print; checks links, names, man page and completions.

usage: tests/documents.py SPPROF

In a document a block, fenced or indented by four spaces, shows commands if lines of it begin with `$ `; what follows such
a line is what the command prints, with `...` for lines that are left out. A block whose first line is a command shows
commands alone. Each is run, in order, by one shell for a document, in a copy of the folder; `./spprof` and `spprof` are
SPPROF there. Those of NOT_RUN aren't run. A status other than 0 is right only where what is printed is shown. Besides:

- where the paragraph above says `into a file `NAME``, the block is put into that file;
- where it says `The file `NAME`, N bytes`, the hexadecimal digits of the block are the bytes of that file;
- below the comment `<!-- times differ -->` numbers may be others.

Ends with a line `N passed, M failed`."""
import glob
import os
import re
import shutil
import subprocess
import sys
import tempfile
import textwrap

TOP = os.path.dirname(os.path.dirname(os.path.realpath(__file__)))
DOCUMENTS = ["README.md", "docs/*.md", "examples/**/*.md", "bench/*.md", "release/*.md", "tests/**/*.md"]

# How the commands begin that aren't run here, and why.
NOT_RUN = [
    (r"(\./)?test$", "it takes an hour, and runs this script"),
    (r"\./spprof --build", "it takes half an hour; ./test builds the same"),
    (r"rt ", "the toolchain's; ./test calls what is needed"),
    (r"(\w+=\S+ )*(gcc|g\+\+|clang|clang\+\+|cc) ", "what is compiled and recorded depends on the compiler; the tests of the recorders do so"),
    (r"(\S*/)?record\.sh", "the same"),
    (r"(for n in [\d ]+; do )?(OMP_NUM_THREADS|SPTRACE)=", "the same"),
    (r"spprof profile out\.sptrace", "the same: its trace is what the command above it records"),
    (r"bench/", "by hand, on an idle machine, for minutes"),
    (r"tests/fuzz/", "by hand, for an hour"),
    (r"tests/documents\.py", "it is this script"),
    (r"tests/instructions\.py", "it writes a list of the repository anew; ./test runs it"),
    (r"(git|release/make|cp -r bench|grep '\^bench_jobs'|for top in) ?", "it changes or copies the checkout"),
]

COMMAND = re.compile(
    r"(\w+=\S* )*((\./|examples/|bench/|tests/|release/)\S|(awk|b2sum|cat|cc|cd|clang|clang\+\+|cmp|cp|diff|echo|export|for|g\+\+|gcc"
    r"|git|grep|head|install|make|man|mkdir|perf|printf|python3|rm|rt|sed|seq|sort|source|spprof|tail|time)( |$))")
IS_SPPROF = re.compile(r"(^|[|;&(] *)(\./)?spprof ")
FAULT = "FAILED documents: "

passed = failed = 0


def judge(what, *wrong):
    """Counts one test, which has passed where nothing is wrong."""
    global passed, failed
    if wrong:
        failed += 1
        print(FAULT + what + ": " + "; ".join(wrong))
    else:
        passed += 1


def differ(have, wanted):
    """What is wrong where two collections should have the same members."""
    wrong = []
    if set(wanted) - set(have):
        wrong.append("it lacks " + ", ".join(sorted(set(wanted) - set(have))))
    if set(have) - set(wanted):
        wrong.append("it has too much: " + ", ".join(sorted(set(have) - set(wanted))))
    return wrong


def read(name):
    with open(os.path.join(TOP, name), encoding="utf-8") as file:
        return file.read()


# Documents, as blocks and text.

class Block:
    """A block of a document: its lines, where it stands, the language that the fence names and the paragraph above."""

    def __init__(self, name, number, language, above, lines):
        self.place = f"{name}:{number}"
        self.language = language
        self.above = above
        self.lines = lines


def parted(name):
    """The blocks of a document, and all its other lines."""
    blocks, others, above = [], [], []
    lines = read(name).split("\n")
    at = 0
    while at < len(lines):
        line, first = lines[at], at
        fence = re.match(r"( *)(```+|~~~+) *(\S*)", line)
        body = []
        if fence:
            at += 1
            while at < len(lines) and not lines[at].lstrip().startswith(fence[2]):
                body.append(lines[at].removeprefix(fence[1]))
                at += 1
            at += 1
        elif line.startswith("    ") and (at == 0 or not lines[at - 1].strip()):
            while at < len(lines) and (lines[at].startswith("    ") or not lines[at].strip()):
                body.append(lines[at][4:])
                at += 1
            while not body[-1].strip():
                body.pop()
        else:
            at += 1
            others.append(line)
            if line.strip():
                above = above + [line] if first and lines[first - 1].strip() else [line]
            continue
        body = textwrap.dedent("\n".join(body)).split("\n")
        blocks.append(Block(name, first + 1, fence[3] if fence else "", " ".join(above), body))
        others.append("")
    return blocks, "\n".join(others)


def commands_of(block):
    """The commands that a block shows: of each its text, and the lines that are shown for what it prints, or None."""
    found = []
    lines = iter(block.lines)
    if any(line.startswith("$ ") for line in block.lines):
        for line in lines:
            if line.startswith("$ "):
                command = line[2:]
                while command.endswith("\\"):
                    command = command[:-1] + next(lines, "").removeprefix("> ")
                found.append((command, []))
            elif found:
                found[-1][1].append(line)
            else:
                judge(block.place, "lines before the first command: " + line)
    elif block.language in ("", "sh", "bash", "console") and COMMAND.match(next(filter(str.strip, block.lines), "")):
        for line in lines:
            while line.endswith("\\"):
                line = line[:-1] + next(lines, "")
            if line.strip() and not line.startswith("#"):
                found.append((line.strip(), None))
    else:
        for line in filter(IS_SPPROF.search, lines):
            judge(block.place, "a command among other lines isn't run: " + line)
    return found


def is_shown(wanted, printed):
    """Whether lines are those that are wanted, in which `...` stands for any number of lines."""
    runs = [[]]
    for line in wanted:
        if line.strip() == "...":
            runs.append([])
        else:
            runs[-1].append(line)
    if len(runs) == 1:
        return wanted == printed
    first, last = runs[0], runs[-1]
    end = len(printed) - len(last)
    if printed[:len(first)] != first or printed[end:] != last or end < len(first):
        return False
    at = len(first)
    for run in runs[1:-1]:
        while at + len(run) <= end and printed[at:at + len(run)] != run:
            at += 1
        if at + len(run) > end:
            return False
        at += len(run)
    return True


def trimmed(lines, hides_numbers):
    """Lines without blanks at their ends, and without empty lines at the end."""
    lines = [line.rstrip() for line in lines]
    if hides_numbers:
        lines = [re.sub(r"\s+", " ", re.sub(r"\d[\d.,]*", "#", line)) for line in lines]
    while lines and not lines[-1]:
        lines.pop()
    return lines


def why_not_run(command):
    return next((why for begin, why in NOT_RUN if re.match(begin, command)), None)


RUN_ALL = """
at=0
for command; do
    eval "$command" > "$OUT/$at" 2>&1 < /dev/null
    echo $? > "$OUT/$at.status"
    at=$((at + 1))
done"""


def run_document(name, blocks, spprof):
    """Runs what a document shows in a copy of the folder, and compares. Gives how many commands were run and how many not."""
    with tempfile.TemporaryDirectory() as scratch:
        folder, out = os.path.join(scratch, "top"), os.path.join(scratch, "out")
        path = os.path.join(scratch, "path")
        for new in (folder, out, path, os.path.join(scratch, "home")):
            os.mkdir(new)
        for entry in os.listdir(TOP):
            source, target = os.path.join(TOP, entry), os.path.join(folder, entry)
            if entry in ("examples", "release", "docs", "completions"):
                shutil.copytree(source, target, ignore=shutil.ignore_patterns("out"))
            elif entry not in ("spprof", ".git", "out"):
                os.symlink(source, target)
        for link in (os.path.join(folder, "spprof"), os.path.join(path, "spprof")):
            os.symlink(spprof, link)

        shown, left = [], 0
        for block in blocks:
            check_bytes(block)
            file = re.search(r"into (?:a|the) file `([^`/]+)`", block.above)
            if file:
                with open(os.path.join(folder, file[1]), "w", encoding="utf-8") as target:
                    target.write("".join(line + "\n" for line in block.lines))
            else:
                commands = commands_of(block)
                shown += [(block, command, wanted) for command, wanted in commands if not why_not_run(command)]
                left += sum(1 for command, _ in commands if why_not_run(command))
        if not shown:
            return 0, left
        surroundings = {**os.environ, "LC_ALL": "C.UTF-8", "OUT": out, "HOME": os.path.join(scratch, "home")}
        surroundings["PATH"] = path + ":" + os.environ["PATH"]
        words = ["bash", "-c", RUN_ALL, "bash", *(command for _, command, _ in shown)]
        try:
            subprocess.run(words, cwd=folder, env=surroundings, timeout=60, check=False)
        except subprocess.TimeoutExpired:
            pass
        for number, (block, command, wanted) in enumerate(shown):
            wrong = []
            try:
                with open(os.path.join(out, f"{number}.status"), encoding="ascii") as file:
                    status = int(file.read())
                with open(os.path.join(out, str(number)), encoding="utf-8", errors="replace") as file:
                    printed = file.read().split("\n")
            except (OSError, ValueError):
                status, printed = 0, []
                wrong.append("it didn't end in time")
            hides_numbers = "<!-- times differ -->" in block.above
            printed = trimmed(printed, hides_numbers)
            if status and not (wanted and printed):
                wrong.append(f"status {status}")
            if wanted is not None and not is_shown(trimmed(wanted, hides_numbers), printed):
                wrong.append("it prints\n    " + "\n    ".join(printed[:40]))
            elif wanted is None and status:
                wrong.append("it prints\n    " + "\n    ".join(printed[:40]))
            judge(f"{block.place}: {command}", *wrong)
    return len(shown), left


def check_bytes(block):
    """Compares a block of hexadecimal digits with the file that the paragraph above names."""
    file = re.search(r"The file `([^`]+)`, (\d+) bytes", block.above)
    if file:
        digits = "".join(re.split(" {3,}", line)[0].replace(" ", "") for line in block.lines)
        with open(os.path.join(TOP, file[1]), "rb") as source:
            has = source.read()
        judge(f"{block.place}: {file[1]}", *[] if digits == has.hex() and len(has) == int(file[2]) else ["it has other bytes"])


# Names and links.

def slug(heading):
    """The anchor of a heading."""
    return re.sub(r"[^\w\- ]", "", heading.strip().lower()).replace(" ", "-")


def anchors(name):
    return {slug(line.lstrip("#")) for line in parted(name)[1].split("\n") if line.startswith("#")}


def check_links(name, text):
    for link in re.findall(r"\]\(([^)\s]+)\)", re.sub(r"`[^`]*`", "", text)):
        if re.match(r"[a-z]+:", link):
            continue
        path, _, anchor = link.partition("#")
        target = os.path.normpath(os.path.join(os.path.dirname(name), path)) if path else name
        wrong = [] if os.path.exists(os.path.join(TOP, target)) else ["there is no such file"]
        if not wrong and anchor and anchor not in anchors(target):
            wrong.append("there is no such heading")
        judge(f"{name}: the link {link}", *wrong)


def all_files():
    """The files of the repository, without what is built."""
    found = []
    for folder, folders, files in os.walk(TOP):
        folders[:] = [entry for entry in folders if entry not in (".git", "out", "__pycache__")]
        found += [os.path.relpath(os.path.join(folder, file), TOP) for file in files]
    return found


def check_names(name, text, files):
    """Each file or folder that a text names is there: of a path whose first folder stands at the top, or of a source's name."""
    tops = "|".join(entry for entry in os.listdir(TOP) if os.path.isdir(os.path.join(TOP, entry)) and entry[0] != "." and entry != "out")
    paths = set()
    for found in re.finditer(rf"(?<![\w./-])((?:{tops})/[\w./-]*)(.?)", text):
        if found[2] not in ("*", "{", "<", "$", "["):
            paths.add(found[1].rstrip("./,-"))
    for path in sorted(paths):
        is_built = re.search(r"(^|/)(out|bin)(/|$)", path)
        is_there = any(os.path.exists(os.path.join(TOP, folder, path)) for folder in ("", os.path.dirname(name)))
        judge(f"{name}: {path}", *[] if is_built or is_there else ["there is no such file or folder"])
    for span in sorted(set(re.findall(r"`([\w./-]+\.(?:md|rt|antt|edit|py))`", text))):
        has = any(file == span or file.endswith("/" + span) for file in files)
        judge(f"{name}: {span}", *[] if has else ["there is no such file"])


def check_spans(name, text, helps):
    """Each command within a text, as `spprof COMMAND --option`, has a command and options that there are."""
    for span in set(re.findall(r"`(?:\./)?spprof ([^`]+)`", re.sub(r"\s+", " ", text))):
        words = re.split(r"[|>&;]", span)[0].split()
        if not words or not re.fullmatch(r"[a-z]+", words[0]):
            continue
        options = set(re.findall(r"--[a-z][a-z-]*", " ".join(words)))
        if words[0] == "help":
            wrong = [] if len(words) == 1 or words[1] in helps or words[1].isupper() else ["there is no such command"]
        elif words[0] not in helps:
            wrong = ["there is no such command"]
        else:
            wrong = [f"there is no {option}" for option in sorted(options - set(helps[words[0]].options))]
        judge(f"{name}: `spprof {span}`", *wrong)


# What the program says of itself.

class Help:
    """What the help of a command names: its options with their texts, and its operands."""

    def __init__(self, text):
        self.text = text
        self.about = text.split("\n")[0]
        self.options, self.short = {}, []
        for line in text.split("\n"):
            option = re.match(r" +(?:(-\w), )?(--[\w-]+)(?: <(\w+)>)? +(\S.*)", line)
            if option:
                self.short += [option[1]] if option[1] else []
                self.options[option[2]] = option[4]
        usage = re.search(r"Usage: \S+ \w* *(.*)", text)
        self.operands = [word.strip("[]<>") for word in usage[1].split() if word != "[OPTIONS]"] if usage else []

    def offers(self):
        return list(self.options) + self.short


def ask(spprof, *words):
    ran = subprocess.run([spprof, *words], stdin=subprocess.DEVNULL, capture_output=True, text=True, timeout=60, check=False)
    return ran.stdout


def table(text, heading):
    """Pairs of word and text that stand below a heading of the help."""
    lines = text[text.index(heading):].split("\n")[1:]
    pairs = []
    for line in lines:
        pair = re.match(r"  (\S+) +(\S.*)", line)
        more = re.match(r"     +(\S.*)", line)
        if pair:
            pairs.append((pair[1], pair[2]))
        elif more and pairs:
            pairs[-1] = (pairs[-1][0], pairs[-1][1] + " " + more[1])
        else:
            break
    return pairs


# The man page.

class Page:
    """A man page: sections, by name; in each the paragraphs with a tag, as pairs, and all of its text."""

    def __init__(self, source):
        self.tagged, self.text, self.synopses, self.title = {}, {}, [], ""
        section, wants_tag, entry = None, False, None
        for line in source.split("\n"):
            macro, words = None, []
            if line.startswith("."):
                macro, *words = re.findall(r'"[^"]*"|\S+', line[1:])
                words = [self.plain(word.strip('"')) for word in words]
            joined = (" " if macro in ("B", "I") else "").join(words) if macro else self.plain(line)
            if macro == "TH":
                self.title = " ".join(words)
            elif macro in ("SH", "SS"):
                section, entry = " ".join(words), None
                self.tagged[section], self.text[section] = [], ""
            elif macro == "SY":
                self.synopses.append([])
            elif macro == "OP":
                self.synopses[-1].append(words[0])
            elif macro == "TP":
                wants_tag = True
            elif macro in ("PP", "YS", "EX", "EE", "in"):
                entry = None if macro == "PP" else entry
            elif wants_tag:
                wants_tag, entry = False, [joined, ""]
                self.tagged[section].append(entry)
            elif section:
                self.text[section] += joined + " "
                if entry:
                    entry[1] += joined + " "
                if section == "SYNOPSIS":
                    self.synopses[-1] += joined.split()

    @staticmethod
    def plain(text):
        return re.sub(r"\\f.|\\&", "", text).replace("\\-", "-")

    def tags(self, section):
        return [tag for tag, _ in self.tagged[section]]


def check_man(spprof, top_help, helps, commands):
    name = "docs/spprof.1"
    page = Page(read(name))
    judge(f"{name}: the version", *[] if ask(spprof, "--version").strip() in page.title else ["it is another"])
    judge(f"{name}: the commands", *differ(page.tags("COMMANDS"), [*commands, "help"]))
    for command, about in commands.items():
        told = dict(page.tagged["COMMANDS"]).get(command, "")
        judge(f"{name}: what {command} does", *[] if told.startswith(about) else ["it isn't what the help says: " + about])
        synopsis = next((words for words in page.synopses if words and words[0] == command), [])
        wanted = [option for option in helps[command].options if option != "--help"]
        judge(f"{name}: the options of {command}", *differ([word for word in synopsis if word.startswith("--")], wanted))
        operands = [word.strip("[]") for word in synopsis[1:] if word.strip("[]").isupper()]
        judge(f"{name}: what {command} wants", *differ(operands, helps[command].operands))
    told = {}
    for tag, text in page.tagged["OPTIONS"]:
        for option in re.findall(r"--[\w-]+|(?<=^)-\w\b", tag):
            told[option] = text
    wanted = {}
    for one in (top_help, *helps.values()):
        wanted.update({**dict.fromkeys(one.short, ""), **one.options})
    judge(f"{name}: the options", *differ(told, wanted))
    for option, about in wanted.items():
        default = re.findall(r"\[default: (\S+)\]", about)
        says = re.findall(r"[Tt]he default is (\d+)", told.get(option, ""))
        judge(f"{name}: the default of {option}", *[] if default == says else ["it isn't that of the help"])
        span = re.search(r"\d+ to \d+", about)
        judge(f"{name}: the range of {option}", *[] if not span or span[0] in told.get(option, "") else ["it isn't that of the help"])
    statuses = [f"{tag} {text}".strip().rstrip(".").lower() for tag, text in page.tagged["EXIT STATUS"]]
    judge(f"{name}: the statuses", *differ(statuses, [f"{tag} {text}".lower() for tag, text in table(top_help.text, "Exit status:")]))

    report = ask(spprof, "profile", os.path.join(TOP, "examples/small.sptrace")).split("\n")
    columns = report[report.index("whole dag") + 1].split()
    judge(f"{name}: the columns", *differ(page.tags("Columns"), columns))
    judge(f"{name}: the figures", *differ(page.tags("Figures"), [line.rpartition(" ")[0] for line in report[:5]]))
    judge(f"{name}: the tables", *differ(page.tags("Tables"), [above for above, line in zip(report, report[1:]) if line.split()[:1] == ["count"]]))
    both = ask(spprof, "compare", *[os.path.join(TOP, "examples/small.sptrace")] * 2).split("\n")[6].split()
    judge(f"{name}: the columns of compare", *differ(page.tags("Comparison"), {column[:-2] for column in both if column != "name"}))
    advice = ask(spprof, "advise", os.path.join(TOP, "examples/small.sptrace")).split("\n")
    tables = [line for blank, title, line in zip(advice, advice[1:], advice[2:]) if not blank and not title.startswith("begin ")]
    headings = {word for line in tables for word in line.split()}
    tags = {word for tag in page.tags("Advice") for word in tag.split(", ")}
    judge(f"{name}: the columns of advise", *differ(tags, headings))
    rows = re.search(r"\| Column .*?\n\n", read("README.md"), re.S)
    judge("README.md: the columns", *differ(re.findall(r"`(\w+)`", rows[0] if rows else ""), columns))
    judge("README.md: the figures", *differ(re.findall(r"^- \*([\w ]+)\*: ", read("README.md"), re.M), page.tags("Figures")))

    examples = re.findall(r"^\.EX\n(?:.*?)(spprof .*)\n\.EE", read(name), re.M)
    check_spans(name, "".join(f"`{example}` " for example in examples), helps)
    for tool, words in (("groff", ["-man", "-Tutf8", "-ww", name]), ("man", ["--warnings", "-l", name])):
        if shutil.which(tool):
            ran = subprocess.run([tool, *words], cwd=TOP, stdin=subprocess.DEVNULL, capture_output=True, text=True, timeout=60, check=False)
            judge(f"{name}: {tool}", *[] if ran.returncode == 0 and len(ran.stdout) > 1000 and not ran.stderr else [ran.stderr or "it shows nothing"])
        else:
            print(f"documents: {tool} isn't here, so it didn't render the man page")


# The completions.

COMPLETE = """
source "$1"
shift
COMP_WORDS=("$@") COMP_CWORD=$(($# - 1)) COMP_LINE="$*" COMP_POINT=${#COMP_LINE}
_spprof spprof "${COMP_WORDS[COMP_CWORD]}" "${COMP_WORDS[COMP_CWORD - 1]}" && printf '%s\\n' "${COMPREPLY[@]}"
"""


def check_completions(top_help, helps, commands):
    name = "completions/spprof.bash"
    with tempfile.TemporaryDirectory() as folder:
        for file in ("before.sptrace", "two words", "-dash"):
            with open(os.path.join(folder, file), "w", encoding="ascii"):
                pass
        os.mkdir(os.path.join(folder, "sub"))

        def bash(script, *words):
            words = ["bash", "--norc", "-c", script, "bash", os.path.join(TOP, name), *words]
            return subprocess.run(words, cwd=folder, stdin=subprocess.DEVNULL, capture_output=True, text=True, timeout=60, check=False)

        def offers(wanted, *words):
            ran = bash(COMPLETE, "spprof", *words)
            offered = [line for line in ran.stdout.split("\n") if line]
            wrong = differ(offered, wanted)
            if ran.stderr or len(offered) != len(set(offered)):
                wrong.append(ran.stderr or "it offers one twice")
            judge(f"{name}: {' '.join(words)!r}", *wrong)

        registered = bash('source "$1" && complete -p spprof').stdout
        judge(f"{name}: it stands for spprof", *[] if " -F _spprof " in registered else ["it doesn't"])
        everything = ["before.sptrace", "two words", "-dash", "sub"]
        offers([*commands, "help"], "")
        offers(top_help.offers(), "-")
        offers(list(commands), "help", "")
        offers([], "help", "check", "")
        offers([], "nothing", "")
        for command, one in helps.items():
            offers([command], command)
            offers(one.offers(), command, "-")
            offers(everything, command, "")
            offers(["two words"], command, "tw")
            offers(["-dash"], command, "--", "-")
            for option, about in one.options.items():
                takes_value = re.search(rf"{option} <", one.text)
                offers([other for other in one.options if other.startswith(option)], command, option)
                if takes_value:
                    offers([], command, option, "")
                    offers([], command, option, "=")
                    offers([], command, option, "=", "3")
                    offers(everything, command, option, "=", "3", "")
                    offers(everything, command, option, "3", "")
                offers([other for other in one.offers() if other != option], command, option, *["3"] * bool(takes_value), "-")


def main(spprof):
    top_help = Help(ask(spprof, "help"))
    commands = dict(table(top_help.text, "Commands:"))
    helps = {command: Help(ask(spprof, "help", command)) for command in commands}
    names = sorted({os.path.relpath(path, TOP) for pattern in DOCUMENTS for path in glob.glob(os.path.join(TOP, pattern), recursive=True)})
    names = [name for name in names if "/out/" not in name]
    files = all_files()
    runs, left = {}, 0
    for name in names:
        blocks, text = parted(name)
        runs[name], others = run_document(name, blocks, spprof)
        left += others
        check_links(name, text)
        check_names(name, text, files)
        check_spans(name, text, helps)
    for name in ("README.md", "docs/FORMATS.md", "examples/REPORTS.md"):
        judge(f"{name}: it shows commands", *[] if runs.get(name) else ["none was found"])
    check_man(spprof, top_help, helps, commands)
    check_completions(top_help, helps, commands)
    print(f"documents: {sum(runs.values())} commands were run, and {left} not (NOT_RUN in tests/documents.py says why)")
    print(f"{passed} passed, {failed} failed")
    return failed != 0


if __name__ == "__main__":
    if len(sys.argv) != 2:
        sys.exit(__doc__)
    sys.exit(main(os.path.realpath(sys.argv[1])))
