#!/usr/bin/env python3
"""Wrong bodies: plants the bugs that are listed in the folder `wrong`, many at once, and says of each what refuses it.

Usage: bench/wrong.py [--jobs N] [--keep CLONE] CRATE..      tries the wrong bodies of these crates; CRATE/NAME is one of them
       bench/wrong.py [--jobs N] [--keep CLONE] --all        tries all of them, in the order of crates.txt
       bench/wrong.py --list [CRATE..]                       tries nothing: counts them, and looks whether each still applies

`wrong/CRATE.edit` has the wrong bodies of a crate, with an empty line between two of them, and comments behind a `#` that begins a line:

    name: negative_rounds_toward_zero            once in a file
    user: what somebody who runs the daemon, sends points to it or looks at its graphs would see
    refused: contract                            the proof of the changed function fails
             test CRATE NAME                     or the test of this name in that crate of tests does; without a NAME, any
             nothing, REASON                     or it is let through, and why that is so
    file: src/x.rt                               in the crate's folder; or a file of `proofs` whose names are to fit the bug
    old: text                                    what stands once in that file, in one line
    new: text                                    and the bug in its place; further pairs, behind a file of their own or not, may follow

They are tried in a clone of what is committed here, which is removed at the end. With `--keep CLONE` it is made there and stays, and one that is
there is brought to what is committed here: the next run then begins with what this one proved. What the last check of each round said is then
in CLONE/out/wrong. `rt check` also begins with what was proved in other copies on this machine, while their folders `out` stand. The libraries
below a crate are built first, each by itself, and their minutes are told apart from those of the crate.

A round plants as many bodies as fit, and is one `rt check --allow-holes` of the crate. A function gets one body at most, and none if it calls one
that gets another, by the names that stand in its text where a function may. Then each body's functions are judged by what the check says of them and of their closures:

    contract     something of their own is not proved: a clause, an invariant, what a callee requires. Where the check only came to a limit of the
                 prover, that is said
    proof file   all that fails is that a proof file names what the body took away, which says nothing of the contract. Such a body is tried again
                 (three times at most) with the names in that file that the check asks for, or that the body's own words make of them
    let through  nothing of their own fails, and what they call is proved: where the check only says `it calls Y`, and Y or what Y calls has another
                 body, it may not have come to what is their own, and the body is tried again alone
    bad          the body does not apply or does not compile, or the check has no line for its function

A bug in a constant counts as one in each function that names it. Bodies in what is neither a function nor a constant, and those of which a round
leaves a doubt (a proof of no function fails, or one of a function without a body), are tried again alone. Where a round does not compile, the
bodies on the lines that the compiler names are tried again alone and the others together; where it names none of theirs, each half by itself.

Bodies that a test refuses are planted one at a time, and `rt try --test` interprets that test alone (it takes one name), or the whole crate of
tests where none is named. The test first has to pass in a run without bodies.

Prints a line for each body, and a table at the end; the minutes are those of the processor. The status is 1 if a body came out weaker than its
line `refused` says (proof file is weaker than contract, and let through than both), is bad, or could not be tried.
"""
import collections
import difflib
import itertools
import os
import re
import resource
import shutil
import signal
import subprocess
import sys
import tempfile

ROOT = os.path.dirname(os.path.dirname(os.path.abspath(__file__)))
CONTRACT, PROOF_FILE, TEST, LET, BAD, UNTRIED = "contract", "proof file", "test", "let through", "bad", "not tried"
FN = re.compile(r"( *)(?:pub(?:\([a-z ]+\))? )?(?:const |unsafe )*fn (\w+)")
ITEM = re.compile(r"(?:pub(?:\([a-z ]+\))? )?(?:const|static) (\w+)\s*:")
IMPL = re.compile(r"impl\b(?:<.*?>)? (?:(?:\w+::)*(\w+)(?:<(?:\w+::)*(\w+).*>)? for )?(?:\w+::)*(\w+)")
TYPE = re.compile(r"(?:pub(?:\([a-z ]+\))? )?(?:struct|enum|union) (\w+)")
TRAIT = re.compile(r"(?:pub(?:\([a-z ]+\))? )?trait (\w+)")
CALL = re.compile(r"\b(\w+)\s*(?:::<[^;{}]*>)?\s*\(")
ARGUMENT = re.compile(r"[(,]\s*(?:\w+::)*(\w+)\s*(?=[,)])")
SAID = re.compile(r"(fn|impl|struct|enum|trait|union|const|static) (\S+): (.*)")
ERROR = re.compile(r"(?:\./)?((?:src|specs|proofs)/\S+?):(\d+):\d+: error(\[[\w-]+\])?: (.*)")
NAMES = re.compile(r"has no field|has no `|is not in scope|can be named from here|no such|names nothing|is no name")
FOLLOWS = re.compile(r"was not admitted|which antt refuses|not checked, since")
LIMIT = re.compile(r"could not tell|stopped at the step limit|outgrew the memory limit|ran out of (?:stack|the (?:steps|memory))")
# What `rt` says of its own state, after which the check has judged nothing.
UNSOUND = re.compile(r"the kept work of a library could not be used|No space left on device")
# How the names of a proof call what the code writes by a sign.
SIGNS = {"<": "lt", "<=": "le", ">": "gt", ">=": "ge", "==": "eq", "!=": "ne"}
LIBRARIES = "(libraries)"

# (home: the file of the module that the check names it by, which for a method of a type's own is that of the type)
Function = collections.namedtuple("Function", "file first last scopes name text home")


class Body:
    """A wrong body, as it stands in `wrong`, and what was found of it."""

    def __init__(self, crate, fields, pairs, at):
        self.crate, self.fields, self.pairs, self.at = crate, fields, pairs, at
        self.name = fields.get("name", "?")
        self.refused = fields.get("refused", "")
        words = self.refused.split()
        self.tests = words[1:] if words[:1] == ["test"] else None
        self.lines = {}  # by file and number, from 0: what stands there with the bug
        self.functions = []
        self.is_loose = False  # it changes what is neither a function nor a constant
        self.fittings = 0  # how often its functions' proof files were given names that it makes
        self.verdict, self.why = None, ""

    def wanted(self):
        return TEST if self.tests else LET if self.refused.startswith("nothing") else CONTRACT

    def is_weaker(self):
        order = [LET, PROOF_FILE, CONTRACT]
        if self.wanted() == TEST:
            return self.verdict != TEST
        return self.verdict not in order or order.index(self.verdict) < order.index(self.wanted())

    def end(self, verdict, why=""):
        self.verdict, self.why = verdict, why
        why = ", ".join(filter(None, [why, "with fitted names" if self.fittings else ""]))
        mark = " <-- weaker than it says" if self.is_weaker() else ""
        if self.wanted() == LET and verdict in (PROOF_FILE, CONTRACT):
            mark = " (stronger than it says)"
        where = ", ".join(sorted({it.name for it in self.functions})) or "-"
        print("%-11s  %s %s [%s]%s%s" % (verdict, self.crate, self.name, where[:60], why and ": " + why, mark), flush=True)


def bodies_of(crate):
    """Reads a file of `wrong`, and stops at what is not in its form."""
    path = "%s/wrong/%s.edit" % (ROOT, crate)
    found, fields, pairs, file, old = [], {}, [], None, None
    begun = 0

    def fault(number, why):
        sys.exit("%s:%d: %s" % (os.path.relpath(path), number, why))

    with open(path, encoding="utf-8") as it:
        lines = it.read().split("\n")
    for number, line in enumerate(lines + [""], 1):
        if line.startswith("#"):
            continue
        if not line.strip():
            if fields or pairs:
                if old is not None or not pairs or not {"name", "user", "refused"} <= set(fields):
                    fault(begun, "it wants a name, user, refused, file, old and new")
                if not re.fullmatch(r"contract|test \w+( \S+)?|nothing, .+", fields["refused"]):
                    fault(begun, "`refused` is `contract`, `test CRATE NAME` or `nothing, REASON`")
                if any(it.name == fields["name"] for it in found):
                    fault(begun, "its name stands twice")
                found.append(Body(crate, fields, pairs, begun))
            fields, pairs, file, old = {}, [], None, None
            continue
        key, colon, value = line.partition(":")
        value = value[1:] if value.startswith(" ") else value
        if not fields and not pairs:
            begun = number
        if not colon or key not in ("name", "user", "refused", "file", "old", "new"):
            fault(number, "this line is of no known kind")
        if key == "file":
            file = value.strip()
        elif key == "old":
            if old is not None or not file:
                fault(number, "an `old` stands behind a `file`, and each has a `new`")
            old = value
        elif key == "new":
            if old is None:
                fault(number, "there is no `old` for it")
            pairs.append((file, old, value))
            old = None
        elif key in fields:
            fault(number, "`%s` stands twice" % key)
        else:
            fields[key] = value.strip()
    return found


def functions_of(file, lines):
    """The functions of a source: where each begins and ends (in the layout that `rt fmt` makes), and the names that its impl may go by."""
    found, scopes = [], ()
    for at, line in enumerate(lines):
        if line[:1] not in ("", " ", "}", "{") and not line.startswith("where"):
            head, trait = IMPL.match(head_at(lines, at)), TRAIT.match(line)
            scopes = (head[3] + (head[1] or "") + (head[2] or ""), head[3]) if head else (trait[1],) if trait else ()
        it = FN.match(line)
        if not it:
            continue
        last = at
        if not (line.rstrip().endswith("}") and line.count("{") == line.count("}")):
            while last + 1 < len(lines) and lines[last].rstrip() not in (it[1] + "}", it[1] + "};"):
                last += 1
                if FN.match(lines[last]) and len(FN.match(lines[last])[1]) <= len(it[1]):
                    last -= 1  # (one with no body, of a trait)
                    break
        found.append(Function(file, at, last, scopes if it[1] else (), it[2], "\n".join(lines[at : last + 1]), file))
    return found


def head_at(lines, at):
    """An item's head in one line, which may stand in several."""
    last = at
    while "{" not in lines[last] and last + 1 < min(at + 9, len(lines)):
        last += 1
    return " ".join(it.strip() for it in lines[at : last + 1])


def at_home(functions, lines):
    """Gives the methods of a type's own that stand in another file than the type the file of the type."""
    homes = collections.defaultdict(list)
    for file, rows in lines.items():
        for row in rows:
            it = TYPE.match(row) if file.endswith(".rt") else None
            if it:
                homes[it[1]].append(file)
    found = []
    for it in functions:
        is_own = len(it.scopes) == 2 and it.scopes[0] == it.scopes[1]
        files = homes[it.scopes[0]] if is_own else []
        found.append(it._replace(home=files[0]) if len(files) == 1 else it)
    return found


class Sources:
    """What a crate's folders `src` and `proofs` have as they are committed."""

    def __init__(self, folder):
        self.folder, self.lines, self.functions = folder, {}, []
        for at, _, names in itertools.chain(os.walk(folder + "/src"), os.walk(folder + "/proofs")):
            for name in names:
                file = os.path.relpath("%s/%s" % (at, name), folder)
                if name.endswith((".rt", ".antt")):
                    with open("%s/%s" % (folder, file), encoding="utf-8") as it:
                        self.lines[file] = it.read().split("\n")
                if name.endswith(".rt"):
                    self.functions += functions_of(file, self.lines[file])
        self.functions = at_home(self.functions, self.lines)

    def place(self, body):
        """Finds the lines and the functions that a body changes, or says why it does not apply."""
        texts = {}
        for file, old, new in body.pairs:
            if file not in self.lines:
                return "there is no file " + file
            text = texts.setdefault(file, "\n".join(self.lines[file]))
            count = text.count(old) if old else 0
            if count != 1:
                return "an old text stands %d times in %s, and not once: %s" % (count, file, old.strip()[:80])
            texts[file] = text.replace(old, new)
        for file, text in texts.items():
            for at, (line, was) in enumerate(zip(text.split("\n"), self.lines[file])):
                if line != was:
                    body.lines[file, at] = line
        if not body.lines:
            return "it changes nothing"
        for file, at in [it for it in body.lines if it[0].endswith(".rt")]:
            own = [it for it in self.functions if it.file == file and it.first <= at <= it.last]
            item = ITEM.match(self.lines[file][at].strip())
            if own:
                body.functions.append(own[-1])
            elif item:
                body.functions += self.users(item[1])
            body.is_loose |= not own and (not item or not body.functions)
        body.functions = list(dict.fromkeys(body.functions))
        return None

    def users(self, name):
        """The functions that name a constant, or another constant that is made of it."""
        word = re.compile(r"\b%s\b" % name)
        found = [it for it in self.functions if word.search(it.text)]
        for lines in self.lines.values():
            for line in lines:
                item = ITEM.match(line.strip())
                if item and item[1] != name and word.search(line.partition("=")[2]):
                    found += self.users(item[1])
        return found

    def write(self, bodies):
        """Writes all files anew, with these bodies and no others."""
        for file, lines in self.lines.items():
            changed = list(lines)
            for body in bodies:
                for (other, at), line in body.lines.items():
                    if other == file:
                        changed[at] = line
            text = "\n".join(changed)
            path = "%s/%s" % (self.folder, file)
            with open(path, encoding="utf-8") as it:
                is_same = it.read() == text
            if not is_same:
                with open(path, "w", encoding="utf-8") as it:
                    it.write(text)


def calls_in(body):
    """All names that may be those of functions which a body's functions call, with the bug or without: what stands before a bracket, and what stands
    alone as an argument."""
    texts = [it.text.partition(it.name)[2] for it in body.functions] + list(body.lines.values())
    return {name for text in texts for name in itertools.chain(CALL.findall(text), ARGUMENT.findall(text))}


def is_apart(one, other):
    """Whether two bodies may be planted together: not in one function, and not in one that may call the other's."""
    if one.is_loose or other.is_loose or set(one.functions) & set(other.functions):
        return False
    return not {it.name for it in one.functions} & calls_in(other) and not {it.name for it in other.functions} & calls_in(one)


def in_rounds(bodies):
    """Divides bodies into rounds: first those that stand apart from the fewest, each into the first round where it may stand."""
    apart = {(a, b): is_apart(a, b) for a in bodies for b in bodies if a is not b}
    rounds = []
    for body in sorted(bodies, key=lambda a: -sum(not apart[a, b] for b in bodies if a is not b)):
        for one in rounds:
            if all(apart[body, other] for other in one):
                one.append(body)
                break
        else:
            rounds.append([body])
    return rounds


def timed(words, folder):
    """Runs a command, and gives its status, what it wrote, and the seconds of the processor that it and its own took."""

    def used():
        spent = resource.getrusage(resource.RUSAGE_CHILDREN)
        return spent.ru_utime + spent.ru_stime

    begun = used()
    flags = {"cwd": folder, "stdin": subprocess.DEVNULL, "stdout": subprocess.PIPE, "stderr": subprocess.STDOUT, "errors": "replace"}
    with subprocess.Popen(words, start_new_session=True, **flags) as ran:
        try:
            text = ran.communicate()[0]
        except BaseException:
            os.killpg(ran.pid, signal.SIGTERM)
            ran.wait()
            raise
    return ran.returncode, text, used() - begun


def module_of(function):
    words = function.home[len("src/") : -len(".rt")].split("/")
    return [] if words in (["lib"], ["main"]) else words


def is_of(parts, function):
    """Whether a path of the check, or of the folder `proofs`, is that of a function or of a closure in it."""
    parts = [it.split("+")[0] for it in parts if it != "fn"]
    own = module_of(function)
    if parts[: len(own)] != own:
        return False
    rest = parts[len(own) :]
    if not function.scopes:
        return rest[:1] == [function.name]
    if rest[1:2] != [function.name]:
        return False
    # (the impl of a trait goes by the type, the trait and what the trait is of, but that of Drop by the type)
    return rest[0] == function.scopes[0] or rest[0] + "Drop" == function.scopes[0] == function.scopes[-1] + "Drop"


def is_proof_of(file, function):
    """Whether a file is one of a function's own proofs, or of those of a module's functions that call each other round, which have one folder: a `+`
    begins its name."""
    steps = file[: -len(".antt")].split("/")
    return steps[0] == "proofs" and (is_of(steps[1:], function) or steps[-2][:1] == "+" and steps[1:-2] == module_of(function))


def segments(text):
    """What a line says of a function, cut at each `; ` that stands in no name."""
    parts, quoted = [""], False
    for piece in re.split(r"(`|; )", text):
        if piece == "`":
            quoted = not quoted
        if piece == "; " and not quoted:
            parts.append("")
        else:
            parts[-1] += piece
    return parts


class Log:
    """What a check said of a crate."""

    def __init__(self, crate, text, lines):
        self.crate, self.text, self.lines = crate, text, lines
        self.said, self.errors = [], []
        for line in text.split("\n"):
            it = SAID.match(line)
            if it and it[2].split("::")[0] == crate:
                self.said.append((it[1], it[2].split("::")[1:], it[3].strip()))
            it = ERROR.match(line)
            if it:
                self.errors.append((it[1], int(it[2]) - 1, it[4], bool(it[3])))

    def is_judged(self):
        """Whether the check came to the functions of the crate."""
        return any(kind == "fn" for kind, _, _ in self.said)

    def in_src(self):
        """The places in `src` that were not even read: what the compiler refuses, and what the prover cannot read."""
        found = []
        for file, at, what, is_compile in self.errors:
            if file.startswith("src/") and (is_compile or NAMES.search(re.sub(r"`[^`]*`", "`", what))):
                found.append((file, at, what))
        return found

    def refusals(self, function, every):
        """What of a function's own is not proved: pairs of a kind (CONTRACT, PROOF_FILE, "limit", "follows", "doubt") and what was said. None if no
        line is of it."""
        lines = [it for it in self.said if it[0] == "fn" and is_of(it[1], function)]
        # an impl's laws are judged with the functions in it, if it is that of a trait
        impls = [it for it in self.said if it[0] == "impl" and it[1][:-1] == module_of(function) and is_of(it[1] + [function.name], function)]
        if not lines:
            return None
        found = []
        for _, _, text in lines + (impls if len(function.scopes) > 1 and function.scopes[0] != function.scopes[1] else []):
            if text in ("proved", "no holes"):
                continue
            for part in segments(text):
                bare = re.sub(r"`[^`]*`", "`", part)
                if re.match(r"(?:no proof: |not proved: |could not tell: )?it (?:calls|waits for the proof of)", bare) or bare in ("not proved", "no proof"):
                    continue
                if LIMIT.search(bare) and "stands on" not in bare:
                    found.append(("limit", part))
                elif re.search(r"stands on|depends on", bare):
                    found += self.stood_on(part, function, every)
                else:
                    found.append((CONTRACT, part))
            own = self.in_proofs(function)
            found += own
            if not own and text.startswith("not proved") and not re.search("it calls|stands on", text):
                found.append(("doubt", text))
        return found

    def is_cut_short(self, function):
        """Whether something that a function calls is not proved, so that the check may not have come to what is the function's own."""
        return any(kind == "fn" and is_of(path, function) and "it calls" in re.sub(r"`[^`]*`", "`", text) for kind, path, text in self.said)

    def stood_on(self, part, function, every):
        """What is refused of the proofs that a function is said to stand on, but for its own, of which the errors tell."""
        for name in re.findall(r"`([^`]*)`", part):
            steps = name.split(".")
            if steps[:3] != ["Rattle", self.crate, "proofs"]:
                return [("doubt", part)]
            if not any(is_of(steps[3:], other) for other in every):
                return [("doubt", part)]  # (that of no function; else that one is judged by itself)
        return []

    def is_answer_of(self, file, at, function):
        """Whether a place in a proof file is of a function, as in those that several have: there an answer begins with the function's name, or with
        what is asked and then that name."""
        lines = self.lines.get(file, [])
        heads = [it for it in (re.match(r"(?:abbrev )?pub ([^ :]+) :", line) for line in reversed(lines[: at + 1])) if it]
        return "/+" not in file or not heads or "/+%s/" % function.name in file or function.name in heads[0][1].split("-")

    def in_proofs(self, function):
        """What is refused in a function's own proof files: for what has to be proved there, or only for a name that is gone."""
        found = []
        for file, at, what, _ in self.errors:
            if is_proof_of(file, function) and self.is_answer_of(file, at, function):
                bare = re.sub(r"`[^`]*`", "`", what)
                kind = "limit" if LIMIT.search(bare) else PROOF_FILE if NAMES.search(bare) else "follows" if FOLLOWS.search(bare) else CONTRACT
                found.append((kind, what))
        return found


def fitted(log, body, sources):
    """Where a body is refused only for names that are gone: gives its functions' proof files other names in their place, of goals those that the check
    asks for, and of fields those that the body's own words make. Says whether there was something to change."""
    own = []
    for file, lines in sources.lines.items():
        if any(is_proof_of(file, it) for it in body.functions):
            own.append((file, [body.lines.get((file, at), line) for at, line in enumerate(lines)]))
    goals = goals_for(log)
    gone = {it[1] for file, _, what, _ in log.errors if any(file == one for one, _ in own) for it in re.finditer(r"has no field (?:named )?`([^`]+)`", what)}
    fields = {it: field_for(it, body, sources) for it in gone}
    more = {}
    for file, lines in own:
        for at, line in enumerate(lines):
            changed = line
            for one, other in goals.items():
                changed = changed.replace(one, other)
            for one, other in fields.items():
                changed = re.sub(r"(?<=\.)%s(?![\w-])" % re.escape(one), lambda _: other, changed)
            if changed != line:
                more[file, at] = changed
    body.lines.update(more)
    return bool(more)


def goals_for(log):
    """The parts of the names of goals that are gone, with those that the check asks for in their place: a condition that is turned round has another."""
    asked = set(re.findall(r"^note: src/.* \(`([^`]+)`\)", log.text, re.M))
    changes = {}
    for gone, rest in re.findall(r"^help: `Goals` has no `([^`]+)`; rattle asks for (.*)", log.text, re.M):
        able = set(re.findall(r"`([^`]+)`", rest)) | asked
        near = difflib.get_close_matches(gone, sorted(it for it in able if it != gone), 1, 0.5)
        if near:
            one, other = gone.split("-"), near[0].split("-")
            for kind, a, b, c, d in difflib.SequenceMatcher(None, one, other, False).get_opcodes():
                if kind != "equal":
                    changes["-".join(one[max(a - 1, 0) : b + 1])] = "-".join(other[max(c - 1, 0) : d + 1])
    return changes


def field_for(gone, body, sources):
    """The name of a field of the proof that stands where this one stood: each word that the body put in the place of one, and `not` where it turned a
    condition round."""
    name = gone
    for (file, at), line in body.lines.items():
        if not file.endswith(".rt"):
            continue
        one, other = words_in(sources.lines[file][at]), words_in(line)
        for kind, a, b, c, d in difflib.SequenceMatcher(None, one, other, False).get_opcodes():
            if kind == "replace" and b - a == d - c:
                for was, now in zip(one[a:b], other[c:d]):
                    name = re.sub(r"(?<![A-Za-z0-9_])%s(?![A-Za-z_])" % re.escape(SIGNS.get(was, was)), SIGNS.get(now, now), name)
            elif kind != "equal" and "!" in one[a:b] + other[c:d] and name == gone:
                turned = re.sub(r"^(if|then|else)-not-", r"\1-", name)
                name = turned if turned != name else re.sub(r"^(if|then|else)-", r"\1-not-", name)
    return name


def words_in(line):
    return re.findall(r"[A-Za-z_]\w*|\d[\d_]*|[<>=!]=|[<>!]", line)


def judge(log, body, is_alone, every):
    """The verdict of a body from the check of its round, and what to say with it; None for one that is to be tried again alone."""
    found, seen = [], False
    functions = every if body.is_loose else body.functions
    for function in functions:
        refusals = log.refusals(function, every)
        seen |= refusals is not None
        found += refusals or []
    kinds = {kind for kind, _ in found}
    if not seen:
        return (BAD, "the check has no line of its function") if is_alone else None
    for kind, verdict, why in ((CONTRACT, CONTRACT, ""), ("limit", CONTRACT, "only by a limit of the prover"), (PROOF_FILE, PROOF_FILE, "")):
        if kind in kinds:
            return verdict, why
    if kinds & {"doubt", "follows"} or body.is_loose and any(text not in ("proved", "no holes") for _, _, text in log.said):
        return (PROOF_FILE, "by a proof of no function") if is_alone else None
    if not is_alone and any(log.is_cut_short(function) for function in functions):
        return None
    return LET, ""


class Trier:
    """A clone, and what was spent in it."""

    def __init__(self, keep, jobs):
        self.jobs, self.seconds, self.checks, self.built = jobs, collections.Counter(), collections.Counter(), set()
        self.room = None if keep else tempfile.mkdtemp(prefix="wrong-")
        self.clone = os.path.abspath(keep) if keep else self.room + "/clone"
        if keep and os.path.exists(self.clone + "/.git"):
            subprocess.run(["git", "-C", self.clone, "fetch", "-q", ROOT, "HEAD"], check=True)
            subprocess.run(["git", "-C", self.clone, "reset", "-q", "--hard", "FETCH_HEAD"], check=True)
        else:
            subprocess.run(["git", "clone", "-q", ROOT, self.clone], check=True)

    def close(self):
        if self.room:
            shutil.rmtree(self.room, ignore_errors=True)
        elif os.path.isdir(self.clone):
            subprocess.run(["git", "-C", self.clone, "checkout", "-q", "--", "crates"])

    def libraries(self, crate):
        """Builds the libraries below a crate, the lowest first, and says whether all are there."""
        lines = lines_of_crates()
        below, found = list(lines[crate]), set()
        while below:
            one = below.pop()
            if one not in found:
                found.add(one)
                below += lines[one]
        for name in [it for it in lines if it in found and it not in self.built]:
            status, text, seconds = timed(["rt", "lib", "--jobs", str(self.jobs)], "%s/crates/%s" % (self.clone, name))
            self.seconds[LIBRARIES] += seconds
            print("-- the library %s: %.1f minutes" % (name, seconds / 60), flush=True)
            if status:
                self.keep(name, [], text)
                return False
            self.built.add(name)
        return True

    def check(self, crate, sources, bodies):
        sources.write(bodies)
        for _ in range(2):
            words = ["rt", "check", "--allow-holes", "--jobs", str(self.jobs)]
            status, text, seconds = timed(words, sources.folder)
            self.seconds[crate] += seconds
            self.keep(crate, bodies, text)
            if status in (0, 1, 3) and not UNSOUND.search(text):
                return Log(crate, text, sources.lines)
        return None

    def keep(self, crate, bodies, text):
        """Keeps what was said, for one who looks into the clone."""
        self.checks[crate] += 1
        os.makedirs(self.clone + "/out/wrong", exist_ok=True)
        with open("%s/out/wrong/%s-%d" % (self.clone, crate, self.checks[crate]), "w", encoding="utf-8") as it:
            it.write("".join("%s\n" % body.name for body in bodies) + "\n" + text)

    def crate(self, crate, bodies):
        """Tries the bodies of a crate that no test is said to refuse."""
        sources = Sources("%s/crates/%s" % (self.clone, crate))
        able = []
        for body in bodies:
            why = sources.place(body)
            if why:
                body.end(BAD, why)
            else:
                able.append(body)
        later = [it for it in able if it.tests]
        if len(later) < len(able) and not self.libraries(crate):
            for body in able:
                if not body.tests:
                    body.end(UNTRIED, "a library below does not build")
            return sources, later
        waiting = [(it, it[0].is_loose) for it in in_rounds([it for it in able if not it.tests])]
        number = 0
        while waiting:
            planted, is_alone = waiting.pop(0)
            number += 1
            is_alone = is_alone or len(planted) == 1
            log = self.check(crate, sources, planted)
            print("-- %s, round %d: %d planted, %d more rounds" % (crate, number, len(planted), len(waiting)), flush=True)
            if log is None:
                for body in planted:
                    body.end(UNTRIED, "the check came to no end")
                continue
            unread = log.in_src()
            faulty = [it for it in planted if any((file, at) in it.lines or self.holds(it, file, at) for file, at, _ in unread)]
            if unread or not log.is_judged():
                why = unread[0][2] if unread else (log.text.strip().split("\n") or [""])[-1]
                waiting += self.divided(planted, faulty, why)
                continue
            late = []
            for body in planted:
                told = judge(log, body, is_alone, sources.functions)
                if not told:
                    waiting.append(([body], True))
                elif told[0] == PROOF_FILE and body.fittings < 3 and fitted(log, body, sources):
                    body.fittings += 1
                    late.append(body)
                else:
                    body.end(*told)
            if late:
                waiting.append((late, False))
            if not is_alone:
                self.look_beside(log, planted, sources)
        sources.write([])
        return sources, later

    @staticmethod
    def holds(body, file, at):
        return any(it.file == file and it.first <= at <= it.last for it in body.functions) and any(name == file for name, _ in body.lines)

    @staticmethod
    def divided(planted, faulty, why):
        """The rounds that come in place of one that was not read."""
        if len(planted) == 1:
            planted[0].end(BAD, why[:160])
            return []
        if faulty:
            rest = [it for it in planted if it not in faulty]
            return ([(rest, False)] if rest else []) + [([it], True) for it in faulty]
        half = len(planted) // 2
        return [(planted[:half], False), (planted[half:], False)]

    @staticmethod
    def look_beside(log, planted, sources):
        """Says which functions fail by themselves though nothing was planted in them."""
        changed = {it for body in planted for it in body.functions}
        for function in sources.functions:
            if function not in changed:
                own = [part for kind, part in log.refusals(function, sources.functions) or [] if kind in (CONTRACT, PROOF_FILE)]
                if own:
                    print("   beside them %s is refused: %s" % (function.name, own[0][:120]), flush=True)

    def tests(self, crate, name, of):
        """Runs a test of a crate by its name, or all where there is none, and says whether it passed; None if no run was made."""
        words = ["rt", "try", "--test"] + (["--", name] if name else [])
        status, text, seconds = timed(words, "%s/crates/%s" % (self.clone, crate))
        self.seconds[of] += seconds
        self.keep(of, [], " ".join(words) + " in " + crate + "\n" + text)
        told = re.findall(r"^test (\S+) \.\.\. (ok|FAILED)", text, re.M)
        if not re.search(r"^test result: ", text, re.M):
            # a run that stops in the middle of a test is a failure of it, one that does not come to the tests is none
            return False if re.search(r"^tests: \d+", text, re.M) else None
        if not name:
            return status == 0 and bool(told)
        own = [end for one, end in told if one == name or one.endswith("::" + name)]
        return own == ["ok"] if own else None

    def by_tests(self, bodies, sources):
        """Tries the bodies of a crate that tests refuse, each alone."""
        fine = {}
        for body in bodies:
            crate, name = (body.tests + [None])[:2]
            if (crate, name) not in fine:
                fine[crate, name] = self.tests(crate, name, body.crate)
            if not fine[crate, name]:
                body.end(UNTRIED, "without a bug its test does not pass or is not there")
                continue
            sources.write([body])
            is_passed = self.tests(crate, name, body.crate)
            sources.write([])
            if is_passed is None:
                body.end(BAD, "the tests were not begun with it")
            else:
                body.end(LET if is_passed else TEST)


def lines_of_crates():
    """The repository's crates in the order of crates.txt, each with those of them that it names."""
    with open(ROOT + "/crates.txt", encoding="utf-8") as it:
        found = {line.partition(":")[0].split()[0]: line.partition(":")[2].split() for line in it if ":" in line}
    return {it: [name for name in named if name in found] for it, named in found.items()}


def order_of_crates():
    return [it for it in lines_of_crates() if os.path.exists("%s/wrong/%s.edit" % (ROOT, it))]


def list_all(crates):
    """Counts, and looks whether each body applies to the sources here."""
    is_well = True
    total = collections.Counter()
    print("%-16s %6s %9s %6s %8s" % ("crate", "bodies", "contract", "test", "nothing"))
    for crate in crates:
        sources = Sources("%s/crates/%s" % (ROOT, crate))
        bodies = bodies_of(crate)
        count = collections.Counter(it.wanted() for it in bodies)
        total += count
        print("%-16s %6d %9d %6d %8d" % (crate, len(bodies), count[CONTRACT], count[TEST], count[LET]))
        for body in bodies:
            why = sources.place(body)
            if why:
                is_well = False
                print("  %s: %s" % (body.name, why))
    print("%-16s %6d %9d %6d %8d" % ("all", sum(total.values()), total[CONTRACT], total[TEST], total[LET]))
    return is_well


def table(tried, seconds):
    print("\n%-16s %6s %9s %11s %6s %11s %9s %8s" % ("crate", "tried", "contract", "proof file", "test", "let through", "not tried", "minutes"))
    total, spent = collections.Counter(), 0.0
    for crate, bodies in tried.items():
        count = collections.Counter(it.verdict for it in bodies if it.verdict)
        row(crate, count, seconds[crate])
        total += count
        spent += seconds[crate]
    row("all", total, spent)
    print("and the libraries below: %.1f minutes" % (seconds[LIBRARIES] / 60))


def row(name, count, seconds):
    told = (count[CONTRACT], count[PROOF_FILE], count[TEST], count[LET], count[BAD] + count[UNTRIED])
    print("%-16s %6d %9d %11d %6d %11d %9d %8.1f" % (name, sum(told), *told, seconds / 60))


def main(words):
    jobs, keep, is_list, is_all, crates, names = 1, None, False, False, [], collections.defaultdict(set)
    words = list(words)
    while words:
        word = words.pop(0)
        if word == "--jobs" and words and words[0].isdigit():
            jobs = int(words.pop(0))
        elif word == "--keep" and words:
            keep = words.pop(0)
        elif word == "--list":
            is_list = True
        elif word == "--all":
            is_all = True
        else:
            crate, _, name = word.partition("/")
            if word.startswith("-") or not os.path.exists("%s/wrong/%s.edit" % (ROOT, crate)):
                sys.exit(__doc__ if word.startswith("-") else "there is no wrong/%s.edit" % crate)
            crates += [crate] if crate not in crates else []
            names[crate] |= {name} if name else set()
    if is_list:
        return 0 if list_all(crates or order_of_crates()) else 1
    if is_all:
        crates = order_of_crates()
    if not crates:
        sys.exit(__doc__)
    signal.signal(signal.SIGTERM, lambda *_: sys.exit(143))
    tried = {it: [body for body in bodies_of(it) if not names[it] or body.name in names[it]] for it in crates}
    for crate in crates:
        lost = names[crate] - {it.name for it in tried[crate]}
        if lost:
            sys.exit("wrong/%s.edit has no %s" % (crate, ", ".join(sorted(lost))))
    trier = Trier(keep, jobs)
    try:
        for crate in crates:
            sources, later = trier.crate(crate, tried[crate])
            trier.by_tests(later, sources)
            print("-- %s: %.1f minutes" % (crate, trier.seconds[crate] / 60), flush=True)
    finally:
        trier.close()
        table(tried, trier.seconds)
    return 1 if any(it.is_weaker() for bodies in tried.values() for it in bodies) else 0


if __name__ == "__main__":
    sys.exit(main(sys.argv[1:]))
