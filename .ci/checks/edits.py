"""For check-edits: the crates, their functions with their clauses, and the edits of them."""

import collections
import json
import pathlib
import re

Function = collections.namedtuple("Function", "file name owner first last text")


def crates():
    """What each crate of crates.txt stands on, lowest first."""
    lines = re.findall(r"^(\w+)[^:#\n]*:(.*)$", pathlib.Path("crates.txt").read_text(), re.M)
    return {name: libraries.split() for name, libraries in lines}


def is_static(name):
    """Whether a crate is a static library."""
    return bool(re.search(rf"^{name} staticlib\b", pathlib.Path("crates.txt").read_text(), re.M))


def below(table, name):
    """The crates of the repository that a crate stands on, each once, lowest first."""
    found = []
    for library in table[name]:
        if library in table:
            found += [it for it in [*below(table, library), library] if it not in found]
    return found


def owner_of(line):
    """How the prover names what an impl or a trait belongs to: `Slot`, or `SlotDebug` for the
    impl of a trait."""
    head = re.match(r"(?:unsafe )?impl(?:<.*?>)? (?:([\w:]+)(?:<(.*?)>)? for )?([\w:]+)", line)
    if not head:
        declared = re.match(r"(?:pub(?:\([^)]*\))? )?trait (\w+)", line)
        return declared and declared[1]
    given = "".join(re.findall(r"\w+", (head[2] or "").replace("&", " Ref ")))
    return head[3].split("::")[-1] + (head[1] or "").split("::")[-1] + given


def functions(file, source):
    """The functions of a source that `rt fmt` has laid out, in the order of their first lines."""
    lines, owner, found = source.split("\n"), None, []
    for first, line in enumerate(lines):
        if re.match(r"\S", line) and not line.startswith(("//", "#", "}", "where")):
            owner = owner_of(line)
        head = re.match(r'( *)(?:pub(?:\([^)]*\))? )?(?:unsafe )?(?:extern "C" )?fn (\w+)', line)
        if head:
            ends = (it for it in range(first, len(lines)) if lines[it] == head[1] + "}")
            last = next(ends, first)
            text = "\n".join(lines[first : last + 1])
            found.append(Function(file, head[2], owner if head[1] else None, first, last, text))
    return found


def split(text, at):
    """The parts of a clause at a sign that stands outside all brackets."""
    parts, depth = [""], 0
    for letter in text:
        depth += (letter in "([{") - (letter in ")]}")
        if letter == at and depth == 0:
            parts.append("")
        else:
            parts[-1] += letter
    return [it.strip() for it in parts]


def equated(clause):
    """What a clause is an equation of, also for each value of a name: `result`, or `self.new`;
    nothing if it is none."""
    clause = re.sub(r"^\(\w+ : \w+\) → ", "", clause)
    parts = split(clause, "×")
    if len(parts) > 1:
        found = [equated(it) for it in parts]
        return [it for each in found for it in each] if all(found) else []
    if clause.startswith("(") and len(split(clause, " ")) == 1:
        return equated(clause[1:-1].strip())
    sides = split(clause, "≡")
    is_plain = all(len(split(clause, it)) == 1 for it in "→↔∨⊎λ")
    names = re.match(r"\(?(result|\w+\.new)\b", sides[0])
    return [names[1]] if names and is_plain and len(sides) == 2 else []


def is_settled(function):
    """Whether no second body meets the clauses of a function: those that speak of its result or of
    what it changes are equations of all of these, or it returns a reference to the one thing of
    its kind."""
    head = re.split(r"\n *\{\n", function.text)[0]
    told = [it for it in clauses(function) if re.search(r"\bresult\b|\.new\b", it)]
    found = [equated(it) for it in told]
    returned = re.search(r" -> (.*)$", head, re.M)
    changed = re.findall(r"(\w+): &('\w+ )?mut", head) + re.findall(r"&('\w+ )?mut (self)\b", head)
    # (what is lent on with the result changes later)
    is_kept = lambda it: not any(x.startswith("'") and x.strip() in returned[1] for x in it)
    wanted = {f"{''.join(it).split(' ')[-1]}.new" for it in changed if not returned or is_kept(it)}
    wanted |= {"result"} if returned else set()
    if re.search(r"(\(&self\) -> &|\(&self.*\) -> MutexGuard<'_, )[\w<>, ]+$", head, re.M):
        return True
    # (a step through a shared reference, by a right that it changes, may also change words)
    if re.search(r"&self\b", head) and changed:
        return False
    return bool(found) and all(found) and wanted <= {it for each in found for it in each}


def clauses(function):
    """What a function ensures."""
    head = re.split(r"\n *\{\n", function.text)[0]
    found = []
    for begins in re.finditer(r"\bensures\*? (?:\w+ )?\{", head):
        depth, at = 1, begins.end()
        while depth:
            depth += (head[at] == "{") - (head[at] == "}")
            at += 1
        found.append(" ".join(head[begins.end() : at - 1].split()))
    return found


def replaced(text, changes):
    """A text with each old one, of which it is said where it stands, replaced by a new one."""
    made, done = "", 0
    for at, old, new in sorted(changes):
        made, done = made + text[done:at] + new, at + len(old)
    return made + text[done:]


class Edit:
    """A wrong body: the texts that it replaces, each with its file, and the functions that they
    are in; or what is wrong with it. One of the script's own test says how it fails.

    Where another edit of the batch has the function, this one may have a copy of it, whose name
    ends in a suffix."""

    def __init__(self, crate, path):
        self.crate, self.name, self.pairs, self.fault = crate, path.stem, [], ""
        self.fails = self.suffix = ""
        file = old = None
        for line in path.read_text(encoding="utf-8").split("\n"):
            kind, _, text = line.partition(":")
            text = text.removeprefix(" ")
            if kind == "file":
                file = text.strip()
            elif kind == "old":
                old = text
            elif kind == "new":
                self.pairs.append((file, old, text))
            elif kind == "fails":
                self.fails = text
        self.homes = {it for file, old, _ in self.pairs for it in self.around(crate, file, old)}
        if not self.homes and not self.fault:
            self.fault = "it changes no function"

    def around(self, crate, file, old):
        """The innermost function that a text is in; none where it is in a proof."""
        source = crate.text_of(file)
        if source.count(old) != 1:
            self.fault = f"its text stands {source.count(old)} times in {file}: {old.strip()}"
        row = source[: source.find(old)].count("\n")
        return [it for it in crate.functions if it.file == file and it.first <= row <= it.last][-1:]

    def may_be_of_a_copy(self):
        """Whether it changes one function that can stand beside itself under another name: none of
        a trait, of a cycle, with a closure that has a proof of its own, or of whose proof others
        speak."""
        home, *others = self.homes
        if others or home.owner is not None and home.owner not in self.crate.types:
            return False
        proofs = pathlib.Path("crates", self.crate.name, "proofs")
        path = named(home, self.crate).split("::")
        own, dotted = proofs.joinpath(*path), f".{'.'.join(path)}."
        files = [it for it in proofs.rglob("*.antt") if own not in it.parents]
        is_cited = any(dotted in it.read_text(encoding="utf-8") for it in files)
        is_inside = all(old in home.text for _, old, _ in self.pairs)
        is_plain = not re.search(r"#\[cycle|extern \"C\"", self.copied())
        has_closures = any(proofs.rglob(f"fn/**/{home.name}"))
        return is_inside and is_plain and not is_cited and not has_closures

    def copied(self):
        """The copy of the function that it changes, with the attributes of it."""
        (home,) = self.homes
        lines, first = self.crate.sources[home.file].split("\n"), home.first
        while lines[first - 1].strip().startswith("#["):
            first -= 1
        whole = "\n".join(lines[first : home.last + 1])
        text = replaced(whole, [(whole.find(old), old, new) for _, old, new in self.pairs])
        return re.sub(rf"\bfn {home.name}\b", f"fn {home.name}{self.suffix}", text, count=1)


class Crate:
    """A crate with its sources, its functions and its edits."""

    def __init__(self, name, wrong=None):
        self.name, self.home = name, pathlib.Path("crates", name)
        home = self.home
        files = sorted((home / "src").rglob("*.rt"))
        self.sources = {str(it.relative_to(home)): it.read_text(encoding="utf-8") for it in files}
        self.functions = [it for pair in self.sources.items() for it in functions(*pair)]
        declared = r"^(?:pub(?:\([^)]*\))? )?(?:struct|enum) (\w+)"
        self.types = set(re.findall(declared, "\n".join(self.sources.values()), re.M))
        texts = [it for it in home.rglob("*.*") if it.suffix in (".rt", ".antt") and it.is_file()]
        self.lines = sum(it.read_bytes().count(b"\n") for it in texts if "out" not in it.parts)
        edits_of = lambda folder: [Edit(self, it) for it in sorted(folder.glob("*.edit"))]
        self.edits, self.others = edits_of(wrong or home / "wrong"), edits_of(home / "must-fail")
        # the functions of the built library, once it is there
        self.built = set()

    def text_of(self, file):
        """What a file below src, specs or proofs says; nothing where there is none."""
        path = self.home / (file or "")
        if file not in self.sources and path.is_file():
            return path.read_text(encoding="utf-8")
        return self.sources.get(file, "")

    @property
    def names(self):
        """The functions of the built library; none until it is there."""
        code = pathlib.Path(f"crates/{self.name}/out/rlib/{self.name}.rlib/toolchain/mir.json")
        if not self.built and code.exists():
            made = json.loads(code.read_text(encoding="utf-8"))
            self.built = {it[0].partition("::")[2] for it in made}
        return self.built

    def edited(self, batch):
        """The sources that some edits change, with each text replaced where it stands, and each
        copy of a function behind it."""
        changes = collections.defaultdict(list)
        for edit in batch:
            for file, old, new in edit.pairs if not edit.suffix else ():
                changes[file].append((self.sources[file].index(old), old, new))
            for home in edit.homes if edit.suffix else ():
                lines = self.sources[home.file].split("\n")[: home.last + 1]
                changes[home.file].append((len("\n".join(lines)), "", "\n\n" + edit.copied()))
        return {file: replaced(self.sources[file], made) for file, made in changes.items()}

    def reached(self, function):
        """A function, and those of the crate that it calls, by their names."""
        named, found, new = collections.defaultdict(list), {function}, [function]
        for it in self.functions:
            named[it.name].append(it)
        while new:
            # (one that is passed on to be called stands last among arguments)
            called = re.findall(r"\b(\w+)(?:(?:::<.*?>)?\(|\)$)", new.pop().text, re.M)
            new += [it for name in called for it in named[name] if it not in found]
            found.update(new)
        return found

    def listed(self):
        """Each public function of a library that promises something, with the edits of its code
        or of what it calls, or `equations`."""
        rows = []
        for function in self.functions:
            promises = clauses(function)
            if not re.match(r" *pub (?:unsafe )?fn ", function.text) or not promises:
                continue
            own = [it.name for it in [*self.edits, *self.others] if function in it.homes]
            below = self.reached(function)
            has = own or [it.name for it in [*self.edits, *self.others] if it.homes & below]
            if is_settled(function):
                has = ["equations"]
            path = "::".join(it for it in (self.name, function.owner, function.name) if it)
            rows.append((path, has))
        return rows if self.edits or self.others else []


def batches_of(edits):
    """The edits in as few lists as can be, each with at most one of a function or of a copy."""
    batches = []
    for edit in edits:
        met = [sum(bool(other.homes & edit.homes) for other in it) for it in batches]
        if met and met[0] and edit.may_be_of_a_copy():
            edit.suffix = f"_{met[0] + 1}"
            batches[0].append(edit)
            continue
        fits = [it for it, count in zip(batches, met) if not count]
        if not fits:
            batches.append([])
        (fits or batches[-1:])[0].append(edit)
    return batches


def named(function, crate):
    """The path by which the prover names a function: a method's is that of its type, or of its
    `impl` for a trait, as far as a built library does not say otherwise."""
    file, kind = function.file, ""
    for other, text in crate.sources.items() if function.owner else ():
        for found in re.findall(r"^(?:pub(?:\([^)]*\))? )?(?:struct|enum|trait) (\w+)", text, re.M):
            if function.owner.startswith(found) and len(found) > len(kind):
                file, kind = other, found
    module = re.sub(r"^src/|(/?\b(lib|main))?\.rt$", "", file).replace("/", "::")
    path = "::".join(it for it in (module, function.owner, function.name) if it)
    ends = f"::{function.owner}::{function.name}"
    fits = [it for it in crate.names if it.endswith(ends)]
    fits = fits or [it for it in crate.names if re.search(rf"\b{kind}\b.*::{function.name}$", it)]
    return path if path in crate.names or len(fits) != 1 else fits[0]
