"""The .rt files of the crates: their functions with clauses, their declarations, and what a path of Rattle means."""
import re
import sys
from dataclasses import dataclass
from functools import cache
from pathlib import Path

ROOT = Path(__file__).resolve().parents[2]

# Comments, strings and characters. A clause's text is antt's, so its comments are hidden too. A lifetime stays.
HIDDEN = re.compile(r"""//[^\n]*|/\*.*?\*/|(?<!\S)--[^\n]*|"(?:\\.|[^"\\])*"|'(?:\\.[^'\n]*|[^'\\\n])'""", re.S)

FUNCTION = re.compile(r'\b(pub\s+)?(?:(?:const|unsafe|extern)\s+)*fn\s+(\w+)')
# A clause may have a name, as `ensures below { .. }`.
HEADER = re.compile(r'\b(requires|ensures)\s+(?:\w+\s*)?\{|[{(\[;]')
CLAUSE = re.compile(r'\b(?:ghost|requires|ensures)\b')
GENERIC = re.compile(r'<([^<>()]*)>')
BLOCK = re.compile(r'\b(?:impl(?:\s*<[^>]*>)?|mod)\s+(\w+)[^{;]*\{')
# An impl of a trait, as `impl From<u8> for Action`: the prover calls it ActionFromU8.
TRAIT = re.compile(r'\bimpl(?:\s*<[^>]*>)?\s+(?:\w+::)*(\w+)(?:<(\w+)>)?\s+for\s+(\w+)')
DECLARED = re.compile(r'^(?:pub(?:\([^)]*\))?\s+)?(struct|enum|trait|type|const)\s+(\w+)', re.M)
USE = re.compile(r'^(ghost\s+|pub(?:\([^)]*\))?\s+)?use\s+([^;]*);', re.M)
CHILD = re.compile(r'^(?:pub(?:\([^)]*\))?\s+)?mod\s+(\w+)\s*;', re.M)
CLOSERS = {'(': ')', '[': ']', '{': '}'}


def fail(place, message):
    sys.exit(f'{place}: {message}')


def text_of(path):
    """UTF-8, whatever the locale says."""
    return path.read_bytes().decode()


def hide(text, pattern=HIDDEN):
    """The text with what the pattern finds blanked. Everything else keeps its place."""
    return pattern.sub(lambda found: re.sub(r'[^\n]', ' ', found[0]), text)


def closing(text, at):
    """Where the bracket that opens at `at` is closed."""
    opener, depth = text[at], 0
    for i in range(at, len(text)):
        depth += (text[i] == opener) - (text[i] == CLOSERS[opener])
        if depth == 0:
            return i
    return fail(repr(text[at:at + 60]), 'the bracket is never closed')


def name_of(block, bare):
    """The name of a module or of an impl."""
    of_trait = TRAIT.match(bare, block.start())
    if not of_trait:
        return block[1]
    trait, argument, of = of_trait.groups()
    return ''.join(word[:1].upper() + word[1:] for word in (of, trait, argument or ''))


@cache
def crates():
    """The crates of crates.txt, in its order."""
    lines = [line.split('#')[0] for line in text_of(ROOT / 'crates.txt').splitlines()]
    return [line.split(':')[0].split()[0] for line in lines if line.strip()]


@cache
def libraries():
    return [crate for crate in crates() if (ROOT / 'crates' / crate / 'src/lib.rt').exists()]


@dataclass(frozen=True)
class Clause:
    keyword: str
    start: int
    end: int


@dataclass(eq=False)
class Function:
    file: 'RtFile'
    path: tuple  # crate, modules, the type of a method, name
    public: bool
    start: int
    body: int  # where the body's brace is
    clauses: list

    @property
    def line(self):
        return self.file.line_of(self.start)

    @property
    def name_end(self):
        return FUNCTION.match(self.file.bare, self.start).end()

    @property
    def type_parameters(self):
        """The names in `<R: Read>`, where the function has that behind its name."""
        found = GENERIC.match(self.file.bare, self.name_end)
        return re.findall(r'(\w+)\s*(?::[^,]*)?(?:,|$)', found[1]) if found else []

    @property
    def signature_end(self):
        """Before the first clause."""
        first = self.clauses[0].start if self.clauses else self.body
        return len(self.file.text[:first].rstrip())

    def asks(self):
        return any(clause.keyword == 'requires' for clause in self.clauses)

    def __str__(self):
        return '::'.join(self.path)


@dataclass(eq=False)
class Declaration:
    """A struct, an enum, a trait, a type or a constant."""
    file: 'RtFile'
    kind: str
    name: str
    start: int
    end: int

    @property
    def line(self):
        return self.file.line_of(self.start)


class RtFile:
    def __init__(self, crate, path):
        self.crate, self.shown = crate, str(path.relative_to(ROOT))
        self.text = text_of(path)
        self.bare = hide(self.text)
        steps = path.relative_to(ROOT / 'crates' / crate / 'src').with_suffix('').parts
        self.module = tuple(step for step in steps if step not in ('lib', 'main', 'mod'))
        self.blocks = [(m, closing(self.bare, m.end() - 1)) for m in BLOCK.finditer(self.bare)]
        self.children = set(CHILD.findall(self.bare))
        self.uses, self.ghost_uses = {}, []
        for found in USE.finditer(self.bare):
            self.read_use(found)
        self.functions = [self.read_function(found) for found in FUNCTION.finditer(self.bare)]
        declarations = [self.read_declaration(found) for found in DECLARED.finditer(self.bare)]
        inside = len(self.module) + 1
        self.named = {(d.name,): d for d in declarations} | {f.path[inside:]: f for f in self.functions}

    def line_of(self, place):
        return self.text.count('\n', 0, place) + 1

    def read_use(self, found):
        if (found[1] or '').startswith('ghost'):
            self.ghost_uses.append((self.line_of(found.start()), found[2]))
            return
        front, _, group = found[2].partition('{')
        for item in group.rstrip('} \n').split(','):
            path, _, alias = (front + item.strip()).partition(' as ')
            steps = tuple(path.strip().split('::'))
            self.uses[alias.strip() or steps[-1]] = steps

    def read_function(self, found):
        clauses, at = [], found.end()
        while (part := HEADER.search(self.bare, at)) and part[0] not in '{;':
            at = closing(self.bare, part.end() - 1) + 1
            if part[1]:
                clauses.append(Clause(part[1], part.start(), at))
        place = f'{self.shown}:{self.line_of(found.start())}'
        if part is None:
            fail(place, f'{found[2]} has no body')
        if CLAUSE.search(self.bare, at, part.start()):
            fail(place, f'{found[2]} has a clause of a form that is not followed')
        around = [block for block, end in self.blocks if block.start() < found.start() < end]
        path = (self.crate, *self.module, *(name_of(block, self.bare) for block in around), found[2])
        return Function(self, path, bool(found[1]), found.start(), part.start(), clauses)

    def read_declaration(self, found):
        """To its semicolon; a struct, an enum or a trait with a brace ends where that closes."""
        at, ends = found.end(), '{;' if found[1] in ('struct', 'enum', 'trait') else ';'
        while self.bare[at] not in ends:
            at = closing(self.bare, at) + 1 if self.bare[at] in CLOSERS else at + 1
        end = at if self.bare[at] == ';' else closing(self.bare, at)
        return Declaration(self, found[1], found[2], found.start(), end + 1)


@cache
def rt_files(crate):
    """The root first, then the modules by name."""
    src = ROOT / 'crates' / crate / 'src'
    return sorted((RtFile(crate, path) for path in src.rglob('*.rt')), key=lambda file: file.module)


def public_functions(crate):
    return [function for file in rt_files(crate) for function in file.functions if function.public]


def means(written, path):
    """Whether a path is meant: by its end, or by its crate and its end, as `lists::find` is lists::transactions::find."""
    return path[-len(written):] == written or (path[0], *path[1 - len(written):]) == written


def module(crate, steps=()):
    return next((file for file in rt_files(crate) if file.module == steps), None)


def lookup(file, path):
    """What a path of Rattle means in a file: a declaration or a function, or None where the repository has none."""
    if file is None or path in file.named:
        return file and file.named[path]
    if path[0] in file.uses and not (path[0] in file.children and len(path) > 1):
        return outside(file, file.uses[path[0]] + path[1:])
    return outside(file, path)


def outside(file, path):
    """The same, for a path that begins with a module or a crate, as that of a `use` does."""
    head, rest = path[0], path[1:]
    if not rest:
        return None
    if head == 'crate':
        return lookup(module(file.crate), rest)
    if head == 'super':
        return lookup(module(file.crate, file.module[:-1]), rest)
    if head == 'self':
        return lookup(file, rest)
    if head in file.children:
        return lookup(module(file.crate, (*file.module, head)), rest)
    return lookup(module(head), rest) if head in crates() else None
