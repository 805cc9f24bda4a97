"""The .antt files of the crates: their definitions, and what a name in one means.

Nothing here knows antt's types. A name counts as used where a `use` line or the file itself gives it a meaning and the
term around it doesn't bind it; a name that has no meaning ends the run.
"""
import re
from dataclasses import dataclass, field
from functools import cache
from typing import NamedTuple

from reading.rattle import ROOT, Declaration, closing, crates, fail, hide, lookup, module, text_of

COMMENT = re.compile(r'\{-.*?-\}|(?<!\S)--[^\n]*', re.S)
PART = r'(?:«[^»]*»|[^\s(){}.;,@"«»]+)'
# A word is a name, a path, a projection (a dot before it) or a sign. In antt a name ends only at a space or a sign.
WORD = re.compile(rf'"(?:\\.|[^"\\])*"|\.?{PART}(?:\.{PART})*|[(){{}}.;,@]')
MARKS = {'unfoldable', 'abbrev', 'axiom', 'pub'}
SYNTAX = set(': = → × ↔ λ ∀ _ | let in unfold record Type where'.split())
# What is open in every file without a `use`.
OPEN = set('Unit tt ⊥ absurd ¬'.split())
PRIMITIVE = set('u8 u16 u32 u64 usize i8 i16 i32 i64 isize bool f32 f64'.split())
RUST_WORD = re.compile(r"(?<!['\w])\b([A-Za-z_]\w*(?:::\w+)*)\b(?!\s*:)")
RUST_SYNTAX = set('pub crate struct enum type const mut as impl'.split())
# What Rattle has in every file without a `use`.
PRELUDE = {'Print'}


class Kit(NamedTuple):
    """A name that the kit has: it is only named."""
    module: str
    name: str


class Meaning(NamedTuple):
    thing: object  # a Definition, a Declaration or a name of the kit
    constructs: bool  # whether the name is a constructor, so that a pattern doesn't bind it


def is_name(word):
    return word[0] not in '(){}.;,@"'


def spellings(name):
    """A name is written as it is; an operator also by its parts, `++` for `◌++◌`. What stands in « » is one name."""
    parts = [] if name.startswith('«') else name.split('◌')
    return {name, *filter(None, parts)}


# ---- the names of a term

def free(words, bound):
    """The names that a term uses without binding them, in order, and the names that are bound behind it.

    What is bound holds up to the bracket around it.
    """
    scopes, lets, header, found, i = [set(bound)], [], None, [], 0
    while i < len(words):
        word = words[i]
        if word in ('(', '{'):
            end = binder(words, i)
            scopes[-1].update(words[i + 1:end])
            scopes.append(set())
            i = end or i
        elif word in (')', '}'):
            scopes.pop()
        elif word == 'λ':
            header = len(scopes)
        elif word == '.':
            header = None
        elif word == 'let':
            i += 1
            lets.append(words[i])
        elif word == 'in' and lets:
            scopes[-1].add(lets.pop())
        elif header == len(scopes):
            scopes[-1].add(word)
        elif is_name(word) and not is_label(words, i) and not any(word.split('.')[0] in scope for scope in scopes):
            found.append(word)
        i += 1
    return found, scopes[0]


def binder(words, i):
    """Where the names of a group `(x y : A)` end, 0 for another group. antt has no type ascription: every colon binds."""
    end = i + 1
    while end < len(words) and is_name(words[end]) and (words[end] == '_' or words[end] not in SYNTAX):
        end += 1
    return end if words[end:end + 1] == [':'] else 0


def is_label(words, i):
    """Whether the word names a field or an implicit argument: `record { at = .. ; k = .. }`."""
    return words[i + 1:i + 2] == ['='] and i > 0 and words[i - 1] in ('{', ';')


# ---- what a name means

@cache
def target(path, name):
    """What a module has under a name."""
    if path[0] != 'Rattle' or path[1] not in crates():
        return Meaning(Kit('.'.join(path), name), True)
    crate = path[1]
    if path[2:4] == ('specs', 'declared'):
        return declared_target(crate, path[4:], name)
    file = ROOT.joinpath('crates', *path[1:]).with_suffix('.antt')
    if not file.exists():
        fail('.'.join(path), f'there is no {file.relative_to(ROOT)} to look for {name}')
    return antt_file(file).exported(name)


def declared_target(crate, path, name):
    variants = path[-1] == 'TheVariants'
    found = lookup(module(crate), path[:-1] if variants else path)
    if not found or name not in (variants_of(found) if variants else [found.name]):
        fail('.'.join(path), f'{crate} declares no {name} there')
    return Meaning(found, variants)


class Scope:
    """The names that the `use` lines of a file bring."""

    def __init__(self, shown):
        self.shown, self.imports, self.modules = shown, {}, {}

    def read_use(self, words, line):
        path = tuple(words[1].split('.'))
        if '*' in path:
            fail(f'{self.shown}:{line}', 'a glob is not followed')
        if words[2:3] != ['.']:
            self.modules[words[3] if words[2:3] == ['as'] else path[-1]] = path
            return
        items = ' '.join(words[4:-1]).split(' , ')
        for item in items:
            whole, _, alias = item.partition(' as ')
            *inner, name = whole.split('.')
            for spelling in spellings(alias or name):
                self.imports[spelling] = ((*path, *inner), name)

    def meaning(self, word, line):
        head, *rest = word.split('.')
        found = target(*self.imports[head]) if head in self.imports else None
        if rest and head in self.modules and not (found and rest[0] in constructors_of(found.thing)):
            return target(self.modules[head], rest[0])
        return Meaning(found.thing, True) if found and rest else found

    def cited(self, names, line):
        """The names, each with the thing that it means. A name that means nothing ends the run."""
        for word in names:
            found = self.meaning(word, line)
            if found:
                yield word, found.thing
            elif word in OPEN:
                yield word, Kit('Prim', word)
            elif word not in SYNTAX and not word[0].isdigit():
                fail(f'{self.shown}:{line}', f'`{word}` is no name that is known here')


# ---- a file of antt

@dataclass(eq=False)
class Block:
    """The head of a `module _ (..) where`, whose parameters every definition in it has."""
    file: 'AnttFile'
    lines: list
    around: 'Block'
    cites: list
    bound: set


@dataclass(eq=False)
class Definition:
    file: 'AnttFile'
    name: str
    line: int
    block: Block
    kind: str
    lines: list = field(default_factory=list)
    parts: list = field(default_factory=list)  # first line and end of the signature, and of each clause
    constructors: list = field(default_factory=list)

    @property
    def bound(self):
        return self.block.bound if self.block else set()


class AnttFile(Scope):
    def __init__(self, path):
        super().__init__(str(path.relative_to(ROOT)))
        text = text_of(path)
        self.text, self.bare = text.split('\n'), hide(text, COMMENT).split('\n')
        self.own = {}
        self.read(0, len(self.bare), None)

    def words(self, start, end):
        return WORD.findall('\n'.join(self.bare[start:end]))

    def items(self, start, end):
        """First line and end of each item between two lines: it begins at the column where the first one does."""
        filled = [n for n in range(start, end) if self.bare[n].strip()]
        column = min((self.column(n) for n in filled), default=0)
        firsts = [n for n in filled if self.column(n) == column] + [end]
        for first, after in zip(firsts, firsts[1:]):
            yield first, max(n for n in filled if n < after) + 1

    def column(self, n):
        return len(self.bare[n]) - len(self.bare[n].lstrip())

    def with_comment(self, start, end):
        """The lines of an item, and of the comment right above it."""
        while start > 0 and self.text[start - 1].strip() and not self.bare[start - 1].strip():
            start -= 1
        return list(range(start, end))

    def read(self, start, end, block):
        current, before = None, []
        for first, last in self.items(start, end):
            words = self.words(first, last)
            marks = next(i for i, word in enumerate(words) if word not in MARKS)
            head, rest = words[marks], words[marks:]
            if head == 'use':
                self.read_use(rest, first + 1)
            elif head == 'module':
                self.read_block(first, last, block)
            elif head == 'mutual':
                self.read(first + 1, last, block)
            elif head.startswith('infix'):
                before = self.with_comment(first, last)
            elif head in ('data', 'record') or is_signature(rest):
                current = self.declare(head, rest, first, last, block)
                current.lines, before = before + current.lines, []
            elif head in ('unfolding', 'mod', 'open'):
                continue  # a name that only an `open` brings is not known
            elif current and spellings(current.name) & set(words):
                current.lines += self.with_comment(first, last)
                current.parts.append((first, last))
            else:
                fail(f'{self.shown}:{first + 1}', f'an item that begins with `{head}` is not followed')

    def read_block(self, first, last, around):
        end = next(n for n in range(first, last) if self.words(n, n + 1)[-1:] == ['where']) + 1
        names, bound = free(self.words(first, end)[2:-1], around.bound if around else ())
        cites = [*(around.cites if around else []), *self.cited(names, first + 1)]
        self.read(end, last, Block(self, self.with_comment(first, end), around, cites, bound))

    def declare(self, head, rest, first, last, block):
        kind = head if head in ('data', 'record') else 'function'
        name = rest[1] if kind != 'function' else head
        made = Definition(self, name, first + 1, block, kind, self.with_comment(first, last), [(first, last)])
        if kind == 'data':
            made.constructors = [word for names, _ in self.members(first, last) for word in names]
        for declared in [name, *made.constructors]:
            for spelling in spellings(declared):
                self.own[spelling] = made
        return made

    def members(self, first, last):
        """Of a data type or a record: the names of each constructor or field, and the words of its type."""
        end = next(n for n in range(first, last) if self.words(n, n + 1)[-1:] == ['where']) + 1
        for start, after in self.items(end, last):
            words = self.words(start, after)
            words = words[1:] if words[0] == 'pub' else words
            if words[0] != 'deriving':
                colon = words.index(':')
                yield words[:colon], words[colon + 1:]

    def exported(self, name):
        if name in self.own:
            made = self.own[name]
            return Meaning(made, name in made.constructors)
        if name in self.imports:
            return target(*self.imports[name])
        return fail(self.shown, f'it has no {name}')

    def meaning(self, word, line):
        """A name of the file's own is known from its declaration on."""
        head, *rest = word.split('.')
        made = self.own.get(head)
        if made and made.line <= line:
            return Meaning(made, bool(rest) or any(head in spellings(c) for c in made.constructors))
        return super().meaning(word, line)


def is_signature(words):
    """`name : ..`, perhaps with levels in braces behind the name."""
    at = words.index('}') + 1 if words[1:2] == ['{'] else 1
    return is_name(words[0]) and words[at:at + 1] == [':']


@cache
def antt_file(path):
    return AnttFile(path)


# ---- what a definition uses

def constructors_of(thing):
    if isinstance(thing, Declaration):
        return variants_of(thing)
    return thing.constructors if isinstance(thing, Definition) else []


@cache
def cites(thing):
    """The names in a definition or a declaration, each with the thing that it means."""
    found = declaration_cites(thing) if isinstance(thing, Declaration) else definition_cites(thing)
    return [(word, other) for word, other in dict.fromkeys(found) if other is not thing]


def uses(thing):
    """The things that a definition or a declaration names."""
    return list(dict.fromkeys(other for _, other in cites(thing)))


def definition_cites(made):
    yield from signature_cites(made) if made.kind == 'function' else type_cites(made)
    for start, end in made.parts[1:]:
        words = made.file.words(start, end)
        equals = next((i for i, word in enumerate(words) if word == '=' and is_level(words[:i])), len(words))
        names, bound = pattern(made, words[:equals], start + 1)
        names += free(words[equals + 1:], bound)[0]
        yield from made.file.cited(names, start + 1)


def signature_cites(made):
    first, last = made.parts[0]
    words = made.file.words(first, last)
    colon = next(i for i, word in enumerate(words) if word == ':' and is_level(words[:i]))
    levels = set(words[:colon])
    names = free(words[colon + 1:], made.bound | levels)[0]
    return [*(made.block.cites if made.block else []), *made.file.cited(names, first + 1)]


def is_level(words):
    """Whether every bracket is closed again."""
    return sum(word in ('(', '{') for word in words) == sum(word in (')', '}') for word in words)


def pattern(made, words, line):
    """The constructors in the patterns of a clause, and what is bound behind it: all other names."""
    constructors, here, own = [], set(made.bound), spellings(made.name)
    for i, word in enumerate(words):
        if is_name(word) and word not in own and word not in SYNTAX and not is_label(words, i):
            found = made.file.meaning(word, line)
            if found and found.constructs:
                constructors.append(word)
            else:
                here.add(word)
    return constructors, here


def type_cites(made):
    """A parameter is known in every member, and a field in those behind it."""
    first, last = made.parts[0]
    words = made.file.words(first, last)
    names, bound = free(words[words.index(made.name) + 1:words.index('where')], made.bound)
    for members, type_words in made.file.members(first, last):
        names += free(type_words, bound)[0]
        bound = bound | set(members) if made.kind == 'record' else bound
    return [*(made.block.cites if made.block else []), *made.file.cited(names, first + 1)]


# ---- the types that Rattle declares, and the names of a clause

def variants_of(declaration):
    """The names of an enum's variants."""
    return re.findall(r'[A-Za-z_]\w*', split_variants(declaration)[0]) if declaration.kind == 'enum' else []


def split_variants(declaration):
    """An enum's text between the braces: what stands outside every bracket, and what stands inside one."""
    text = declaration.file.bare[declaration.start:declaration.end]
    at, outer, inner = text.index('{') + 1, '', ''
    while at < len(text) - 1:
        end = closing(text, at) + 1 if text[at] in '({' else at + 1
        inner += text[at + 1:end - 1] + ' '
        outer += text[at] if end == at + 1 else ' '
        at = end
    return outer, inner


def declaration_cites(declaration):
    text = declaration.file.bare[declaration.start:declaration.end]
    if declaration.kind == 'enum':
        text = split_variants(declaration)[1]
    else:
        text = text[text.index(declaration.name) + len(declaration.name):]
    return types_in(declaration.file, text, None)


def types_in(file, text, self_type, parameters=()):
    """The types and bounds in a piece of Rattle, each with its declaration. A type parameter has none."""
    for word in RUST_WORD.findall(text):
        if word in parameters:
            continue
        path = tuple((self_type if word in ('Self', 'self') else word).split('::'))
        found = lookup(file, path) or lookup(file, path[:1])
        whole = file.uses.get(path[0], path[:1]) + path[1:]
        if isinstance(found, Declaration):
            yield word, found
        elif len(whole) > 1 and whole[0] not in [*crates(), 'crate', 'super', 'self']:
            yield word, Kit('::'.join(whole[:-1]), whole[-1])
        elif word in PRELUDE:
            yield word, Kit('std', word)
        elif word not in PRIMITIVE | RUST_SYNTAX:
            fail(file.shown, f'`{word}` is no type that is known here')


class ClauseScope(Scope):
    """A clause knows what the `ghost use` lines of its file bring, and the types of the file."""

    def __init__(self, file):
        super().__init__(file.shown)
        self.file = file
        for line, text in file.ghost_uses:
            self.read_use(['use', *WORD.findall(text)], line)

    def meaning(self, word, line):
        found = super().meaning(word, line)
        declared = None if found else lookup(self.file, (word.split('.')[0],))
        return Meaning(declared, True) if isinstance(declared, Declaration) else found
