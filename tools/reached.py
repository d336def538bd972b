"""What a text of crates/ names: the imports of its file and the definitions to which they lead, down to the kit's own. For tools/book.

A place is (path, line counted from 0); what is the kit's is a module's name."""
import collections, functools, glob, os, re

import cited

IMPORT = re.compile(r'(?:ghost |pub )*use ([^\s{]+?)(?:\.\{(.*)\}| as (\S+?))?;?$')
IMPORTS = re.compile(r'\s*(?:ghost |pub )*use \S')
OURS = re.compile(r'Rattle\.(\w+)\.specs\.(rules|laws|notions|declared)\.(.+)$')
TYPE = re.compile(r'^ *(?:pub )?(?:struct|enum) (\w+)', re.M)
BOUND = (r'[({]([^(){}:]+) : ', r'λ ([^.(λ]+)\.', r'let (\S+) = ', r'∀ ([^.(]+)\.')
WORD = {'.antt': re.compile(r'[^\s(){}\[\];,λ«»]+'), '.rt': re.compile(r'λ|[^\W\d][\w\']*(?:(?:::|\.)[^\W\d]\w*)?|[^\s\w(){}\[\];,.:«»&\'"]+')}

File = collections.namedtuple('File', 'definitions cases')  # name to line; a case of a data type to the type's name


def indent(line):
    return len(line) - len(line.lstrip())


@functools.lru_cache(None)
def lines_of(path):
    return cited.read(path).split('\n')


def head_of(path, at):
    """The head of a definition that begins on a line; it may be broken over three."""
    return cited.DEFINED.match('\n'.join(lines_of(path)[at:at + 3]))


@functools.lru_cache(None)
def file_of(path):
    """The definitions of a file: of each run of lines without an empty one the first head, and the cases of a data type below it."""
    definitions, cases, head = {}, {}, None
    for at, line in enumerate(lines_of(path)):
        if not line.strip():
            head = None
        elif line.lstrip().startswith('--'):
            continue
        elif head is None:
            found = head_of(path, at)
            if found:
                head = found.group(1)
                definitions.setdefault(head, at)
        elif indent(line) > indent(lines_of(path)[definitions[head]]) and ' data ' in ' ' + lines_of(path)[definitions[head]]:
            found = re.match(r'\s*([^:(){}]+) : ', line)
            cases.update((name, head) for name in (found.group(1).split() if found else []))
    return File(definitions, cases)


@functools.lru_cache(None)
def declared(crate):
    """The types that a crate's code declares: name to place."""
    found = {}
    for path in sorted(glob.glob('crates/%s/src/**/*.rt' % crate, recursive=True)):
        for match in TYPE.finditer(cited.read(path)):
            found[match.group(1)] = path, cited.read(path).count('\n', 0, match.start(1))
    return found


def lead(module, name):
    """Where a name of a module stands: a place, the kit's module, or None where it stands nowhere."""
    ours = OURS.match(module)
    if not ours:
        return module
    crate, kind, rest = ours.groups()
    if kind == 'declared':
        return declared(crate).get(rest.split('.')[0])
    path = 'crates/%s/specs/%s/%s.antt' % (crate, kind, rest.replace('.', '/'))
    if not os.path.exists(path):
        return None
    known = file_of(path)
    name = known.cases.get(name, name)
    if name in known.definitions:
        return path, known.definitions[name]
    handed_on = re.search(r'^pub use (\S+)\.\{[^}]*(?<![^{ ,])%s[,}]' % re.escape(name), cited.read(path), re.M)
    return lead(handed_on.group(1), name) if handed_on else None


@functools.lru_cache(None)
def imports(path):
    """The lines of a file that import, each whole where its names are broken over several."""
    found, begun = [], ''
    for line in lines_of(path):
        if begun or IMPORTS.match(line):
            begun += ' ' * bool(begun) + line.strip()
            if '{' not in begun or '}' in begun:
                code = re.match(r'((?:pub )?use \w+::)\{(.*)\};$', begun)  # of another crate's code, a line for each name
                parted = [code.group(1) + name + ';' for name in re.findall(r'\w+', code.group(2))] if code else []
                found += parted or [re.sub(r'\{ (.*?),? \}', r'{\1}', begun)]
                begun = ''
    return found


class Lost(Exception):
    """A name that is taken from a module which does not have it."""


@functools.lru_cache(None)
def scope(path):
    """The words of a file: name to what it leads to, and those that can stand as a case in a pattern."""
    words, cases = {}, set()
    crate = path.split('/')[1]
    if path.endswith('.rt'):
        words.update(declared(crate))
    else:
        known = file_of(path)
        for name, line in known.definitions.items():
            words.update((part, (path, line)) for part in parts(name))
        for name, head in known.cases.items():
            words.update((part, (path, known.definitions[head])) for part in parts(name))
            cases.update(parts(name))
    for line in imports(path):
        found = IMPORT.match(line)
        if not found:
            continue
        module, names, alias = found.groups()
        code = re.match(r'(\w+)::(\w+)$', module)
        if code and code.group(2) in declared(code.group(1)):
            words[code.group(2)] = declared(code.group(1))[code.group(2)]
        if alias:
            words[alias + '.'] = module
        for name, _, here in (entry.partition(' as ') for entry in re.split(r', *', names or '') if entry):
            where = lead(module, name)
            if where is None:
                raise Lost('%s: %s has no %s' % (path, module, name))
            words.update((part, where) for part in parts(here or name))
            if isinstance(where, str) or 'TheVariants' in module or not heads(where, name):
                cases.update(parts(here or name))
    return words, cases


def parts(name):
    """The words with which a name is written: an operator's without its places."""
    return [part for part in name.split('◌') if part] if not name.startswith('«') else [name.strip('«»')]


def heads(where, name):
    """Whether the line of a place defines the name, which else is a case below it."""
    found = head_of(*where)
    return found is not None and found.group(1) == name


def bound(path, lines):
    """The words that a text binds itself: arguments, patterns, what λ and let name."""
    _, cases = scope(path)
    text = '\n'.join(line for line in lines if not line.strip().startswith('--'))
    found = set()
    for pattern in BOUND:
        for group in re.findall(pattern, text):
            found.update(group.split())
    if path.endswith('.rt'):
        return found | set(re.findall(r'[(,]\s*(\w+): ', text.partition('ensures')[0]))
    own = {word for line in lines for match in [cited.DEFINED.match(line)] if match for word in parts(match.group(1))}
    for line in lines:
        left = re.match(r'\s*([^=:]*?) =(?:\s|$)', line)
        pattern = set(WORD['.antt'].findall(left.group(1))) if left else set()
        if own & pattern:
            found |= pattern - cases - own
    return found


def words(path, lines):
    """A text in pieces, (piece, where it leads or None): each name leads once, the first time that it stands there."""
    known, _ = scope(path)
    taken, seen = bound(path, lines), set()
    for number, line in enumerate(lines):
        if number:
            yield '\n', None
        at = 0
        for match in [] if line.strip().startswith(('--', '//', '#')) else WORD[os.path.splitext(path)[1]].finditer(line):
            word = match.group().rstrip('.:') or match.group()
            before, after = line[:match.start()].rstrip(' «'), line[match.end():].lstrip('»')
            label = after.startswith(' = ') and (before.endswith(('{', ';')) or not before and line.endswith(';'))
            whose = word.partition('.')[0]  # the value of which a field is taken
            named = not (whose in taken or label or match.group().startswith('.') or before.count('"') % 2)
            where = found(known, word) if named else None
            if where is None and named and whose:
                word, where = whose, found(known, whose)
            if where is not None and (where, word) not in seen:
                seen.add((where, word))
                yield line[at:match.start()], None
                yield line[match.start():match.start() + len(word)], where
                at = match.start() + len(word)
        yield line[at:], None


def found(known, word):
    """Where a word leads: as it is, by the module it is qualified with, or by the crate."""
    if word in known:
        return known[word]
    alias, _, name = word.partition('.')
    if name and alias + '.' in known:
        return lead(known[alias + '.'], name)
    crate, _, name = word.partition('::')
    return declared(crate).get(name) if name and os.path.isdir('crates/' + crate) else None
