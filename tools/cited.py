"""docs/EVIDENCE.md as rows, and where what they cite stands. For tools/evidence and tools/book."""
import collections, functools, glob, os, re

ROOT = os.path.join(os.path.dirname(os.path.abspath(__file__)), '..')
SHEET = 'docs/EVIDENCE.md'
COLUMNS = ('promise', 'rule', 'theorem', 'test', 'wrong variant')
DEFINED = re.compile(r'^\s*(?:abbrev |unfoldable )?(?:pub )?(?:abbrev |unfoldable )?(?:pub )?(?:record |data )?([^\s:()]+)\s*(?:[({](?:[^(){}]|[({][^(){}]*[)}])*[)}]\s*)*:', re.M)
# a clause may have a name
ENSURES, REQUIRES = (re.compile(r'^\s*%s (?:\w+ )?\{' % word, re.M) for word in ('ensures', 'requires'))

Row = collections.namedtuple('Row', 'section line title cells')  # cells: a column's words and the names that it cites


def read(path):
    with open(path, encoding='utf-8') as file:
        return file.read()


def rows():
    """Each row of each table, under its section."""
    section, head = '', []
    for number, line in enumerate(read(SHEET).split('\n'), 1):
        if line.startswith('## '):
            section = line[3:]
        if not line.startswith('|'):
            head = []
            continue
        cells = [cell.strip() for cell in line.strip().strip('|').split('|')]
        if not head:
            head = cells
            continue
        if set(line) <= set('|-'):
            continue
        found = {column: re.findall(r'`([^`]+)`', cell) for column, cell in zip(head, cells) if column in COLUMNS}
        yield Row(section, number, cells[0], found)


@functools.lru_cache(None)
def defined(pattern):
    """The places of all definitions in the files of a pattern: name to (path, line counted from 0)."""
    found = {}
    for path in sorted(glob.glob(pattern, recursive=True)):
        text = read(path)
        for match in DEFINED.finditer(text):
            found.setdefault(match.group(1), (path, text.count('\n', 0, match.start(1))))
    return found


def functions(crate):
    """The functions of a crate: name to (path, line counted from 0, its signature with its contract)."""
    found = {}
    for path in sorted(glob.glob('crates/%s/src/**/*.rt' % crate, recursive=True)):
        text = read(path)
        for match in re.finditer(r'^ *((?:pub )?(?:extern "C" )?fn (\w+).*?)^ *\{$', text, re.M | re.S):
            found[match.group(2)] = path, text.count('\n', 0, match.start(1)), match.group(1).rstrip()
    return found


def promised(crate, name):
    """A function that promises something whatever it is called with, or with * the first of all exported ones, which all do."""
    every = functions(crate)
    names = [n for n, f in every.items() if 'extern "C"' in f[2]] if name == '*' else [name]
    sound = [n for n in names if n in every and ENSURES.search(every[n][2]) and not REQUIRES.search(every[n][2])]
    return every[sound[0]][:2] if sound and sound == names else None


def place(column, cited):
    """Where a name of a column stands, as (path, line) or (path, None) for a whole file; None where it does not exist."""
    if '::' in cited:
        return promised(*cited.split('::'))
    if column == 'test':
        for path in (cited, os.path.join('crates', cited)):
            if os.path.exists(path):
                return path, None
        return None
    crate, _, name = cited.partition('/')
    if column == 'rule':
        return defined('crates/%s/specs/rules/**/*.antt' % crate).get(name)
    edit = 'crates/%s/must-fail/%s.edit' % (crate, name)
    if column == 'wrong variant' and os.path.isfile(edit):
        return edit, None
    return defined('crates/%s/specs/laws/**/*.antt' % crate).get(name)
