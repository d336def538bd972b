"""A refused edit as a reader wants it: the function, its lines before and after in their place, and what the gate said. For tools/book."""
import collections, functools, glob, hashlib, os, re

import cited

REFUSALS = 'target/refusals'  # tools/refusals makes it of the gate's log
AROUND, WHOLE = 3, 18  # lines shown before and after a changed one; a function of so many is shown whole
HEAD = re.compile(r'( *)(?:pub )?(?:extern "C" )?(?:fn|const|struct|enum|impl) (\w+)')
Change = collections.namedtuple('Change', 'path function lines')  # lines: (mark, text), where a mark is ' ', '−', '+' or '·' for a gap
Said = collections.namedtuple('Said', 'where words unproved')


def replacements(edit):
    """The edit's file, old and new text, one after the other, as rt reads them."""
    path, old = '', ''
    for line in cited.read(edit).split('\n'):
        kind, _, text = line.partition(':')
        text = text[1:] if text.startswith(' ') else text
        if kind == 'file':
            path = text
        elif kind == 'old':
            old = text
        elif kind == 'new':
            yield path, old, text


def edited(edit):
    """Each file that the edit changes: its path in the crate to its text before and after."""
    crate, texts = os.path.dirname(os.path.dirname(edit)), {}
    for path, old, new in replacements(edit):
        if not os.path.exists(os.path.join(crate, path)):
            raise ValueError('%s: there is no %s' % (edit, path))
        before, after = texts.get(path) or [cited.read(os.path.join(crate, path))] * 2
        if after.count(old) != 1:
            raise ValueError('%s: the old text stands %d times in %s' % (edit, after.count(old), path))
        texts[path] = before, after.replace(old, new)
    return texts


def extent(lines, at):
    """The first and the last line of what a line belongs to: of code a function or its like, of a proof the lines to the next empty one."""
    head = next((i for i in range(at, -1, -1) if HEAD.match(lines[i])), None)
    if head is None:
        first = last = at
        while first > 0 and lines[first - 1].strip():
            first -= 1
        while last + 1 < len(lines) and lines[last + 1].strip():
            last += 1
        return first, last
    closing = HEAD.match(lines[head]).group(1) + '}'
    ends = [i for i in range(at, len(lines)) if lines[i] == closing or (i == head and lines[i].endswith(';'))]
    return head, ends[0] if ends else at


def function(path, lines, at):
    """The function to which a line belongs; a proof's is that of its folder."""
    if path.startswith('proofs/'):
        return 'the proof of ' + path.split('/')[-2]
    found = HEAD.match(lines[extent(lines, at)[0]])
    return found.group(2) if found else ''


def beside(lines, at):
    """The lines that are shown with a changed one: the function, of a long one its head and those nearby."""
    first, last = extent(lines, at)
    if last - first < WHOLE:
        return set(range(first, last + 1))
    return {first} | set(range(max(at - AROUND, first), min(at + AROUND, last) + 1))


def changes(edit):
    """The changed lines of each file, each with those around it, under the functions that they belong to."""
    for path, (before, after) in edited(edit).items():
        old, new = before.split('\n'), after.split('\n')
        moved = [at for at, (a, b) in enumerate(zip(old, new)) if a != b]
        shown = sorted(set().union(*(beside(old, at) for at in moved)))
        lines, last = [], None
        for at in shown:
            if last is not None and at != last + 1:
                lines.append(('·', ''))
            lines += [('−', old[at]), ('+', new[at])] if at in moved else [(' ', old[at])]
            last = at
        yield Change(path, ', '.join(dict.fromkeys(function(path, old, at) for at in moved)), lines)


def sum_of(edit):
    """A sum over what the gate tries: the crate as it stands, and the edit."""
    crate, made = os.path.dirname(os.path.dirname(edit)), hashlib.sha256()
    for part in ('src', 'specs', 'proofs'):
        for path in sorted(glob.glob('%s/%s/**/*.*' % (crate, part), recursive=True)):
            made.update(('%s\n%s\n' % (path, cited.read(path))).encode())
    made.update(cited.read(edit).encode())
    return made.hexdigest()


def refusals(log):
    """What a gate's log says of each refused edit, as lines of target/refusals: crate and name, the sum, and the first error."""
    for crate, label, words in re.findall(r'^rt: must-fail (\w+)/(\S+)\.edit: refused, as it must be(?: \(only [^)]*\))?: (.*)', log, re.M):
        edit = 'crates/%s/must-fail/%s.edit' % (crate, label)
        if os.path.isfile(edit):
            yield '\t'.join(('%s/%s' % (crate, label), sum_of(edit), words))


@functools.lru_cache(None)
def kept():
    """The lines of target/refusals: crate and name to sum and words; none where no gate has ended here."""
    lines = [line.split('\t', 2) for line in cited.read(REFUSALS).split('\n')] if os.path.exists(REFUSALS) else []
    return {line[0]: line[1:] for line in lines if len(line) == 3}


def said(edit):
    """What the gate said of the edit when it was last tried: its first error, and the function that is not proved for it. None where
    there was no such run, or one of another text."""
    made, words = kept().get(re.sub(r'crates/(.*)/must-fail/(.*)\.edit', r'\1/\2', edit), (None, ''))
    first = re.match(r'(?:note: )?(?:\./)?(\S+?):(\d+):(\d+): (?:error(?:\[[\w-]+\])?: )?(.*)', words)
    if not first or made != sum_of(edit):
        return None
    path, line = first.group(1), int(first.group(2)) - 1
    unproved = ''
    if path.startswith('proofs/'):
        unproved = path.split('/')[-2]
    elif path.startswith('src/'):
        lines = edited(edit)[path][1].split('\n') if path in edited(edit) else cited.read('crates/%s/%s' % (edit.split('/')[1], path)).split('\n')
        unproved = function(path, lines, line) if line < len(lines) else ''
    return Said('%s:%d:%s' % (path, line + 1, first.group(3)), sentence(first.group(4)), [unproved] if unproved else [])


def sentence(words):
    """The first sentence, and of a long one its beginning."""
    words = re.split(r'\. |: write |; ', words)[0]
    return words if len(words) <= 240 else words[:240].rsplit(' ', 1)[0] + ' ..'
