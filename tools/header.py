"""What include/brundelak.h declares: its functions, figures and statuses. Read by whatever is made from the header or held to it, so that a
new entry point is declared once. A header that is not written as this expects ends it with a message."""
import os, re, sys

PATH = os.path.join(os.path.dirname(os.path.abspath(__file__)), '..', 'include', 'brundelak.h')
# the types that the boundary has
SORTS = 'uint8_t', 'uint32_t', 'int32_t', 'uint64_t', 'int64_t', 'double'
# what is lent as so many elements, by name, with the figure that says how many
ARRAYS = {'tally': ('uint32_t', 'COUNTS'), 'asc_sheet': ('int64_t', 'FIGURES'), 'dec_sheet': ('int64_t', 'FIGURES'),
          'sheet': ('int64_t', 'FIGURES')}


class Unexpected(Exception):
    """The text is not what is expected."""


class Parameter:
    def __init__(self, text):
        found = re.fullmatch(r'(const )?(\w+) (\*?)(\w+)', ' '.join(text.split()))
        if not found or found.group(2) not in SORTS or found.group(1) and not found.group(3):
            raise Unexpected('a parameter "%s"' % text.strip())
        self.const, self.sort, self.pointer, self.name = bool(found.group(1)), found.group(2), bool(found.group(3)), found.group(4)
        self.slice = False  # whether the next parameter is its length
        self.length = False  # whether it is one
        sort, self.array = ARRAYS.get(self.name, ('', '')) if self.pointer else ('', '')
        if self.sort == 'int64_t' and not self.array or self.array and self.sort != sort:
            raise Unexpected('a parameter "%s", whose elements no figure counts' % text.strip())

    def __eq__(self, other):
        return (self.const, self.sort, self.pointer, self.name) == (other.const, other.sort, other.pointer, other.name)


class Function:
    def __init__(self, answers, name, parameters):
        self.answers, self.name = answers, name
        self.short = name[len('brundelak_'):]
        self.parameters = [] if parameters.strip() == 'void' else [Parameter(text) for text in parameters.split(',')]
        for one, then in zip(self.parameters, self.parameters[1:]):
            if one.pointer and not then.pointer and then.sort == 'uint64_t' and re.fullmatch(r'(\w+_)?len', then.name):
                one.slice = then.length = True

    def of_numbers(self):
        """Whether it takes doubles and answers doubles, and nothing else."""
        return self.answers == 'uint8_t' and bool(self.parameters) and all(p.sort == 'double' and not p.slice for p in self.parameters)

    def given(self):
        return [p for p in self.parameters if not p.pointer]

    def answered(self):
        return [p for p in self.parameters if p.pointer and not p.const]


def text():
    return open(PATH, encoding='utf-8').read()


def functions(of=None):
    """All that is declared, in its order."""
    plain = re.sub(r'/\*.*?\*/', '', of or text(), flags=re.S)
    found = [Function(*words) for words in re.findall(r'^(\w+) (brundelak_\w+)\(([^()]*)\);', plain, re.M)]
    named = set(re.findall(r'^(?!static|enum)\w[\w ]*\b(brundelak_\w+)\s*\(', plain, re.M))
    if not found or named != {f.name for f in found} or len(named) != len(found) or {f.answers for f in found} - {'uint8_t', 'uint32_t'}:
        raise Unexpected('include/brundelak.h declares functions otherwise than one a line, each answering uint8_t or uint32_t')
    return found


def figures(of=None):
    """What is defined as a number, by the name without BRUNDELAK_, and the version's text."""
    known = {}
    for name, worth in re.findall(r'^#define BRUNDELAK_(\w+) (.+)$', of or text(), re.M):
        known[name] = worth[1:-1] if worth[0] == '"' else eval(worth.replace('BRUNDELAK_', ''), {}, known)
    return known


def refusals(of=None):
    """Number, name in capitals and sentence of each; the sentence of a number that has no name."""
    read = of or text()
    numbers = re.findall(r'^    BRUNDELAK_REFUSAL_(\w+) = (\d+),?$', read, re.M)
    said = dict(re.findall(r'(?:case BRUNDELAK_(\w+)|default):\n\s+return "([^"]*)";', read))
    named = [(int(number), name, said.get('REFUSAL_' + name)) for name, number in numbers]
    if not named or '' not in said or any(sentence is None for _, _, sentence in named):
        raise Unexpected('include/brundelak.h has a refusal without a sentence')
    return named, said['']


def refused(name, why):
    sys.stderr.write('%s: %s\n' % (name, why))
    sys.exit(2)
