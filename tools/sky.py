"""The sky sheet by program: each case with its name, what the program `skysheet` worked out, and the published figure. What the program
worked out is read from its stored output, to which rt holds the program. For tools/skysheet and tools/book."""
import os, re, struct

import cited

CASES = os.path.join(cited.ROOT, 'crates', 'skysheet')
DEGREE = 57.29577951308232  # degrees of one radian


def sixtieths(seconds, digits, marks):
    """Seconds as the book writes them: hours or degrees, minutes, and seconds."""
    whole = round(abs(seconds) * 10 ** digits)
    minutes, rest = divmod(whole, 60 * 10 ** digits)
    text = '%0*.*f' % (3 + digits, digits, rest / 10 ** digits)
    sign = '-' if struct.pack('>d', seconds)[0] & 0x80 else ''
    return '%s%d%s%02d%s%s%s' % (sign, minutes // 60, marks[0], minutes % 60, marks[1], text, marks[2])


def written(x, unit, digits):
    if unit == 'hms':
        return sixtieths(x * DEGREE * 240, digits, 'hms')
    if unit == 'dms':
        return sixtieths(x * DEGREE * 3600, digits, 'd\'"')
    return '%.*f' % (digits, x * {'number': 1, 'minutes': 60, 'degrees': DEGREE, 'seconds': DEGREE * 3600}[unit])


def digits_of(figure):
    return len(re.search(r'\.(\d*)', figure).group(1))


def held(line, units, published):
    """The line in the book's units, and whether it is what is published."""
    if line.startswith('refused'):
        return line, line == published
    numbers = [struct.unpack('>d', bytes.fromhex(word))[0] for word in line.split()]
    units = units * (len(numbers) // len(units))
    shown = ' '.join(written(x, unit, 6) for x, unit in zip(numbers, units))
    if published == 'accepted':
        return shown, True
    figures = published.split()
    return shown, len(figures) == len(numbers) and all(
        written(x, unit, digits_of(figure)) == figure for x, unit, figure in zip(numbers, units, figures))


def cases():
    """Each case: its name, what was worked out, what is published, the remark that stands where they need not agree, and whether all is well."""
    rows = [[part.strip() for part in row.split(' | ')] for row in cited.read(os.path.join(CASES, 'figures')).splitlines() if not row.startswith('#')]
    lines = cited.read(os.path.join(CASES, 'stdout')).splitlines()
    if len(rows) != len(lines):
        raise ValueError('%d lines for %d cases' % (len(lines), len(rows)))
    for (name, units, published, *remark), line in zip(rows, lines):
        shown, agrees = held(line, units.split(), published)
        yield name, shown, published, remark[0] if remark else '', agrees != bool(remark)
