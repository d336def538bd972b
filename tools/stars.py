"""stars.py COMMAND NAME [names]: prints the stored list (20 bytes a star) of the text of stars on standard input, or a line for each star
that has a name, its number and the name. Messages begin with the command, and call the text by the name. Seconds are read as fractions, so
that a count of milliarcseconds is exact before it is rounded."""
import os, re, struct, sys
from fractions import Fraction

RECORD, MOST_STARS = struct.Struct('<IIiii'), 3000
MOST_RATE = 20000
MOST_BYTES = 10000000
MARK = b'\xef\xbb\xbf'


def say(text):
    """A message on standard error, where there is one: no other file may have got its number."""
    if sys.stderr is not None:
        try:
            os.write(2, ('%s: TEXT: %s\n' % (sys.argv[1], text)).encode('utf-8', 'backslashreplace'))
        except OSError:
            pass


def fail(text):
    say(text)
    sys.exit(2)


def milliarcseconds(units, minutes, seconds, scale):
    return round((int(units) * 3600 + int(minutes) * 60 + Fraction(seconds)) * 1000 * scale)


def angle(unit, words, scale):
    """Units, minutes and seconds as milliarcseconds, of which a second has 1000 times the scale."""
    forms = (unit, '[0-9]{1,3}'), ('minutes', '[0-9]{1,2}'), ('seconds', r'[0-9]{1,2}(\.[0-9]{0,30})?')
    for (name, form), word in zip(forms, words):
        if not re.fullmatch(form, word):
            raise ValueError('%r is no number of %s' % (word, name))
        if name != unit and Fraction(word) >= 60:
            raise ValueError('%r %s are 60 or more' % (word, name))
    return milliarcseconds(*words, scale)


def parts(words):
    """The three parts of the angle with which the words begin, and the words after it."""
    if words and ':' in words[0]:
        split = words[0].split(':')
        if len(split) != 3:
            raise ValueError('%r is no angle of three parts' % words[0])
        return split, words[1:]
    if len(words) < 3:
        raise ValueError('a star is its number, h m s, and d m s')
    return words[:3], words[3:]


def is_signed(word):
    """Whether a word begins with a sign, the minus of print (U+2212) among them: so no name begins, and no rate without one."""
    return word[:1] in ('+', '-', '\u2212')


def rate(word):
    if not re.fullmatch('[+-][0-9]{1,10}', word):
        raise ValueError('%r is no rate, a whole number with its sign' % word)
    if abs(int(word)) > MOST_RATE:
        raise ValueError('%r is no rate of at most %d milliarcseconds a year' % (word, MOST_RATE))
    return int(word)


def rates(words):
    """The two rates with which the words begin, zero where none does, and the words after them."""
    if len(words) > 1 and re.fullmatch('[0-9]+', words[0]) and re.fullmatch('[+-]?[0-9]+', words[1]):
        raise ValueError('%r is no rate, which bears a sign, and two numbers begin no name' % words[0])
    signed = next((k for k, word in enumerate(words) if not is_signed(word)), len(words))
    found = [rate(word) for word in words[:signed]]
    if len(found) not in (0, 2):
        raise ValueError('a star has two rates or none, and not %d' % len(found))
    return found or [0, 0], words[signed:]


def star(words):
    """A star's number, its record, and its name."""
    if not re.fullmatch('[0-9]{1,10}', words[0]) or int(words[0]) >= 2 ** 32:
        raise ValueError('%r is no number of a star' % words[0])
    if int(words[0]) == 0:
        raise ValueError('%r is the number of an empty place, and no star\'s' % words[0])
    hours, rest = parts(words[1:])
    degrees, rest = parts(rest)
    asc = angle('hours', hours, 15)
    if asc >= milliarcseconds(24, 0, 0, 15):
        raise ValueError('%r is no right ascension below 24 hours' % ' '.join(hours))
    sign, whole = re.fullmatch('([+-]?)(.*)', degrees[0]).groups()
    dec = angle('degrees', [whole] + degrees[1:], 1)
    if dec > milliarcseconds(90, 0, 0, 1):
        raise ValueError('%r is no declination of at most 90 degrees' % ' '.join(degrees))
    (asc_rate, dec_rate), rest = rates(rest)
    return int(words[0]), RECORD.pack(int(words[0]), asc, -dec if sign == '-' else dec, asc_rate, dec_rate), ' '.join(rest)


def text(name):
    """The bytes of the text, without its byte-order mark."""
    if sys.stdin is None:
        fail('cannot read %s: it is closed' % name)
    try:
        with open(0, 'rb') as given:
            found = given.read(MOST_BYTES + 1)
    except OSError as why:
        fail('cannot read %s: %s' % (name, why.strerror))
    if len(found) > MOST_BYTES:
        fail('%s has more than %d bytes: it is no text of stars' % (name, MOST_BYTES))
    return found[len(MARK):] if found.startswith(MARK) else found


def stars(name):
    """The stars that a text says. A number that stands twice is named."""
    out, lines = [], {}
    for at, line in enumerate(text(name).split(b'\n'), 1):
        try:
            words = line.decode('utf-8').split('#')[0].split()
            if not words:
                continue
            out.append(star(words))
            if len(out) > MOST_STARS:
                raise ValueError('more than %d stars' % MOST_STARS)
        except ValueError as why:
            shown = line[:80].decode('utf-8', 'replace').strip()
            fail('%s, line %d: %s: %r' % (name, at, 'no text' if isinstance(why, UnicodeError) else why, shown))
        number = out[-1][0]
        if lines.setdefault(number, at) != at:
            say('%s, line %d: the number %d stands in line %d too' % (name, at, number, lines[number]))
    if not out:
        fail('%s has no star' % name)
    return out


def main(command, name, wanted='list'):
    found = stars(name)
    if wanted == 'names':
        out = ''.join('%d %s\n' % (number, called) for number, _, called in found if called).encode('utf-8')
    else:
        out = b''.join(record for _, record, _ in found)
    try:
        while out:
            out = out[os.write(1, out):]
    except OSError as why:
        fail('cannot keep the %s of %s: %s' % (wanted, name, why.strerror))


main(*sys.argv[1:])
