"""The shared library: it is loaded once, and called by what the header declares."""
from __future__ import annotations

import ctypes
import os
import sys
from typing import Any, Callable, List, Tuple

from . import _raw
from .refusal import Refusal

_SORTS: Any = {'uint8_t': ctypes.c_uint8, 'uint32_t': ctypes.c_uint32, 'int32_t': ctypes.c_int32, 'uint64_t': ctypes.c_uint64,
               'int64_t': ctypes.c_int64, 'double': ctypes.c_double}
# how a buffer says that its elements are of a sort
_FORMATS = {'uint8_t': 'Bbc', 'double': 'd', 'uint32_t': 'IL'}
_RANGES = {'uint8_t': (0, 2**8 - 1), 'uint32_t': (0, 2**32 - 1), 'int32_t': (-2**31, 2**31 - 1), 'uint64_t': (0, 2**64 - 1)}


def _folders() -> List[str]:
    """Where the library may lie: in the folder that BRUNDELAK_LIB names, and nowhere else where it does; beside the package; where install
    put both, in lib; in the repository, where ./build leaves it."""
    named = os.environ.get('BRUNDELAK_LIB')
    if named:
        return [named]
    own = os.path.dirname(os.path.abspath(__file__))
    return [own, os.path.join(own, '..', '..', '..', '..', 'lib'), os.path.join(own, '..', '..', 'target', 'brundelak', 'shared')]


def _load() -> ctypes.CDLL:
    name = 'libbrundelak.so.' + '.'.join(_raw.VERSION.split('.')[:2])
    for folder in _folders():
        path = os.path.join(folder, name)
        if os.path.exists(path):
            return ctypes.CDLL(path)
    if os.environ.get('BRUNDELAK_LIB'):
        raise ImportError('brundelak: there is no %s in %s, which BRUNDELAK_LIB names' % (name, os.environ['BRUNDELAK_LIB']))
    try:
        return ctypes.CDLL(name)
    except OSError:
        raise ImportError('brundelak: there is no %s: name its folder by BRUNDELAK_LIB' % name) from None


_LIBRARY = _load()
for _symbol, (_answers, _takes) in _raw.FUNCTIONS.items():
    _function = getattr(_LIBRARY, _symbol)
    _function.restype = _SORTS[_answers]
    _function.argtypes = [ctypes.c_void_p if _type.endswith('*') else _SORTS[_type] for _type, _, _ in _takes]


def _number(name: str, value: Any) -> float:
    if not hasattr(value, '__float__') and not hasattr(value, '__index__'):
        raise TypeError('%s is no number' % name)
    return float(value)


def _whole(sort: str, name: str, value: Any) -> int:
    """A whole number that is given; one that has no such value is an error of the caller."""
    number = value.__index__() if hasattr(value, '__index__') else None
    if number is None:
        raise TypeError('%s is no whole number' % name)
    least, most = _RANGES[sort]
    if not least <= number <= most:
        raise OverflowError('%s is not within %d to %d' % (name, least, most))
    return int(number)


def _lent(sort: str, name: str, value: Any, read: bool) -> Tuple[int, int, Any]:
    """A buffer that is lent: where it lies, how many elements it has, and what must live as long as the call. What is only read is copied
    where its own memory cannot be lent."""
    size = ctypes.sizeof(_SORTS[sort])
    try:
        view = memoryview(value)
    except TypeError:
        raise TypeError('%s has no buffer' % name) from None
    if view.format.lstrip('@=<') not in tuple(_FORMATS[sort]) or view.itemsize != size or view.ndim != 1 or sys.byteorder != 'little':
        raise TypeError('%s is no buffer of %s, in one row' % (name, sort))
    if not read and (view.readonly or not view.c_contiguous):
        raise TypeError('%s cannot be written, or its elements do not lie one behind the other' % name)
    many = len(view)
    if isinstance(value, bytes):
        return ctypes.cast(ctypes.c_char_p(value), ctypes.c_void_p).value or 0, many, value
    if view.readonly or not view.c_contiguous or many == 0:
        kept = ctypes.create_string_buffer(view.tobytes(), max(1, many * size))
        return ctypes.addressof(kept), many, kept
    kept = (ctypes.c_char * (many * size)).from_buffer(view)
    return ctypes.addressof(kept), many, (kept, view)


def _apart(lent: List[Tuple[int, int, bool, str]]) -> None:
    """Ends where memory that is written is lent twice, which C does not allow."""
    ordered = sorted(lent)
    for (_, end, read, name), (start, _, other_read, other) in zip(ordered, ordered[1:]):
        if start < end and not (read and other_read):
            raise ValueError('%s and %s overlap' % (name, other))


def status_of(symbol: str, *given: Any) -> Tuple[int, List[Any]]:
    """Calls an entry point with what it is given, numbers and buffers in their order. Answers its status, and what it left: a number for
    each pointer of its own, a list for each that leads to more."""
    rest = list(given)
    words: List[Any] = []
    answers: List[Tuple[Any, int]] = []
    alive: List[Any] = []
    lent: List[Tuple[int, int, bool, str]] = []
    for written, name, many in _raw.FUNCTIONS[symbol][1]:
        read = written.startswith('const ')
        sort = written.replace('const ', '').replace(' *', '')
        if many == 'slice':
            place, length, kept = _lent(sort, name, rest.pop(0), read)
            alive.append(kept)
            lent.append((place, place + length * ctypes.sizeof(_SORTS[sort]), read, name))
            words += [place, length]
        elif many == 0:
            words.append(_number(name, rest.pop(0)) if sort == 'double' else _whole(sort, name, rest.pop(0)))
        elif isinstance(many, int):
            own = (_SORTS[sort] * many)()
            # a row that the call changes is given; what it only answers is not
            if many > 1 and rest:
                row = list(rest.pop(0))
                if len(row) != many:
                    raise ValueError('%s has not %d elements' % (name, many))
                own[:] = [_whole(sort, 'an element of ' + name, one) for one in row]
            answers.append((own, many))
            words.append(ctypes.addressof(own))
    if rest:
        raise TypeError('%s takes fewer arguments' % symbol)
    _apart(lent)
    status = getattr(_LIBRARY, symbol)(*words)
    del alive
    return status, [list(own) if many > 1 else own[0] for own, many in answers]


def call(symbol: str, *given: Any) -> List[Any]:
    """The same, of a call that is answered: what it left. A refused one is raised."""
    status, answers = status_of(symbol, *given)
    if status != 0:
        raise Refusal(status)
    return answers


def one(symbol: str, *given: float) -> float:
    """The answer of a function of numbers that has one."""
    answer: float = call(symbol, *given)[0]
    return answer


def version_number() -> int:
    """The number of the library's version."""
    number: Callable[[], int] = _LIBRARY.brundelak_version
    return number()
