"""The PARLOG process machine from Python: a Plan is a run of an image, in rows that it lends to librissobarm.so."""
import ctypes
import struct

LIMIT = 65535  # of one run call
ENDS = {1: 'success', 2: 'failure', 3: 'waiting', 4: 'room', 5: 'budget'}
ROWS = (10, 14336, 4096)  # bytes of head, processes and variables
VALUES, BOUND, SAVED = 64, 10, 24594  # bytes for the values of all goal variables, a list of variables bound, a saved run
IMAGE = 12798  # bytes of the longest image that a text becomes
LIBRARY = ctypes.CDLL('librissobarm.so.2')


class Refused(Exception):
    """A refused call: its number, for 1 to 7 the offset of the record, and for 16 that in the text."""

    def __init__(self, word):
        self.number, self.offset = word & 255, word >> 32
        super().__init__('refused %d at %d' % (self.number, self.offset))


def called(name, *lent):
    """The word of a call that is lent these rows and their lengths, and numbers."""
    function = getattr(LIBRARY, 'rissobarm_' + name)
    function.restype = ctypes.c_uint64
    word = function(*lent)
    if word & 255:
        raise Refused(word)
    return word


def parse(text):
    """The image of a PARLOG text, and the names of its relations and of its constants, by number."""
    rows = ctypes.create_string_buffer(IMAGE), ctypes.create_string_buffer(len(text) + 1)
    size = ctypes.c_size_t
    word = called('parse', rows[0], size(IMAGE), rows[1], size(len(text)), text, size(len(text)))
    image, names = rows[0].raw[:word >> 8 & 65535], rows[1].raw[:word >> 32].decode().splitlines()
    relations = called('load', image, size(len(image))) >> 8 & 255
    return image, names[:relations], names[relations:]


class Plan:
    """A run of an image; each call raises Refused or answers what its word tells."""

    def __init__(self, image, saved=None):
        """Begins a run, or takes up one that was saved."""
        rows = [ctypes.create_string_buffer(image, len(image) + 1)] + [ctypes.create_string_buffer(size) for size in ROWS]
        sizes = map(ctypes.c_size_t, (len(image),) + ROWS)
        self.lent = [part for pair in zip(rows, sizes) for part in pair]
        if saved is None:
            self.call('start')
        else:
            self.call('resume', row=(saved, ctypes.c_size_t(len(saved))))

    def save(self):
        """The run as bytes of a file."""
        row = ctypes.create_string_buffer(SAVED)
        size = self.call('save', row=(row, ctypes.c_size_t(SAVED))) >> 32
        return row.raw[:size]

    def call(self, name, *numbers, row=()):
        """A call by its name; row is what it is lent behind the tables, and its length."""
        if not all(0 <= number < 2 ** 32 for number in numbers):
            raise ValueError('not a number of 32 bits: ctypes would cut it, and another one be taken')
        return called(name, *self.lent, *row, *map(ctypes.c_uint32, numbers))

    def run(self, limit):
        """Makes turns: how it ended, and how many were made. A call takes 16 bits of limit, so there may be several."""
        made = 0
        while True:
            word = self.call('run', min(limit - made, LIMIT))
            made += word >> 32
            end = ENDS[word >> 8 & 255]
            if end != 'budget' or made == limit:
                return end, made

    def supply(self, variable, value):
        """Binds a goal variable; the variable that took the binding, in a list."""
        return self.bound('supply', variable, value)[1]

    def bound(self, name, *numbers):
        """A step, turn or supply: its word, and the variables that it bound, in their order."""
        row = ctypes.create_string_buffer(BOUND)
        word = self.call(name + '_bound', *numbers, row=(row, ctypes.c_size_t(BOUND)))
        count, *variables = struct.unpack('<5H', row.raw)
        return word, variables[:count]

    def value(self, variable):
        """A constant, or None where it is open."""
        word = self.call('value', variable)
        return word >> 32 if word >> 8 & 255 == 1 else None

    def values(self):
        """The values of all goal variables: constants, or None where one is open."""
        row = ctypes.create_string_buffer(VALUES)
        count = self.call('values', row=(row, ctypes.c_size_t(VALUES))) >> 32
        cells = [row.raw[4 * k:4 * k + 4] for k in range(count)]
        return [int.from_bytes(cell[1:], 'little') if cell[0] == 1 else None for cell in cells]

    def run_traced(self, limit, stamp):
        """Makes at most so many turns: how it ended, and a record of ten bytes for each, the first with this stamp."""
        row = ctypes.create_string_buffer(10 * limit + 1)
        word = self.call('run_traced', limit, stamp, row=(row, ctypes.c_size_t(10 * limit)))
        return ENDS[word >> 8 & 255], row.raw[:10 * (word >> 32)]

    def replay(self, trace):
        """Plays a trace again, from the tables that it began with; how many records."""
        return self.call('replay', row=(trace, ctypes.c_size_t(len(trace)))) >> 32
