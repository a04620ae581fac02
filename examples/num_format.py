"""num-format for Python, by ctypes. Load the shared library before the first call:

    num_format.load("./libnum_format.so")
"""
import ctypes

ERRORS = {
    -1: "the struct has no format",
    -2: "the array is shorter than the text",
    -3: "not UTF-8",
    -4: "not a number",
    -5: "unknown locale",
    -6: "a text of the format has more than 8 bytes",
    -7: "unknown grouping",
    -8: "unknown number of bits",
    -9: "a byte is not expected",
    -10: "no digit",
    -11: "not as the number is printed",
    -12: "the number is out of range",
    -13: "the scale is above 38",
    -14: "more than 38 decimals",
}


def load(path):
    """Loads the shared library at the path."""
    global _library
    _library = ctypes.CDLL(path)


def _call(name, *arguments):
    result = getattr(_library, "num_format_" + name)(*arguments)
    if result < 0:
        raise ValueError(ERRORS[result])
    return result


def _bytes(text):
    encoded = text.encode()
    return encoded, ctypes.c_size_t(len(encoded))


class Format(ctypes.Structure):
    """The format of a locale."""

    _fields_ = [
        ("_texts", ctypes.c_uint8 * 24),
        ("_lengths", ctypes.c_uint8 * 3),
        ("_grouping", ctypes.c_uint8),
        ("_reserved", ctypes.c_uint8 * 4),
    ]

    def __init__(self, locale):
        super().__init__()
        _call("locale", ctypes.byref(self), *_bytes(locale))

    def print(self, number):
        """Returns the text of a number of 64 bits, and raises OverflowError for a larger one."""
        if not -(2**63) <= number < 2**63:
            raise OverflowError(f"{number} is no signed number of 64 bits")
        text = ctypes.create_string_buffer(191)
        length = _call("print_i64", ctypes.byref(self), ctypes.c_int64(number), text, ctypes.c_size_t(191))
        return text.raw[:length].decode()

    def parse(self, text):
        """Returns the number of 64 bits that the text denotes."""
        number = ctypes.c_int64()
        _call("parse_i64", ctypes.byref(self), ctypes.c_uint32(64), *_bytes(text), ctypes.byref(number))
        return number.value

    def parse_strict(self, text):
        """Returns the number of 64 bits that is printed as the text, or as the text with separators."""
        number, at = ctypes.c_int64(), ctypes.c_size_t()
        outputs = ctypes.byref(number), ctypes.byref(at)
        _call("parse_strict_i64", ctypes.byref(self), ctypes.c_uint32(64), *_bytes(text), *outputs)
        return number.value
