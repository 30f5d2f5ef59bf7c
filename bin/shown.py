"""Texts of others, as a terminal may have them."""


def letter_shown(letter):
    """A character as it is, or as an escape where a terminal would act on it or show nothing."""
    code = ord(letter)
    if letter.isprintable():
        return letter
    simple = {"\t": "\\t", "\r": "\\r", "\n": "\\n"}
    if letter in simple:
        return simple[letter]
    if 0xDC80 <= code <= 0xDCFF:
        code -= 0xDC00
    return f"\\x{code:02x}" if code < 256 else f"\\u{{{code:x}}}"


def shown(text):
    """A text with nothing in it that a terminal would act on."""
    return "".join(map(letter_shown, text))


def quoted(text, most=40):
    """A text between back quotes, cut where it is long."""
    return f"`{shown(text[:most])}`" + (" .." if len(text) > most else "")
