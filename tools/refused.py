"""How the tools refuse a text: what was expected, what was found."""


class Refused(Exception):
    """A file or a line that is not what it should be: where, what was expected, what was found."""


def seen(words):
    """Words as they can be seen: what is not a plain character by its number."""
    return "`%s`" % " ".join(words).encode("unicode_escape").decode().replace("\\\\", "\\") if words else "nothing"


def refuse(expected, found):
    """`found` is the words of the text, or a sentence's end about them."""
    raise Refused("expected %s, found %s" % (expected, found if isinstance(found, str) else seen(found)))
