"""Words as people type them, and as the shell spells them: quotes hold any bytes."""
import re

# The bytes that stand for themselves in a word whose bytes are all spelled.
PLAIN = set(range(33, 127)) - {ord("%")}
PIECE = re.compile(r'"((?:[^"\\]|\\.)*)"|([^" ]+)|( +)')


class Mistyped(Exception):
    """Why a line is not handed to the shell."""


def spelled(text, plain):
    """Text as a word of the shell has it, in which the bytes of `plain` stand for themselves."""
    return "".join(chr(byte) if byte in plain else f"%{byte:02x}" for byte in text.encode(errors="surrogateescape"))


def meant_by(word):
    """The text that a word of the shell spells."""
    if word == "%":
        return ""
    return re.sub(b"%([0-9a-f]{2})", lambda it: bytes([int(it[1], 16)]), word.encode(errors="surrogateescape")).decode(errors="surrogateescape")


def words_of(line):
    """The words of a line, each as it was meant and as the shell spells it."""
    words, meant, spells, is_quoted, at = [], "", "", False, 0
    line = line.strip() + " "
    while at < len(line):
        piece = PIECE.match(line, at)
        if not piece:
            raise Mistyped('a " is open; the byte itself is %22')
        at = piece.end()
        if piece[3]:
            # Nothing between quotes is the empty string, also behind the bracket of a bound.
            empty = "%" if is_quoted and spells in ("", "[", "(") else ""
            words.append((meant, spells + empty))
            meant, spells, is_quoted = "", "", False
        elif piece[2]:
            meant, spells = meant + piece[2], spells + spelled(piece[2], range(33, 127))
        else:
            text = re.sub(r'\\(["\\])', r"\1", piece[1])
            plain = PLAIN - ({ord(text)} if text in ("-", ";") else set())
            meant, spells, is_quoted = meant + text, spells + spelled(text, plain), True
    return words
