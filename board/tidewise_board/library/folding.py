"""Names in plain characters: umlauts and accents are folded as ports write them in telexes."""
from __future__ import annotations

import unicodedata

LETTERS = {"ä": "ae", "ö": "oe", "ü": "ue", "ß": "ss", "Ä": "Ae", "Ö": "Oe", "Ü": "Ue", "ẞ": "SS", "å": "aa", "Å": "Aa", "ø": "oe",
           "Ø": "Oe", "æ": "ae", "Æ": "Ae", "œ": "oe", "Œ": "Oe", "ð": "d", "Ð": "D", "þ": "th", "Þ": "Th", "ł": "l", "Ł": "L",
           "đ": "d", "Đ": "D", "ı": "i", "‘": "'", "’": "'", "–": "-", "—": "-"}


def folded(name: str) -> str:
    """The name in plain letters, if there are some for all of it: Möwe is Moewe, Olé is Ole. Else it stays."""
    letters = "".join(LETTERS.get(one, one) for one in unicodedata.normalize("NFC", name))
    plain = "".join(one for one in unicodedata.normalize("NFKD", letters) if not unicodedata.combining(one))
    return plain if plain.isascii() else name
