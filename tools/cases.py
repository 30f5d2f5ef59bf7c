"""The random cases of tools/fuzz, valid and broken, each by its seed."""
import random

import broken_cases
from valid_cases import still_case, valid_case

KINDS = {
    "free": (lambda rng: valid_case(rng, "free"), 26),
    "layers": (lambda rng: valid_case(rng, "layers"), 8),
    "phases": (lambda rng: valid_case(rng, "phases"), 8),
    "still": (still_case, 8),
    "words": (broken_cases.words_case, 4),
    "values": (broken_cases.values_case, 12),
    "syntax": (broken_cases.syntax_case, 3),
    "bytes": (broken_cases.bytes_case, 14),
    "line": (broken_cases.line_case, 8),
    "absent": (broken_cases.absent_case, 4),
    "differ": (broken_cases.phases_case, 3),
    "long": (broken_cases.long_case, 1),
    "put": (broken_cases.put_case, 4),
}


def case_of(seed):
    rng = random.Random(seed)
    names = list(KINDS)
    kind = rng.choices(names, [KINDS[name][1] for name in names])[0]
    return KINDS[kind][0](rng)
