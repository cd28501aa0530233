"""How large C makes structs, where a pointer has 64 bits and a number is aligned to its size."""

NUMBERS = {"u8": 1, "bool": 1, "u16": 2, "i16": 2, "u32": 4, "i32": 4, "u64": 8, "i64": 8, "usize": 8}


def size_of(fields, structs):
    """The size of a struct of these fields, in bytes; `structs` has the fields of each struct by its name."""
    return placed(fields, structs)[0]


def placed(fields, structs):
    """The size of a struct, and what it is aligned to."""
    end, most = 0, 1
    for it in fields:
        of, count = it.element
        size, aligned = (NUMBERS[of],) * 2 if of in NUMBERS else placed(structs[of], structs)
        end, most = rounded(end, aligned) + size * (count or 1), max(most, aligned)
    return rounded(end, most), most


def rounded(size, to):
    """The least multiple that isn't smaller."""
    return -(-size // to) * to
