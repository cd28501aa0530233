"""Derives the tables of 16 bytes in src/tower.rt; docs/TOWER.md tells how."""


def product(a, b, modulus=0x11B, degree=8):
    result = 0
    while b:
        if b & 1:
            result ^= a
        a <<= 1
        if a >> degree:
            a ^= modulus
        b >>= 1
    return result


def power(a, exponent):
    result = 1
    for _ in range(exponent):
        result = product(result, a)
    return result


# The small field: polynomials in w below degree 4, modulo w^4 + w + 1.
def small_product(a, b):
    return product(a, b, 0x13, 4)


SMALL_INVERSE = {a: b for a in range(16) for b in range(16) if small_product(a, b) == 1}
INFINITY = 0x80  # a look-up at 128 and above gives 0, as 1 / infinity should

# The bytes that are the small field: w is the least root of w^4 + w + 1.
W = next(x for x in range(2, 256) if power(x, 4) ^ x ^ 1 == 0)


def embedded(a):
    result = 0
    for n in range(4):
        if a >> n & 1:
            result ^= power(W, n)
    return result


# The byte k + i * s, where s^2 + A * s + A = 0 has no root in the small field.
A = next(
    a
    for a in range(1, 16)
    if all(small_product(x, x) ^ small_product(a, x) ^ a for x in range(16))
)
S = next(
    x for x in range(256) if product(x, x) ^ product(embedded(A), x) ^ embedded(A) == 0
)
BYTE = {
    (i, k): embedded(k) ^ product(embedded(i), S) for i in range(16) for k in range(16)
}
COORDINATES = {byte: pair for pair, byte in BYTE.items()}


def affine(b, constant=0x63):
    result = constant
    for i in range(8):
        for j in (0, 4, 5, 6, 7):
            result ^= (b >> ((i + j) % 8) & 1) << i
    return result


LINEAR = [affine(b, 0) for b in range(256)]


def unaffine(b):
    return LINEAR.index(b ^ 0x63)


def tower(byte):
    """The byte k + i * s, written as 16 * i + k."""
    i, k = COORDINATES[byte]
    return 16 * i + k


def unaffine_form(b):
    """That of what the affine transformation without its constant makes to b."""
    return tower(LINEAR.index(b))


def tripled_form(form):
    """That of 03 times the byte whose form it is, both without the constant."""
    byte = next(b for b in range(256) if unaffine_form(b) == form)
    return unaffine_form(product(3, byte))


def over(a, k):
    return small_product(a, SMALL_INVERSE[k]) if k else INFINITY


# With j = i + k and N = k^2 + A * i * j, 1 / io = (k + A * i) / N and 1 / jo = (k + A * j) / N.
# The inverse of k + i * s is ((k + A * i) + i * s) / N.
def inverse_from(one_over_io, one_over_jo):
    k_over_n = small_product(SMALL_INVERSE[A], one_over_io ^ one_over_jo)
    i_over_n = small_product(SMALL_INVERSE[A], one_over_io ^ k_over_n)
    return BYTE[(i_over_n, one_over_io)]


def one_over(x):
    return SMALL_INVERSE[x] if x else None  # 0 does not come up where it is read


def from_io(change):
    return [change(inverse_from(one_over(x), 0)) if x else 0 for x in range(16)]


def from_jo(change):
    return [change(inverse_from(0, one_over(x))) if x else 0 for x in range(16)]


def nibbles(change):
    """Tables of the low and of the high half, whose entries' sum is the change of the byte."""
    low = [change(x) for x in range(16)]
    high = [change(16 * x) ^ change(0) for x in range(16)]
    return low, high


TABLES = {
    "INVERSES": [over(1, x) for x in range(16)],
    "A_OVER": [over(A, x) for x in range(16)],
    "TOWER_LOW": nibbles(tower)[0],
    "TOWER_HIGH": nibbles(tower)[1],
    "SUB_IO": from_io(lambda x: LINEAR[x]),
    "SUB_JO": from_jo(lambda x: LINEAR[x]),
    "ONCE_IO": from_io(lambda x: tower(LINEAR[x])),
    "ONCE_JO": from_jo(lambda x: tower(LINEAR[x])),
    "THRICE_IO": from_io(lambda x: tower(product(3, LINEAR[x]))),
    "THRICE_JO": from_jo(lambda x: tower(product(3, LINEAR[x]))),
    "INV_FORM_LOW": nibbles(lambda x: tower(unaffine(x)))[0],
    "INV_FORM_HIGH": nibbles(lambda x: tower(unaffine(x)))[1],
    "INV_SUB_IO": from_io(lambda x: x),
    "INV_SUB_JO": from_jo(lambda x: x),
}
for c in (0x09, 0x04, 0x02, 0x01):
    TABLES[f"INV_{c:02X}_IO"] = from_io(lambda x: unaffine_form(product(c, x)))
    TABLES[f"INV_{c:02X}_JO"] = from_jo(lambda x: unaffine_form(product(c, x)))
TABLES["INV_THRICE_LOW"], TABLES["INV_THRICE_HIGH"] = nibbles(tripled_form)
for c in (0x0E, 0x0B, 0x0D, 0x09):
    low, high = nibbles(lambda x: product(c, x))
    TABLES[f"TIMES_{c:02X}_LOW"], TABLES[f"TIMES_{c:02X}_HIGH"] = low, high


def check():
    def look(table, place):
        assert place < 16 or place >= 128
        return 0 if place >= 128 else TABLES[table][place]

    def half(table, x):
        return look(table + "_LOW", x & 15) ^ look(table + "_HIGH", x >> 4)

    def inverted(i, k):
        ak = look("A_OVER", k)
        io = look("INVERSES", look("INVERSES", i) ^ ak) ^ i ^ k
        jo = look("INVERSES", look("INVERSES", i ^ k) ^ ak) ^ i
        return io, jo

    inverses = [next((b for b in range(256) if product(a, b) == 1), 0) for a in range(256)]
    for x in range(256):
        form = half("TOWER", x)
        io, jo = inverted(form >> 4, form & 15)
        s = affine(inverses[x])
        assert look("SUB_IO", io) ^ look("SUB_JO", jo) ^ 0x63 == s
        assert look("ONCE_IO", io) ^ look("ONCE_JO", jo) == half("TOWER", s ^ 0x63)
        assert look("THRICE_IO", io) ^ look("THRICE_JO", jo) == half("TOWER", product(3, s ^ 0x63))
        form = half("INV_FORM", s)
        io, jo = inverted(form >> 4, form & 15)
        assert look("INV_SUB_IO", io) ^ look("INV_SUB_JO", jo) == x
        assert half("INV_THRICE", unaffine_form(x)) == unaffine_form(product(3, x))
        for c in (0x09, 0x04, 0x02, 0x01):
            times = look(f"INV_{c:02X}_IO", io) ^ look(f"INV_{c:02X}_JO", jo)
            assert times == half("INV_FORM", product(c, x)) ^ half("INV_FORM", 0)


if __name__ == "__main__":
    check()
    for name, table in TABLES.items():
        print(f"static {name}: [u8; 16] = [")
        print("    " + " ".join(f"0x{x:02x}," for x in table))
        print("];\n")
