#!/usr/bin/env python3
"""Prints a C source of functions of random types, each with a caller, for places.c.

    places.py KIND COUNT      COUNT functions of a kind: KIND_1, KIND_2 and so on
    places.py KIND NAME       the declarations of one of them and of its types

The same arguments give the same source. A kind names types: at least one parameter or the result has one, and others may.
"""
import math
import random
import sys

INTEGERS = [
    "_Bool", "char", "signed char", "unsigned char", "short", "unsigned short", "int", "unsigned", "long", "unsigned long",
    "long long", "unsigned long long",
]
ENUMS = ["enum plain_enum", "enum signed_enum", "enum wide_enum", "enum byte_enum", "enum short_enum"]
POINTERS = ["address", "text", "visit", "row", "handle"]
FLOATS = ["float", "double"]
COMPLEX = ["float _Complex", "double _Complex"]
X87 = ["long double"]
X87_COMPLEX = ["long double _Complex"]
VECTORS = ["char_8", "short_8", "int_8", "float_8", "long_8", "char_16", "int_16", "long_16", "float_16", "double_16"]
INT128 = ["__int128", "unsigned __int128"]
QUAD = ["quad"]

SMALL = INTEGERS + FLOATS * 3
PLAIN = SMALL * 2 + ENUMS + POINTERS
WIDE = COMPLEX * 2 + X87 * 2 + X87_COMPLEX + VECTORS

# the largest width of a bit field of each type
BIT_FIELDS = {
    "_Bool": 1, "char": 8, "signed char": 8, "unsigned char": 8, "short": 16, "unsigned short": 16, "int": 32, "unsigned": 32,
    "long": 64, "unsigned long": 64, "long long": 64, "unsigned long long": 64, "enum plain_enum": 32, "enum wide_enum": 64,
}
WIDE_BIT_FIELDS = {"__int128": 128, "unsigned __int128": 128}

# the sizes of types; other types have at most LONGEST bytes
SIZES = {
    "_Bool": 1, "char": 1, "signed char": 1, "unsigned char": 1, "enum byte_enum": 1, "short": 2, "unsigned short": 2,
    "enum short_enum": 2, "int": 4, "unsigned": 4, "float": 4, "enum plain_enum": 4, "enum signed_enum": 4, "long": 8,
    "unsigned long": 8, "long long": 8, "unsigned long long": 8, "double": 8, "enum wide_enum": 8, "long double _Complex": 32,
} | {own: 8 for own in POINTERS} | {own: 16 for own in COMPLEX + X87 + VECTORS + INT128 + QUAD}
LONGEST = 64

# the largest size of an object, and how deep aggregates are nested
LARGEST = 400
DEEPEST = 3

# members of eight bytes for a transparent union, whose first member must not be a floating-point number
TRANSPARENT = POINTERS + ["long", "struct { double d; }", "struct { float f[2]; }"]

ARRAYS = [[1], [2], [2], [3], [4], [2, 2], [7], [1, 3]]
ALIGNMENTS = [1, 2, 4, 8, 8, 16, 16, 32, 64]


class Kind:
    """What types are made of: scalars inside aggregates and alone, how likely an aggregate is, and how likely each form is in it."""

    def __init__(self, scalars, alone=None, aggregates=0.85, typedefs=(), **forms):
        self.scalars = scalars
        self.alone = alone or scalars
        self.aggregates = aggregates
        self.typedefs = typedefs  # the alignments of typedefs of members
        self.forms = forms


KINDS = {
    # kinds for which compilers follow the rules
    "scalars": Kind(PLAIN + WIDE * 2, aggregates=0.0, qualified=0.3),
    "structures": Kind(PLAIN, nested=0.2, arrays=0.1),
    "floats": Kind(FLOATS + ["float", "int"], nested=0.2, arrays=0.2),
    "unions": Kind(PLAIN, unions=0.7, nested=0.3, arrays=0.1),
    "bits": Kind(PLAIN, bits=0.6, whole_bits=0.05, nested=0.1, unions=0.1),
    "wide_bits": Kind(SMALL, bits=0.7, wide_bits=0.5, whole_bits=0.05, unions=0.2),
    "packed": Kind(PLAIN, packed=0.7, arrays=0.1),
    "packed_nested": Kind(PLAIN, packed=0.7, nested=0.3),
    "aligned": Kind(PLAIN, aligned=0.4, nested=0.2, unions=0.1),
    "typedefs": Kind(PLAIN, typedefs=[16, 32, 64], nested=0.2, unions=0.1),
    "arrays": Kind(PLAIN, arrays=0.6, nested=0.3, unions=0.1),
    "empty": Kind(SMALL, empty=0.5, nested=0.4, unions=0.3),
    "complexes": Kind(SMALL + COMPLEX * 5, nested=0.2, unions=0.2, arrays=0.1),
    "vectors": Kind(SMALL + VECTORS * 3, nested=0.2, arrays=0.1),
    "int128s": Kind(SMALL + INT128 * 4, alone=SMALL, nested=0.2, unions=0.2, arrays=0.1),
    "x87": Kind(SMALL + X87 * 5 + X87_COMPLEX, nested=0.2, outer_unions=0.3, arrays=0.1),
    "large": Kind(PLAIN + WIDE + INT128, alone=PLAIN, nested=0.5, arrays=0.6),
    "mixed": Kind(
        PLAIN + COMPLEX + X87 + INT128, alone=PLAIN + WIDE, nested=0.3, outer_unions=0.3, bits=0.2, aligned=0.05, arrays=0.2,
        empty=0.05, qualified=0.1),
    # the same, of gcc alone: types that clang does not have, and arrays of empty structures, at which it may end with a signal
    "decimals": Kind(SMALL + ["_Decimal32", "_Decimal64", "_Decimal128"] * 5, nested=0.2, unions=0.2, arrays=0.1),
    "halves": Kind(SMALL + ["_Float16", "_Float16 _Complex"] * 5, nested=0.2, unions=0.2, arrays=0.1),
    "interchange": Kind(SMALL + ["_Float32", "_Float64", "_Float32x", "_Float64x"] * 5, nested=0.2),
    "empty_arrays": Kind(SMALL, empty=0.6, nested=0.4, unions=0.3, arrays=0.6),
    # kinds for which a compiler departs from the rules
    "zero_arrays": Kind(FLOATS + ["float", "int", "char"], zero_arrays=0.4, nested=0.2),
    "flexible": Kind(PLAIN, flexible=0.8),
    "unnamed_bits": Kind(SMALL, bits=0.3, unnamed=0.5),
    "aligned_bits": Kind(["long", "double"], bits=0.5, aligned_bits=1.0, aligned=0.8),
    "crossing_bits": Kind(PLAIN, packed=0.7, bits=0.3, arrays=0.1),
    "packed_bits": Kind(SMALL, packed=1.0, bits=0.5, whole_bits=1.0),
    "packed_unions": Kind(["char", "short"], packed=1.0, nested=0.5, unions=0.5, union_bits=0.7),
    "packed_arrays": Kind(["char", "short", "int"], packed=1.0, elements=0.7),
    "half_elements": Kind(["short", "_Float16", "_Float16"], elements=0.9),
    "packed_wide": Kind(SMALL + WIDE, alone=SMALL, packed=0.8, nested=0.1),
    "packed_aligned": Kind(SMALL, packed=0.8, nested=0.3, aligned=0.3),
    "raised": Kind(PLAIN, raised=1.0),
    "lowered": Kind(SMALL + X87 * 2 + VECTORS, alone=PLAIN, typedefs=[1, 2, 4], lowered=1.0),
    "int128_alone": Kind(INT128, aggregates=0.0),
    "x87_unions": Kind(["int", "__int128"] + X87 * 2, alone=SMALL, nested=0.5, unions=1.0),
    "quads": Kind(SMALL + QUAD * 8, alone=SMALL, nested=0.2, unions=0.2, arrays=0.1),
    "complex_quads": Kind(["_Float128 _Complex", "_Float128 _Complex", "int"], aggregates=0.3),
    "vector_unions": Kind(["float", "long"] + VECTORS, unions=0.8, nested=0.3, arrays=0.5),
    "vectors_32": Kind(SMALL + ["char_32", "long_32", "float_32", "double_32"] * 4, nested=0.1, variadic=0.0),
    "vectors_64": Kind(SMALL + ["int_64", "double_64"] * 8, nested=0.1, variadic=0.0),
    "vectors_variadic": Kind(["char_32", "long_32", "double_32"], aggregates=0.3, variadic=1.0),
    "vectors_short": Kind(SMALL + ["char_2", "char_4", "short_4"] * 5),
    "vectors_of_one": Kind(SMALL + ["float_4", "double_8"] * 8),
    "vectors_int128": Kind(SMALL + ["int128_16", "int128_32"] * 8),
    "transparent": Kind(SMALL, transparent=1.0),
    "atomic": Kind(SMALL, atomic=1.0, nested=0.2),
    "bit_precise": Kind(SMALL + ["_BitInt(16)", "_BitInt(33)", "_BitInt(64)", "_BitInt(77)", "_BitInt(128)"] * 4, nested=0.1),
    "conventions": Kind(SMALL, aggregates=0.0, convention=1.0),
}


class Type:
    """The specifiers of a type, and upper bounds for its size and alignment."""

    def __init__(self, text, size=None, align=None):
        self.text = text
        self.size = SIZES.get(text, LONGEST) if size is None else size
        self.align = max(1, min(self.size, LONGEST)) if align is None else align


class Types:
    """Random types of a kind, and their declarations."""

    def __init__(self, kind, name):
        self.kind = KINDS[kind]
        self.name = name
        self.dice = random.Random(name)
        self.lines = []
        self.tags = 0

    def chance(self, likely):
        return self.dice.random() < likely

    def form(self, form, part=1.0, default=0.0):
        """Whether a form is chosen; `part` reduces its likelihood."""
        return self.chance(self.kind.forms.get(form, default) * part)

    def tag(self):
        self.tags += 1
        return f"{self.name}_{self.tags}"

    def scalar(self):
        return Type(self.dice.choice(self.kind.scalars))

    def whole(self):
        """A type of the kind."""
        if self.form("transparent"):
            return self.transparent()
        if self.form("elements"):
            return self.array()
        own = self.aggregate(0) if self.chance(self.kind.aggregates) else Type(self.dice.choice(self.kind.alone))
        return self.typedef(own, self.dice.choice([16, 32, 64])) if self.form("raised") else own

    def typedef(self, own, align):
        name = self.tag()
        self.lines.append(f"typedef {own.text} {name} __attribute__((aligned({align})));")
        return Type(name, own.size, max(own.align, align))

    def transparent(self):
        """A union that is passed like its first member."""
        members = [self.dice.choice(TRANSPARENT) for _ in range(self.dice.randint(1, 3))]
        text = " ".join(f"{own} m{number};" for number, own in enumerate(members))
        name = self.tag()
        self.lines.append(f"typedef union {{ {text} }} {name} __attribute__((transparent_union));")
        return Type(name, 8)

    def array(self):
        """A structure of two or three structures or unions of scalars."""
        own = self.aggregate(DEEPEST)
        count = self.dice.choice([2, 3])
        tag = self.tag()
        self.lines.append(f"struct {tag} {{\n    {own.text} m0[{count}];\n}};")
        return Type(f"struct {tag}", own.size * count, own.align)

    def aggregate(self, depth):
        """Declares a structure or a union. If one is too large, drops it with its types and makes another one."""
        before = len(self.lines)
        while True:
            tag = self.tag()
            own = self.body(depth, tag, "m")
            if own.size <= LARGEST:
                break
            del self.lines[before:]
        self.lines.append(f"{own.text};")
        return Type(f"{own.text.split()[0]} {tag}", own.size, own.align)

    def body(self, depth, tag, names):
        """A structure or a union with its members; `names` is the prefix of their names."""
        kind = "union" if self.form("unions") or depth == 0 and self.form("outer_unions") else "struct"
        packed = " __attribute__((packed))" if self.form("packed") else ""
        many = self.dice.choices([1, 2, 3, 4, 6, 8], [5, 7, 5, 3, 2, 1 if depth == 0 else 0])[0]
        if self.form("empty", 1.0 if depth else 0.5):
            many = 0
        members = [self.member(depth, kind, f"{names}{number}") for number in range(many)]
        if kind == "struct" and depth == 0 and many and self.form("flexible"):
            own = self.scalar()
            members.append((f"{own.text} rest[];", 0, own.align))
        align, attribute = self.alignment()
        size = 0
        for _, of, at in members:
            align = max(align, at)
            size = max(size, of) if kind == "union" else (size + at - 1) // at * at + of
        lines = "".join(f"    {line}\n" for line, _, _ in members)
        text = f"{kind}{packed}{' ' + tag if tag else ''} {{\n{lines}}}{attribute}"
        return Type(text, (size + align - 1) // align * align, align)

    def member(self, depth, kind, name):
        """The line of a member, its size and its alignment."""
        if self.form("unnamed"):
            own, most = self.dice.choice(list(BIT_FIELDS.items()))
            return f"{own} : {self.dice.choice([0, self.dice.randint(1, most)])};", SIZES[own], SIZES[own]
        if self.form("bits") or kind == "union" and self.form("union_bits"):
            return self.bit_field(name)
        if depth < DEEPEST and (self.form("nested", 1 / (1 + depth)) or self.form("empty", 0.5)):
            if self.chance(0.3):
                # without a tag and a name: its members also belong to the outer one
                own = self.body(depth + 1, "", f"{name}_")
                return own.text.replace("\n", "\n    ") + ";", own.size, own.align
            own = self.aggregate(depth + 1)
        else:
            own = self.scalar()
        if self.kind.typedefs and self.chance(0.5):
            align = self.dice.choice(self.kind.typedefs)
            own = self.typedef(own, align if self.form("lowered") else max(align, own.align))
        packed = " __attribute__((packed))" if self.form("packed", 0.25) else ""
        counts = self.dice.choice(ARRAYS) if self.form("arrays") else [0] if self.form("zero_arrays") else []
        align, attribute = self.alignment()
        dimensions = "".join(f"[{count}]" for count in counts)
        return f"{own.text} {name}{dimensions}{packed}{attribute};", own.size * math.prod(counts), max(own.align, align)

    def bit_field(self, name):
        """The line of a bit field, and the size and the alignment of its type."""
        own, most = self.dice.choice(list((WIDE_BIT_FIELDS if self.form("wide_bits") else BIT_FIELDS).items()))
        width = most if self.form("whole_bits") else self.dice.randint(1, max(1, most - 1))
        align, attribute = self.alignment() if self.form("aligned_bits") else (1, "")
        return f"{own} {name} : {width}{attribute};", SIZES.get(own, 16), max(align, SIZES.get(own, 16))

    def alignment(self):
        """An alignment and its attribute; usually 1 and no attribute."""
        if not self.form("aligned"):
            return 1, ""
        align = self.dice.choice(ALIGNMENTS)
        return align, f" __attribute__((aligned({align})))"


class Object:
    """A parameter or a result: the specifiers of its type in the declaration of a function, and in that of an object."""

    def __init__(self, types, special):
        own = types.whole() if special or types.chance(0.5) else Type(types.dice.choice(PLAIN))
        self.text = own.text
        self.declared = f"_Atomic({own.text})" if types.form("atomic") else own.text
        if types.form("qualified"):
            self.declared = types.dice.choice(["const ", "volatile ", ""]) + self.declared
        self.size = "1 | TRUTH" if own.text == "_Bool" else f"sizeof({own.text})"


class Function:
    """A function of a kind, with the declarations of its types."""

    def __init__(self, kind, name):
        self.name = name
        self.types = types = Types(kind, name)
        many = types.dice.choices([0, 1, 2, 3, 4, 6, 9, 14], [1, 4, 6, 6, 4, 4, 4, 2])[0]
        special = types.dice.randrange(many + 1)
        self.params = [Object(types, number == special) for number in range(many)]
        self.result = Object(types, special == many) if special == many or types.chance(0.75) else None
        self.variadic = many > 0 and types.form("variadic", default=0.07)
        self.convention = "__attribute__((ms_abi)) " if types.form("convention") else ""

    def head(self, name, params):
        """The declaration of a function of this type."""
        params = params + (["..."] if self.variadic else [])
        return f"{self.result.declared if self.result else 'void'} {name}({', '.join(params) or 'void'})"

    def declared(self):
        params = [f"{of.declared} p{n}" for n, of in enumerate(self.params)]
        return "\n".join(self.types.lines + [self.head(self.convention + self.name, params)])

    def text(self):
        """The function, its caller, and their description for places.c."""
        params = list(enumerate(self.params))
        cast = self.head(f"({self.convention}*)", [of.declared for of in self.params])
        call = f"(({cast})put)({', '.join(f'p{n}' for n, _ in params)})"
        sizes = [of.size for of in self.params] or ["0"]
        lines = [self.declared(), "{"]
        if self.result:
            lines += [f"    {self.result.text} r;", "    GIVE(r);"]
        lines += [f"    FIND({n}, p{n});" for n, _ in params]
        if self.result:
            lines += ["    return r;"]
        lines += ["}", f"static void call_{self.name}(void)", "{"]
        for n, of in params:
            lines += [f"    {of.text} p{n};", f"    PASS({n}, p{n});"]
        lines += [f"    {self.result.declared} r = {call};", "    KEEP(r);"] if self.result else [f"    {call};"]
        lines += ["}"]
        lines += [f"FITS({of.text});" for of in self.params + [self.result] if of]
        lines += [f"SUBJECT({self.name}, {self.result.size if self.result else 0}, {len(params)}, {', '.join(sizes)});", ""]
        return "\n".join(lines)


def main(kind, which):
    if not which.isdigit():
        print(Function(kind, which).declared())
        return
    print('#include "places.h"\n')
    for number in range(1, int(which) + 1):
        print(Function(kind, f"{kind}_{number}").text())


main(*sys.argv[1:])
