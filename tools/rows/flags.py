"""The rules of flags (docs/FORMATS.md, 'Flags'), each a small test of one set of bits."""
PUBLIC, PRIVATE, PROTECTED, STATIC, FINAL = 0x0001, 0x0002, 0x0004, 0x0008, 0x0010
SUPER = SYNCHRONIZED = 0x0020
VOLATILE = BRIDGE = 0x0040
TRANSIENT = VARARGS = 0x0080
NATIVE, INTERFACE, ABSTRACT, STRICT = 0x0100, 0x0200, 0x0400, 0x0800
SYNTHETIC, ANNOTATION, ENUM = 0x1000, 0x2000, 0x4000

FIELD_BITS = PUBLIC | PRIVATE | PROTECTED | STATIC | FINAL | VOLATILE | TRANSIENT | SYNTHETIC | ENUM
METHOD_BITS = (
    PUBLIC | PRIVATE | PROTECTED | STATIC | FINAL | SYNCHRONIZED | BRIDGE | VARARGS
    | NATIVE | ABSTRACT | STRICT | SYNTHETIC
)


def has_all(flags, bits):
    return flags & bits == bits


def has_none(flags, bits):
    return flags & bits == 0


def at_most_one(flags, bits):
    return bin(flags & bits).count("1") <= 1


# The newest major version. A minor one decides no rule.
NEWEST = 52


def class_keeps(flags, major=NEWEST):
    if flags & INTERFACE:
        has = ABSTRACT if major >= 50 else 0
        has_not = FINAL | ENUM | (SUPER if major >= 49 else 0)
        return has_all(flags, has) and has_none(flags, has_not)
    return has_none(flags, ANNOTATION) and not has_all(flags, FINAL | ABSTRACT)


def field_keeps(flags, of_interface, major=NEWEST):
    keeps = at_most_one(flags, PUBLIC | PRIVATE | PROTECTED) and not has_all(flags, FINAL | VOLATILE)
    if of_interface:
        constant = PUBLIC | STATIC | FINAL
        keeps = keeps and has_all(flags, constant) and has_none(flags, FIELD_BITS & ~(constant | SYNTHETIC))
    return keeps


def method_keeps(flags, of_interface, major=NEWEST):
    keeps = at_most_one(flags, PUBLIC | PRIVATE | PROTECTED)
    if flags & ABSTRACT:
        has_not = PRIVATE | STATIC | FINAL | NATIVE | (SYNCHRONIZED | STRICT if major >= 49 else 0)
        keeps = keeps and has_none(flags, has_not)
    if of_interface:
        if major >= 52:
            keeps = keeps and bool(flags & PUBLIC) != bool(flags & PRIVATE)
        else:
            keeps = keeps and has_all(flags, PUBLIC | ABSTRACT)
        keeps = keeps and has_none(flags, PROTECTED | FINAL | SYNCHRONIZED | NATIVE)
    return keeps


def init_keeps(flags, of_interface, major=NEWEST):
    may_have = PUBLIC | PRIVATE | PROTECTED | VARARGS | STRICT | SYNTHETIC
    return method_keeps(flags, of_interface, major) and has_none(flags, METHOD_BITS & ~may_have)


def clinit_keeps(flags, of_interface, major=NEWEST):
    return True
