"""Numbers and flags of a run whose inputs are unknown: each has its value in this run and a term of z3 over the inputs. The rules
of the folder checks calculate with them as with fractions. Where the rules ask a flag, the path notes the term and the answer."""
from fractions import Fraction

from suites.z3_found import z3


class Path:
    """The flags that the rules asked for, in their order, each as its term, its value, and what it was asked for."""

    def __init__(self):
        self.asked = []
        self.what = None

    def note(self, term, value):
        self.asked.append((term, value, self.what))


class Number:
    """A number: its value, and a whole term that is the number times two to the power of `bits`."""

    def __init__(self, path, value, term, bits, floor_of=None):
        self.path, self.concrete, self.term, self.bits, self.floor_of = path, value, term, bits, floor_of

    def at(self, bits):
        """The term with more bits after the point."""
        return self.term if bits == self.bits else self.term * 2 ** (bits - self.bits)

    def other(self, number):
        """A number of the rules as one of these."""
        if isinstance(number, Number):
            return number
        number = Fraction(number)
        bits = number.denominator.bit_length() - 1
        return Number(self.path, number, z3.IntVal(number.numerator), bits)

    def made(self, other, value, combine):
        """A number of two, by terms with as many bits."""
        bits = max(self.bits, other.bits)
        return Number(self.path, value, combine(self.at(bits), other.at(bits)), bits)

    def __add__(self, other):
        other = self.other(other)
        return self.made(other, self.concrete + other.concrete, lambda a, b: a + b)

    def __sub__(self, other):
        other = self.other(other)
        return self.made(other, self.concrete - other.concrete, lambda a, b: a - b)

    def __mul__(self, other):
        if isinstance(other, int) and other > 0 and other & (other - 1) == 0:
            shift = min(other.bit_length() - 1, self.bits)
            return Number(self.path, self.concrete * other, self.term * (other >> shift), self.bits - shift)
        other = self.other(other)
        return Number(self.path, self.concrete * other.concrete, self.term * other.term, self.bits + other.bits)

    def __truediv__(self, other):
        return Quotient(self, self.other(other))

    def __mod__(self, most):
        return Number(self.path, self.concrete % most, self.term % most, 0)

    def __radd__(self, other):
        return self.other(other) + self

    def __rsub__(self, other):
        return self.other(other) - self

    def __rmul__(self, other):
        return self * other

    def __rtruediv__(self, other):
        return self.other(other) / self

    def __neg__(self):
        return Number(self.path, -self.concrete, -self.term, self.bits)

    def __abs__(self):
        return abs(self.concrete)

    def __floor__(self):
        whole = self.concrete.__floor__()
        term = self.term if self.bits == 0 else self.term / 2 ** self.bits
        return Number(self.path, Fraction(whole), term, 0, self)

    def compared(self, other, value, compare):
        other = self.other(other)
        bits = max(self.bits, other.bits)
        return Flag(self.path, value(self.concrete, other.concrete), lambda: compare(self.at(bits), other.at(bits)))

    def __eq__(self, other):
        if isinstance(other, Quotient):
            return self.concrete == other.concrete
        return self.compared(other, lambda a, b: a == b, lambda a, b: a == b)

    def __ne__(self, other):
        if self.floor_of is not None or isinstance(other, Quotient):
            # The rules only count whether bits were dropped: no run hangs on it.
            return self.concrete != (other if isinstance(other, Quotient) else self.other(other)).concrete
        return self.compared(other, lambda a, b: a != b, lambda a, b: a != b)

    def __lt__(self, other):
        return self.compared(other, lambda a, b: a < b, lambda a, b: a < b)

    def __le__(self, other):
        return self.compared(other, lambda a, b: a <= b, lambda a, b: a <= b)

    def __gt__(self, other):
        return self.compared(other, lambda a, b: a > b, lambda a, b: a > b)

    def __ge__(self, other):
        return self.compared(other, lambda a, b: a >= b, lambda a, b: a >= b)

    __hash__ = None


class Quotient:
    """An exact quotient, of which the rules take the floor."""

    def __init__(self, left, right, factor=1):
        self.left, self.right, self.factor = left, right, factor
        self.concrete = left.concrete * factor / right.concrete

    def __mul__(self, factor):
        return Quotient(self.left, self.right, self.factor * factor)

    def __lt__(self, other):
        return self.concrete < other

    def __eq__(self, other):
        return self.concrete == other.concrete

    def __ne__(self, other):
        return self.concrete != other.concrete

    def __floor__(self):
        over, under = self.left.term * (self.factor * 2 ** self.right.bits), self.right.term * 2 ** self.left.bits
        term = z3.If(under > 0, over / under, (-over) / (-under))
        return Number(self.left.path, Fraction(self.concrete.__floor__()), term, 0, self)

    __hash__ = None


class Flag:
    """A flag: its value, and what makes its term."""

    def __init__(self, path, value, make):
        self.path, self.concrete, self.make = path, value, make
        self.is_noted = False

    def __bool__(self):
        if not self.is_noted:
            self.is_noted = True
            self.path.note(self.make(), self.concrete)
        return self.concrete

    def __eq__(self, other):
        return Flag(self.path, self.concrete == value_of(other), lambda: self.make() == term_of(other))

    def __ne__(self, other):
        return Flag(self.path, self.concrete != value_of(other), lambda: self.make() != term_of(other))

    def unordered(self, other):
        """The rules make all comparisons and take one; of flags they take none of these."""
        return NotImplemented if not isinstance(other, (bool, Flag)) else False

    __lt__ = __le__ = __gt__ = __ge__ = unordered
    __hash__ = None


def value_of(thing):
    """The value of a number or of a flag in this run."""
    return thing.concrete if isinstance(thing, (Number, Flag, Quotient)) else thing


def term_of(flag):
    return flag.make() if isinstance(flag, Flag) else z3.BoolVal(flag)
