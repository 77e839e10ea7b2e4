"""What a decoded instruction consists of."""

from dataclasses import dataclass
from enum import Enum, auto


class Mode(Enum):
    """Where an operand is, and how its address is formed."""

    REGISTER = auto()
    CONSTANT = auto()
    IMMEDIATE = auto()
    ABSOLUTE = auto()
    NEAR = auto()                # an index of 16 bits, which wraps in the lower 64 KB
    FAR = auto()                 # an index of 20 bits
    FAR_SIGNED = auto()          # an index of 16 bits, widened to 20 by its sign
    INDIRECT = auto()
    INDIRECT_INCREASED = auto()


MODES_WITH_A_WORD = frozenset(
    {Mode.IMMEDIATE, Mode.ABSOLUTE, Mode.NEAR, Mode.FAR, Mode.FAR_SIGNED}
)
INDIRECT_MODES = frozenset({Mode.INDIRECT, Mode.INDIRECT_INCREASED})
ADDRESSED_BY_A_WORD = frozenset({Mode.ABSOLUTE, Mode.NEAR, Mode.FAR, Mode.FAR_SIGNED})
MODES_IN_MEMORY = INDIRECT_MODES | ADDRESSED_BY_A_WORD


class Kind(Enum):
    """The instructions that are executed in the same way."""

    TWO_OPERANDS = auto()        # and ADDA, SUBA, CMPA
    ONE_OPERAND = auto()         # RRC, RRA, SWPB, SXT
    PUSH = auto()
    CALL = auto()
    RETI = auto()
    JUMP = auto()
    MOVA = auto()
    SHIFT = auto()               # RRCM, RRAM, RLAM, RRUM
    CALLA = auto()
    PUSHM = auto()
    POPM = auto()
    RESERVED = auto()


@dataclass(frozen=True, slots=True)
class Operand:
    mode: Mode
    register: int = 0
    constant: int = 0
    high_bits: int = 0           # bits 19:16 of its index, address or immediate
    word_number: int = 0         # which word of the instruction is its own, the first being 0

    @property
    def has_word(self):
        return self.mode in MODES_WITH_A_WORD

    @property
    def in_memory(self):
        return self.mode in MODES_IN_MEMORY


@dataclass(frozen=True, slots=True)
class Repeat:
    """What the extension word of the register form says."""

    count: int                   # holds where no register has the count
    register: int | None
    zero_carry: bool


@dataclass(frozen=True, slots=True)
class Instruction:
    kind: Kind
    operation: str               # the name without the X that an extension word adds
    words: int
    width: int = 16
    source: Operand | None = None
    destination: Operand | None = None   # of an operation on one operand, that operand
    extended: bool = False
    repeat: Repeat | None = None
    count: int = 1               # of PUSHM, POPM and the shifts by several places
    register: int = 0            # the register that PUSHM or POPM begins with
    distance: int = 0            # of a jump, in words

    @property
    def form(self):
        return self.operation + "X" if self.extended else self.operation
