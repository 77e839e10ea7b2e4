"""What IP Encapsulation adds to a program: the vault with its routines, a helper, and the start.

The vault is code that is to be encapsulated. The rest of the program calls its routines, its doors,
and they work on registers, on its own words and on what lies outside of it.
"""

import random

import actions
import assembler
import boot_actions
import dma_actions
import encapsulation_actions
import protection_actions
import protection_situations
import timer_actions
from assembler import Operand, absolute, immediate, indexed, indirect, register, two
from encapsulation_actions import LOCK, MPUIPC0, REGISTERS
from layout import VAULT_DATA_SIZE, Code, Program, Vault
from protection_actions import at, far

SP = assembler.SP
PC = assembler.PC
RETURN = 0x0110  # MOVA @SP+, PC
PUSH_R11 = 0x140B  # of 20 bits
BYTES_WITHOUT_DATA = 8
RESETS_BUT_FETCHES = 0xCCCC  # of MPUSAM: each violation asks for a reset, and a fetch is none
KEPT_STACK = 0x1C3C  # where the vault keeps SP while it has another
WORDS_OF_A_DOOR = 120
# Of a program with structures. Those in the seal can be written from inside alone.
SHARE_OF_WORK_ON_BOOTS = 0.15

DATA_REGISTERS = range(4, 11)


def write_vault(rng: random.Random, program: Program) -> None:
    vault = program.places.vault
    program.code(vault.data, VAULT_DATA_SIZE).put(
        [rng.randrange(0x10000) for _ in range(VAULT_DATA_SIZE // 2)]
    )
    code = program.code(vault.first, vault.data - vault.first)
    write_first_words(rng, code, vault)
    for _ in range(rng.randrange(4, 9)):
        if code.rest < WORDS_OF_A_DOOR:
            break
        write_door(rng, code, vault)


def write_helper(rng: random.Random, program: Program) -> None:
    """A routine outside. The vault calls it, and what it reads and writes inside is refused."""
    code = program.low_code()
    program.places.helper = code.address
    for _ in range(rng.randrange(1, 4)):
        kind = rng.randrange(5)
        if kind < 3:
            rng.choice(protection_situations.DATA)(rng, code)
        elif kind == 3:
            actions.show_register(rng, code)
        else:
            encapsulation_actions.show_violation(rng, code)
    code.put([RETURN])


# The first eight bytes, from which an instruction has no right to the vault's data

def write_first_words(rng: random.Random, code: Code, vault: Vault) -> None:
    """Short instructions on data. Each of the first is a door, and so is what lies behind them."""
    end = vault.first + BYTES_WITHOUT_DATA + rng.choice((0, 2, 4))
    while code.here < end:
        vault.doors.append(code.here)
        code.put(short_instruction(rng, vault))
    vault.doors.append(code.here)
    for number in rng.sample(DATA_REGISTERS, 3):
        actions.show_register(rng, code, number)
    encapsulation_actions.show_violation(rng, code)
    code.put([RETURN])


def short_instruction(rng: random.Random, vault: Vault) -> list[int]:
    number = rng.choice(DATA_REGISTERS)
    address = vault.random_free_address(rng)
    return rng.choice((
        two("MOV", absolute(address), register(number)),
        [0x0020 | address >> 16 << 8 | number, address & 0xFFFF],  # MOVA &address
        two("MOV", indirect(10), register(number), rng.random() < 0.5),
        two("ADD", register(number), indexed(10, 0)),
        two("MOV", Operand(PC, 2), register(number)),
        [0x0000 | 10 << 8 | number],  # MOVA @R10
        two("MOV", register(number), absolute(rng.choice(actions.PORT_OUTPUTS))),
        [assembler.NOP],
        two("CMP", indirect(10), register(number)),
    ))


# Doors

def write_door(rng: random.Random, code: Code, vault: Vault) -> None:
    vault.doors.append(code.here)
    last = code.here + 2 * (WORDS_OF_A_DOOR - 40)
    for _ in range(rng.randrange(1, 5)):
        if code.here > last:
            break
        work, = rng.choices(*zip(*WORK))
        if code.places.structures and rng.random() < SHARE_OF_WORK_ON_BOOTS:
            work = boot_actions.act_on_boots
        work(rng, code)
    if rng.random() < 0.2:
        actions.show_register(rng, code)
    code.put([RETURN])


def own_address(rng: random.Random, code: Code) -> int:
    """Of a word of the vault, or of this code where it is another."""
    vault = code.places.vault
    return rng.choice((vault.random_address(rng), vault.random_free_address(rng),
                       rng.randrange(code.address, code.here + 8)))


def read_own_words(rng: random.Random, code: Code) -> None:
    number = rng.choice(DATA_REGISTERS)
    address = own_address(rng, code)
    kind = rng.randrange(7)
    if kind == 0:
        distance = address - code.here - 2
        code.put(two("MOV", indexed(PC, distance), register(number), rng.random() < 0.3))
    elif kind == 1:
        code.put(two(rng.choice(("MOV", "ADD", "XOR")), Operand(PC, 2), register(number)))
    elif kind == 2:
        code.put([0x0010 | number, rng.randrange(0x10000), rng.randrange(16)])  # MOVA @PC+
    elif kind == 3:
        code.put([0x0030 | number, address - code.here - 2 & 0xFFFF])  # MOVA x(PC)
    elif kind == 4:
        code.put(assembler.set_register(10, address))
        code.put(two("MOV", Operand(10, rng.choice((2, 3))), register(number), rng.random() < 0.5))
    elif kind == 5:
        code.put(far("MOV", at(address), (register(number), 0), rng.choice((8, 16, 20))))
    else:
        code.put(protection_actions.move(rng, "MOV", address, rng.choice(actions.PORT_OUTPUTS)))
    actions.show_register(rng, code, number)


def write_own_words(rng: random.Random, code: Code) -> None:
    address = code.places.vault.random_free_address(rng)
    name = rng.choice(("MOV", "ADD", "XOR", "BIC"))
    value = immediate(rng.randrange(0x10000))
    code.put(far(name, (value, 0), at(address), rng.choice((8, 16, 20))))
    if rng.random() < 0.6:
        code.put(far("MOV", at(address & ~1), at(rng.choice(actions.PORT_OUTPUTS)), 16))


def use_other_stack(rng: random.Random, code: Code) -> None:
    """A stack in the vault, over its end or outside, with interrupts on it now and then."""
    vault = code.places.vault
    code.put([0x0060 | SP << 8, KEPT_STACK])
    stack = rng.choice((vault.end, vault.end - 4 * rng.randrange(8), vault.end + 2, vault.end + 4,
                        vault.data + rng.randrange(2), 0x2300))
    code.put(assembler.set_register(SP, stack))
    for _ in range(rng.randrange(1, 4)):
        if rng.random() < 0.4:
            be_interrupted(rng, code)
        else:
            protection_situations.use_stack(rng, code)
    code.put([0x0020 | SP, KEPT_STACK])


def be_interrupted(rng: random.Random, code: Code) -> None:
    """A port asks, and the entry comes between instructions of the vault."""
    protection_situations.ask_by_a_port(rng, code)
    code.put([assembler.NOP] * rng.randrange(3))
    if rng.random() < 0.6:
        code.put([assembler.DISABLE_INTERRUPTS])


def stay(rng: random.Random, code: Code) -> None:
    """Long enough for a halt to wait for the way out."""
    actions.wait_ticks(rng, code, rng.choice((20, 60, 200)))


def sleep(rng: random.Random, code: Code) -> None:
    """Off, inside. A port wakes at once, or a timer later."""
    if rng.random() < 0.5:
        protection_situations.ask_by_a_port(rng, code)
    else:
        timer_actions.set_up(rng, code)
    code.put(two("BIS", immediate(rng.choice((0x0018, 0x0018, 0x0058, 0x0010))), register(2)))
    code.put([assembler.NOP])


def call_helper(rng: random.Random, code: Code) -> None:
    helper = code.places.helper
    if rng.random() < 0.6:
        code.put([0x13B0 | helper >> 16, helper & 0xFFFF])
        return
    code.put(assembler.set_register(11, code.here + 4 + 2 + 4))
    code.put([PUSH_R11])
    code.put(assembler.set_register(PC, helper))


def call_own_words(rng: random.Random, code: Code) -> None:
    """A call of what lies behind the call, whose return address is taken back."""
    target = code.here + 4
    code.put([0x13B0 | target >> 16, target & 0xFFFF])
    code.put([0x00A0 | SP, 4])  # ADDA #4, SP


def violate_segments(rng: random.Random, code: Code) -> None:
    protection_actions.arm(rng, code)
    rng.choice(protection_situations.DATA)(rng, code)
    if rng.random() < 0.7:
        protection_actions.disarm(rng, code)


def change_own_area(rng: random.Random, code: Code) -> None:
    """Where it isn't locked: the code may be outside afterwards, or the area be another."""
    if rng.random() < 0.5:
        encapsulation_actions.encapsulate(rng, code)
    else:
        encapsulation_actions.take_back(rng, code)
    read_own_words(rng, code)


def ask_for_reset(rng: random.Random, code: Code) -> None:
    code.put(rng.choice((
        assembler.store(actions.WDTCTL, 0x1280), [assembler.RESERVED],
        assembler.store(actions.PMMCTL0, 0xA508), assembler.store(actions.PMMCTL0, 0xA504),
        assembler.store(protection_actions.MPUCTL0, 0x1200),
    )))


def ask_for_two_resets(rng: random.Random, code: Code) -> None:
    """A step that is refused a read, and writes what it read where a password is asked for."""
    code.put(assembler.store(protection_actions.MPUCTL0, protection_actions.PASSWORD | 1))
    code.put(assembler.store(protection_actions.MPUSAM, RESETS_BUT_FETCHES))
    target = rng.choice((actions.WDTCTL, actions.PMMCTL0, protection_actions.FRCTL0,
                         protection_actions.MPUCTL0))
    code.put(assembler.copy(rng.choice((0x1900, 0x4400, code.places.bridge)), target))


WORK = (
    (read_own_words, 8), (write_own_words, 4), (use_other_stack, 3), (be_interrupted, 1.5),
    (stay, 2), (sleep, 0.5), (call_helper, 3), (call_own_words, 1), (violate_segments, 1),
    (change_own_area, 0.7), (ask_for_reset, 0.4), (ask_for_two_resets, 0.8),
    (actions.act_on_ports, 2),
    (actions.show_register, 2), (protection_situations.read_one, 2),
    (protection_situations.write_one, 2), (protection_situations.move_within_fram, 2),
    (protection_situations.change_one, 1), (dma_actions.set_up, 0.7), (timer_actions.set_up, 0.5),
    (protection_actions.set_waits, 0.3), (encapsulation_actions.show_violation, 1),
)


# Calls of doors

def call_door(rng: random.Random, code: Code, door: int | None = None) -> None:
    """By CALLA, or by a jump that leaves a return address; R10 leads into the vault most often."""
    vault = code.places.vault
    if door is None:
        door = rng.choice(vault.doors)
    if rng.random() < 0.85:
        code.put(assembler.set_register(10, vault.random_address(rng)))
    if rng.random() < 0.75:
        code.put([0x13B0 | door >> 16, door & 0xFFFF])
        return
    code.put(assembler.set_register(11, code.here + 4 + 2 + 4))
    code.put([PUSH_R11])
    code.put(assembler.set_register(PC, door))


# The start

def write_closing_words(rng: random.Random, program: Program, start: Code) -> None:
    """Now and then the debug port is closed by the image, until the program opens it perhaps."""
    if rng.random() >= 0.06:
        return
    words = encapsulation_actions.closing_words(rng)
    program.single_words |= dict(zip(encapsulation_actions.PORT_IS_CLOSED_BY, words))
    if rng.random() < 0.7:
        actions.wait_ticks(rng, start, rng.randrange(200))
        encapsulation_actions.open_port(rng, start)


def write_beginning(rng: random.Random, start: Code) -> None:
    """Shows what a reset left, and ends the encapsulation by a BOR now and then."""
    if rng.random() < 0.6:
        for address in rng.sample(REGISTERS, rng.randrange(1, 4)):
            actions.show(rng, start, address)
    if rng.random() < 0.1:
        for address in REGISTERS:  # the latch is closed here
            start.put(assembler.store(address, rng.randrange(0x10000)))
            actions.show(rng, start, address)
    if rng.random() < 0.5 and not start.places.structures:  # a boot may set LOCK each time
        start.put(two("BIT", immediate(LOCK), absolute(MPUIPC0)))
        start.jump("JEQ", start.here + 8)
        start.put(assembler.store(actions.PMMCTL0, 0xA504))
    if rng.random() < 0.3:
        encapsulation_actions.take_back(rng, start)
    if rng.random() < 0.25:
        encapsulation_actions.encapsulate(rng, start)
