"""DMA: three channels that move bytes and words, and what triggers them (MACHINE.md, DMA)."""

from collections import Counter
from enum import IntEnum

from bus import Agent
from memory import ADDRESS_MASK
from registers_of_units import LOW_HALF, WORD, merged

FIRST_ADDRESS = 0x0500
BLOCK_SIZE = 0x40

DMACTL0 = 0x0500
DMACTL1 = 0x0502
DMACTL4 = 0x0508
DMAIV = 0x050E
CONTROL_BITS_OF_UNIT = {DMACTL0: 0x1F1F, DMACTL1: 0x001F, DMACTL4: WORD}

FIRST_CHANNEL = 0x0510
CHANNEL_SIZE = 0x10
CHANNELS = 3

CTL = 0x00
SOURCE_LOW = 0x02
SOURCE_HIGH = 0x04
DESTINATION_LOW = 0x06
DESTINATION_HIGH = 0x08
SZ = 0x0A
REGISTER_BITS = {SOURCE_LOW: WORD, SOURCE_HIGH: 0x000F, DESTINATION_LOW: WORD,
                 DESTINATION_HIGH: 0x000F, SZ: WORD}

MODE_SHIFT = 12
DESTINATION_STEP_SHIFT = 10
SOURCE_STEP_SHIFT = 8
DESTINATION_BYTE_BIT = 0x0080
SOURCE_BYTE_BIT = 0x0040
ENABLE_BIT = 0x0010
FLAG_BIT = 0x0008
INTERRUPT_BIT = 0x0004
REQUEST_BIT = 0x0001
CONTROL_BITS = 0x7FFE  # REQ isn't kept

TRIGGER_BITS = 0x1F
TRIGGER_BY_REQUEST = 0
TRIGGERS_OF_TIMERS = {("TA0", 0): 1, ("TA0", 2): 2, ("TA1", 0): 3, ("TA1", 2): 4,
                      ("TB0", 0): 7, ("TB0", 2): 8}

SINGLE_MODES = (0, 4)  # a trigger makes one transfer wait
ONE_TIME_MODES = (0, 1, 2, 3)  # EN becomes 0 with the working size
BURST_MODES = (2, 3, 6, 7)  # four transfers, and then a rest
REPEATED_BURST_MODES = (6, 7)
TRANSFERS_OF_A_BURST = 4
REST = 2


class Step(IntEnum):
    """What an INCR of 2 or 3 does with an address."""

    DOWN = 2
    UP = 3


class Channel:
    def __init__(self, number: int, statistics: Counter):
        self.number = number
        self.statistics = statistics
        self.reset()

    def reset(self) -> None:
        self.control = 0
        self.registers = dict.fromkeys(REGISTER_BITS, 0)
        self.source = 0
        self.destination = 0
        self.size = 0
        self.waiting = 0
        self.count = 0
        self.rest = 0

    # Registers

    def mode(self) -> int:
        return self.control >> MODE_SHIFT & 7

    def enabled(self) -> bool:
        return self.control & ENABLE_BIT != 0

    def read(self, distance: int) -> int:
        if distance == CTL:
            return self.control
        if distance == SZ and self.enabled():
            return self.size
        return self.registers.get(distance, 0)

    def write(self, distance: int, value: int, mask: int) -> None:
        if distance == CTL:
            self.write_control(value, mask)
        elif distance in REGISTER_BITS:
            word = merged(self.registers[distance], value, mask)
            self.registers[distance] = word & REGISTER_BITS[distance]

    def write_control(self, value: int, mask: int) -> None:
        was_enabled = self.enabled()
        self.control = merged(self.control, value, mask) & CONTROL_BITS
        if not mask & LOW_HALF:
            return
        if not self.enabled():
            self.waiting = 0
        elif not was_enabled:
            self.start()

    def start(self) -> None:
        self.copy_registers()
        self.waiting = 0
        self.count = 0
        self.rest = 0

    def copy_registers(self) -> None:
        self.source = self.address_at(SOURCE_LOW)
        self.destination = self.address_at(DESTINATION_LOW)
        self.size = self.registers[SZ]

    def address_at(self, distance: int) -> int:
        return self.registers[distance] | self.registers[distance + 2] << 16

    # Triggers

    def trigger(self, name: str) -> None:
        if not self.enabled() or self.size == 0:
            self.tell("trigger without effect")
            return
        if self.waiting:
            self.tell("trigger while waiting")
            return
        self.waiting = 1 if self.mode() in SINGLE_MODES else self.size
        self.tell(f"trigger by {name}")

    # Transfers

    def is_due(self) -> bool:
        if self.waiting == 0 or not self.enabled():
            return False
        return self.mode() not in BURST_MODES or self.rest == 0

    def transfer(self, bus) -> None:
        bus.begin_step(Agent.DMA)
        source, destination = self.source, self.destination
        source_width = self.width(SOURCE_BYTE_BIT)
        destination_width = self.width(DESTINATION_BYTE_BIT)
        self.tell(f"transfer of DT {self.mode()}")
        self.tell(f"transfer {source_width} to {destination_width}")
        self.count_transfer()
        if self.size == 0:
            self.finish()
        if self.mode() in BURST_MODES and self.count % TRANSFERS_OF_A_BURST == 0:
            self.rest = REST
            self.tell("rest")
        value = bus.read(source, source_width)
        bus.write(destination, destination_width, value)

    def width(self, byte_bit: int) -> str:
        return "b" if self.control & byte_bit else "w"

    def count_transfer(self) -> None:
        control = self.control
        self.source = stepped(
            self.source, control >> SOURCE_STEP_SHIFT & 3, self.width(SOURCE_BYTE_BIT)
        )
        self.destination = stepped(
            self.destination, control >> DESTINATION_STEP_SHIFT & 3,
            self.width(DESTINATION_BYTE_BIT),
        )
        self.size -= 1
        self.waiting -= 1
        self.count += 1

    def finish(self) -> None:
        """The working size has come to 0: what was set up begins anew, or it is over."""
        self.tell("end of a block")
        self.control |= FLAG_BIT
        self.copy_registers()
        if self.mode() in ONE_TIME_MODES:
            self.control &= ~ENABLE_BIT
        if self.mode() in REPEATED_BURST_MODES:
            self.waiting = self.size

    def lower_rest(self) -> None:
        if self.rest > 0:
            self.rest -= 1

    # Interrupts

    def asks(self) -> bool:
        both = INTERRUPT_BIT | FLAG_BIT
        return self.control & both == both

    def clear_flag(self) -> None:
        self.control &= ~FLAG_BIT

    def tell(self, what: str) -> None:
        self.statistics[f"dma {self.number}: {what}"] += 1


def stepped(address: int, increment: int, width: str) -> int:
    distance = 1 if width == "b" else 2
    if increment == Step.DOWN:
        return address - distance & ADDRESS_MASK
    if increment == Step.UP:
        return address + distance & ADDRESS_MASK
    return address


class Dma:
    addresses = range(FIRST_ADDRESS, FIRST_ADDRESS + BLOCK_SIZE, 2)

    def __init__(self, statistics: Counter):
        self.channels = tuple(Channel(number, statistics) for number in range(CHANNELS))
        self.reset()

    def reset(self) -> None:
        self.controls = dict.fromkeys(CONTROL_BITS_OF_UNIT, 0)
        self.second_tick = False  # a transfer was made in the tick before
        for channel in self.channels:
            channel.reset()

    # Registers

    def read(self, address: int) -> int:
        if address == DMAIV:
            return self.take_interrupt_number()
        if address >= FIRST_CHANNEL:
            channel, distance = self.channel_at(address)
            return channel.read(distance)
        return self.controls.get(address, 0)

    def write(self, address: int, value: int, mask: int) -> None:
        if address == DMAIV:
            self.take_interrupt_number()
        elif address >= FIRST_CHANNEL:
            channel, distance = self.channel_at(address)
            channel.write(distance, value, mask)
            if distance == CTL and value & mask & REQUEST_BIT:
                self.request(channel)
        elif address in self.controls:
            word = merged(self.controls[address], value, mask)
            self.controls[address] = word & CONTROL_BITS_OF_UNIT[address]

    def channel_at(self, address: int) -> tuple[Channel, int]:
        number, distance = divmod(address - FIRST_CHANNEL, CHANNEL_SIZE)
        return self.channels[number], distance

    # Triggers

    def trigger_number(self, channel: Channel) -> int:
        first, second = self.controls[DMACTL0], self.controls[DMACTL1]
        return (first, first >> 8, second)[channel.number] & TRIGGER_BITS

    def request(self, channel: Channel) -> None:
        if self.trigger_number(channel) == TRIGGER_BY_REQUEST:
            channel.trigger("REQ")

    def trigger_of_timer(self, name: str, compare: int) -> None:
        """A step of this timer set the CCIFG of this compare register, set before or not."""
        number = TRIGGERS_OF_TIMERS.get((name, compare))
        if number is None:
            return
        for channel in self.channels:
            if self.trigger_number(channel) == number:
                channel.trigger(f"{name} CCR{compare}")

    # The bus

    def acts(self, bus) -> bool:
        """Owns the bus for this tick, or says that it doesn't."""
        if self.second_tick:
            self.second_tick = False
            return True
        for channel in self.channels:
            if channel.is_due():
                self.second_tick = True
                channel.transfer(bus)
                return True
        return False

    def lower_rests(self) -> None:
        for channel in self.channels:
            channel.lower_rest()

    # Interrupts

    def interrupt_number(self) -> int:
        for channel in self.channels:
            if channel.asks():
                return 2 * channel.number + 2
        return 0

    def take_interrupt_number(self) -> int:
        number = self.interrupt_number()
        if number:
            self.channels[number // 2 - 1].clear_flag()
        return number

    def line(self) -> bool:
        return self.interrupt_number() != 0
