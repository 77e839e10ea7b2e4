"""The kinds of programs that cases have, and how often each kind comes."""

import actions
import boot_actions
import dma_actions
import dma_situations
import encapsulation_actions
import encapsulation_situations
import libraries
import power_actions
import protection_actions
import protection_situations
import timer_actions
import timer_situations
from programs import Style, random_instructions, stack_on_flags, stack_on_timers

RARE_INSTRUCTIONS = ((random_instructions, 0.3),)
WAITS = ((actions.act_on_status, 2), (actions.wait, 2), (actions.watch_anything, 1))

INSTRUCTIONS = Style(
    weights=((random_instructions, 10), (actions.act_on_ports, 0.3), (actions.act_on_status, 0.3)),
    interrupts=0.3, longest_chapter=40, loops=0.1,
)
SYSTEM = Style(
    weights=(
        (actions.act_on_system, 6), (actions.act_on_ports, 3), (actions.act_on_watchdog, 1.5),
        (actions.wait, 1), (actions.act_on_status, 0.5), *RARE_INSTRUCTIONS,
    ),
    watchdog_runs=0.5, interrupts=0.2, longest_chapter=30,
)
INTERRUPTS = Style(
    weights=(
        (actions.enable_port_interrupts, 2), (actions.act_on_ports, 3), (actions.set_watchdog, 1),
        (actions.act_on_watchdog, 0.5), (actions.act_on_system, 0.5), *WAITS, *RARE_INSTRUCTIONS,
        (actions.act_while_locked, 0.3), (stack_on_flags, 0.6),
    ),
    watchdog_runs=0.5, interrupts=1.0,
)
LOOPS = Style(
    weights=((actions.watch_anything, 5), (actions.wait, 1), (actions.show_register, 2),
             (actions.set_watchdog, 1), (actions.act_on_ports, 2)),
    watchdog_runs=0.6, interrupts=0.3, longest_chapter=10,
)
TIMERS = Style(
    weights=((timer_actions.act_on_timers, 6), (timer_situations.act_in_a_situation, 8),
             (actions.act_on_ports, 0.3), *WAITS,
             (actions.act_on_watchdog, 0.2)),
    interrupts=0.2, longest_chapter=16,
)
TIMERS_WITH_INTERRUPTS = Style(
    weights=(
        (timer_actions.set_up, 4), (timer_actions.act_on_timers, 4), (actions.act_on_status, 3),
        (timer_situations.act_in_a_situation, 4), (stack_on_timers, 1), (stack_on_flags, 0.3),
        (actions.enable_port_interrupts, 0.5), (actions.wait, 2), (actions.set_watchdog, 0.3),
    ),
    interrupts=1.0, longest_chapter=14,
)
DMA = Style(
    weights=((dma_actions.act_on_dma, 4), (dma_situations.act_in_a_situation, 8),
             (timer_actions.set_up, 0.3), (actions.act_on_ports, 0.3), (actions.wait, 0.7),
             (actions.act_on_status, 0.3), *RARE_INSTRUCTIONS),
    interrupts=0.15, longest_chapter=16,
)
DMA_WITH_INTERRUPTS = Style(
    weights=(
        (dma_actions.act_on_dma, 4), (dma_situations.act_in_a_situation_of_interrupts, 7),
        (actions.act_on_status, 3), (timer_actions.set_up, 1), (actions.wait, 1),
        (stack_on_timers, 0.2), (actions.enable_port_interrupts, 0.3),
        (actions.set_watchdog, 0.3),
    ),
    interrupts=1.0, longest_chapter=14,
)
PROTECTED = ((protection_situations.act_in_a_situation, 12),
             (protection_actions.act_on_protection, 4))
WAITING = Style(
    weights=((protection_actions.set_waits, 4), (random_instructions, 5),
             (actions.act_on_ports, 0.5), (actions.wait, 0.5), (dma_actions.act_on_dma, 1),
             (protection_actions.touch_nowhere, 0.5), (actions.act_on_status, 1),
             (protection_situations.set_waits_with_an_access, 1),
             (timer_actions.set_up, 1), (protection_actions.write_plain_fram_registers, 0.5)),
    interrupts=0.5, longest_chapter=25,
)
PROTECTION = Style(
    weights=(*PROTECTED, (actions.act_on_ports, 0.3), (actions.wait, 0.5),
             (actions.act_on_status, 0.3), (random_instructions, 0.6)),
    interrupts=0.15, longest_chapter=14, loops=0.1, rescued=0.6,
)
PROTECTION_WITH_INTERRUPTS = Style(
    weights=(
        *PROTECTED, (actions.act_on_status, 3), (timer_actions.set_up, 1.2),
        (actions.enable_port_interrupts, 0.6), (actions.set_watchdog, 0.6), (actions.wait, 0.5),
        (stack_on_flags, 0.3), (stack_on_timers, 0.2),
    ),
    interrupts=1.0, longest_chapter=14, loops=0.1, rescued=0.5,
)
PROTECTION_WITH_DMA = Style(
    weights=(
        *PROTECTED, (protection_situations.transfer, 5), (protection_situations.sleep, 3),
        (dma_actions.act_on_dma, 2), (dma_situations.act_in_a_situation_of_interrupts, 2),
        (actions.act_on_status, 1.5), (timer_actions.set_up, 0.5),
    ),
    interrupts=0.6, longest_chapter=14, loops=0.1, rescued=0.6,
)

ENCAPSULATED = ((encapsulation_situations.act_in_a_situation, 12),
                (encapsulation_actions.act_on_encapsulation, 3))
ENCAPSULATION = Style(
    weights=(*ENCAPSULATED, (protection_actions.act_on_protection, 1), (actions.act_on_ports, 0.3),
             (actions.wait, 0.5), (random_instructions, 0.8)),
    interrupts=0.15, longest_chapter=14, loops=0.1, rescued=0.6, has_vault=True,
)
ENCAPSULATION_WITH_INTERRUPTS = Style(
    weights=(
        *ENCAPSULATED, (actions.act_on_status, 3), (timer_actions.set_up, 1.2),
        (actions.enable_port_interrupts, 0.6), (actions.set_watchdog, 0.6), (actions.wait, 0.5),
        (stack_on_flags, 0.2),
    ),
    interrupts=1.0, longest_chapter=14, loops=0.1, rescued=0.5, has_vault=True,
)
ENCAPSULATION_WITH_DMA = Style(
    weights=(
        *ENCAPSULATED, (encapsulation_situations.transfer, 6), (protection_situations.sleep, 1),
        (dma_actions.act_on_dma, 2), (actions.act_on_status, 1.5), (timer_actions.set_up, 0.5),
    ),
    interrupts=0.5, longest_chapter=14, loops=0.1, rescued=0.6, has_vault=True,
)
DEBUG = Style(
    weights=(
        (encapsulation_situations.call_in, 3), (encapsulation_situations.call_in_a_loop, 5),
        (encapsulation_actions.act_on_encapsulation, 2),
        (encapsulation_situations.act_in_a_situation, 2), (actions.wait, 1.5),
        (actions.watch_anything, 1), (actions.act_on_ports, 1), (timer_actions.set_up, 1),
        (actions.act_on_status, 1), (dma_actions.set_up, 0.7), (random_instructions, 1),
        (protection_actions.set_waits, 0.3),
    ),
    interrupts=0.4, longest_chapter=12, loops=0.4, rescued=0.2, has_vault=True,
)

# Boots and cuts

ON_BOOTS = ((boot_actions.act_on_boots, 3), (encapsulation_situations.call_in, 1.5))
BOOTS = Style(
    weights=(
        (boot_actions.act_on_boots, 8), (encapsulation_situations.call_in, 4),
        (encapsulation_situations.act_in_a_situation, 1.5), (power_actions.write_something, 1),
        (actions.act_on_ports, 0.5), (actions.wait, 1), (actions.watch_anything, 0.3),
    ),
    interrupts=0.2, longest_chapter=8, loops=0.2, has_vault=True, structures=1.0,
    wrong_structures=0.03, structures_outside=0.02, counts_in_fram=0.6,
)
CUTS = Style(
    weights=((power_actions.write_something, 16), *ON_BOOTS, (actions.wait, 0.3),
             (actions.act_on_status, 0.5), (random_instructions, 0.5), (actions.act_on_ports, 0.3)),
    interrupts=0.4, longest_chapter=24, loops=0.4, has_vault=True, structures=0.5,
    wrong_structures=0.02, counts_in_fram=0.9,
)
CUTS_OF_ANYTHING = Style(
    weights=(
        (power_actions.write_something, 4), *ON_BOOTS, (timer_actions.set_up, 2),
        (timer_situations.act_in_a_situation, 2), (dma_actions.act_on_dma, 1),
        (dma_situations.act_in_a_situation, 3), (protection_situations.act_in_a_situation, 3),
        (encapsulation_situations.act_in_a_situation, 3), (actions.act_on_status, 2),
        (actions.enable_port_interrupts, 1), (actions.act_on_system, 1),
        (actions.set_watchdog, 0.7), (actions.wait, 1), (random_instructions, 1),
    ),
    interrupts=0.8, longest_chapter=12, loops=0.3, rescued=0.2, has_vault=True, structures=0.4,
    wrong_structures=0.02, counts_in_fram=0.7,
)
ERASES = Style(
    weights=((power_actions.write_something, 4), *ON_BOOTS, (actions.wait, 1),
             (actions.act_on_ports, 1)),
    interrupts=0.2, longest_chapter=8, loops=0.5, has_vault=True, structures=0.8,
    wrong_structures=0.25, structures_outside=0.08, counts_in_fram=0.8,
)

# Libraries that a boot seals, for pairs of images

CALM_LIBRARIES = Style(
    weights=(
        (encapsulation_situations.call_doors, 14), (actions.act_on_ports, 1), (actions.wait, 0.5),
        (encapsulation_situations.transfer, 0.7), (timer_actions.set_up, 0.5),
        (actions.enable_port_interrupts, 0.5),
    ),
    watchdog_runs=0, interrupts=0.4, longest_chapter=12, loops=0.8, has_vault=True,
    has_short_start=True, library=libraries.CALM_WORK, counts_in_fram=0.5,
)
LIBRARIES = Style(
    weights=(
        (encapsulation_situations.call_doors, 14), (encapsulation_situations.transfer, 1.5),
        (encapsulation_situations.act_in_a_situation, 1), (dma_actions.act_on_dma, 1),
        (timer_actions.set_up, 1), (actions.enable_port_interrupts, 1), (actions.wait, 0.5),
        (actions.act_on_status, 1), (actions.set_watchdog, 0.3), (power_actions.write_something, 1),
        (boot_actions.act_on_boots, 0.3), (protection_situations.act_in_a_situation, 0.7),
        (random_instructions, 0.5),
    ),
    interrupts=0.5, longest_chapter=14, loops=0.4, rescued=0.3, has_vault=True,
    library=libraries.WORK, counts_in_fram=0.5,
)

STYLES_WITHOUT_PROTECTION = {
    "instructions": INSTRUCTIONS, "system": SYSTEM, "interrupts": INTERRUPTS, "loops": LOOPS,
    "timers": TIMERS, "timers and interrupts": TIMERS_WITH_INTERRUPTS,
    "dma": DMA, "dma and interrupts": DMA_WITH_INTERRUPTS,
}
LONG_STYLES = {
    "waits": WAITING, "protection": PROTECTION,
    "protection and interrupts": PROTECTION_WITH_INTERRUPTS,
    "protection and dma": PROTECTION_WITH_DMA,
    "encapsulation": ENCAPSULATION,
    "encapsulation and interrupts": ENCAPSULATION_WITH_INTERRUPTS,
    "encapsulation and dma": ENCAPSULATION_WITH_DMA,
    "debug": DEBUG,
}
STYLES_WITH_CUTS = {
    "boots": BOOTS, "cuts": CUTS, "cuts of anything": CUTS_OF_ANYTHING, "erases": ERASES,
}
STYLES = STYLES_WITHOUT_PROTECTION | LONG_STYLES | STYLES_WITH_CUTS
WEIGHT_OF_STYLE = {"instructions": 4, "system": 3, "interrupts": 3, "loops": 1, "timers": 5,
                   "timers and interrupts": 5, "dma": 15, "dma and interrupts": 11,
                   "waits": 7, "protection": 22, "protection and interrupts": 17,
                   "protection and dma": 15, "encapsulation": 55,
                   "encapsulation and interrupts": 40, "encapsulation and dma": 30, "debug": 60,
                   "boots": 70, "cuts": 90, "cuts of anything": 60, "erases": 25}
