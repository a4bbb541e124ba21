"""Boards with one slip each, to see how a failure is shown. SLIPS has them by name: the class, and what is wrong."""

from board import CARRIER, CH, EN, IP, NARROW, NO_REGISTER, NO_WINDOW, PAST_END, PLAIN_LINES, PORT_BASES, RE, STATUS
from board import TIMER_BASES, TIMER_UNIT_BASE, highest
from board import Board, InterruptController, SerialPort, Timer, TimerUnit
from bridge import Answer

SLIPS = {}


def slip(name, description):
    def register(board):
        SLIPS[name] = board, description
        return board

    return register


# The seven of docs/MANUAL.md, section 11.


@slip("prescaler-period", "the prescaler's period is its reload, in place of reload + 1; reload 0 stays a period of 1")
class PrescalerPeriod(Board):
    class Unit(TimerUnit):
        def period(self):
            return self.sreload or 1


@slip("chain-late", "a chained timer counts one tick after the underflow before it, in place of in the same tick")
class ChainLate(Board):
    class Unit(TimerUnit):
        class Timer(Timer):
            carried = 0  # 1 if it underflowed in the last tick, so that the next timer's count is still to come

            def counts_in(self, ticks):
                if not (self.is_enabled() and self.is_chained() and ticks):
                    return super().counts_in(ticks)
                return self.before.carried + self.before.underflows_in(ticks - 1)

            def tick_of_count(self, k):
                if not (self.is_enabled() and self.is_chained()):
                    return super().tick_of_count(k)
                k -= self.before.carried
                return 1 + self.before.tick_of_underflow(k) if k else 1

        def advance(self, cycles):
            ticks = self.ticks_in(cycles)
            in_last_tick = [timer.underflows_in(ticks) - timer.underflows_in(ticks - 1) for timer in self.timers]
            pulses = super().advance(cycles)
            if ticks:
                for timer, underflows in zip(self.timers, in_last_tick):
                    timer.carried = underflows
            return pulses


@slip("pulse-withheld", "an underflow makes no pulse while IP is still set")
class PulseWithheld(Board):
    class Unit(TimerUnit):
        class Timer(Timer):
            def pulses(self, underflows):
                return 0 if self.control & IP else min(super().pulses(underflows), 1)


@slip("one-shot-twice", "a one-shot timer underflows again reload + 1 counts later, if that falls into the same wait")
class OneShotTwice(Board):
    class Unit(TimerUnit):
        class Timer(Timer):
            def last_underflow(self):
                return max(super().last_underflow(), 2)


@slip("ip-cleared-by-0", "a 0 written to IP clears it and a 1 keeps it, in place of the other way round")
class IpClearedBy0(Board):
    class Unit(TimerUnit):
        class Timer(Timer):
            def pending_written(self, value):
                return self.control & value & IP


@slip("data-read-drops", "a DATA read with RE off answers 0 but drops the oldest byte")
class DataReadDrops(Board):
    class Port(SerialPort):
        def read_data(self):
            byte = self.queue.pop(0) if self.queue else 0
            return byte if self.control & RE else 0


@slip("cut-advance", "an advance right after an advance begins a new prescaler period, so that cuts matter")
class CutAdvance(Board):
    just_advanced = False

    def advance(self, cycles):
        if self.just_advanced:
            self.unit.scaler = self.unit.sreload
        self.just_advanced = True
        return super().advance(cycles)

    def ends_advances(method):
        def other_record(self, *arguments):
            self.just_advanced = False
            return method(self, *arguments)

        return other_record

    read, write, offer = ends_advances(Board.read), ends_advances(Board.write), ends_advances(Board.offer)
    skip, reset, acknowledge = ends_advances(Board.skip), ends_advances(Board.reset), ends_advances(Board.acknowledge)


# Further ones.


@slip("level-falls", "the level falls as soon as the last byte is read")
class LevelFalls(Board):
    class Port(SerialPort):
        def read_data(self):
            byte = super().read_data()
            self.work_out_level()
            return byte


@slip("ninth-byte", "a queue has room for 9 bytes")
class NinthByte(Board):
    class Port(SerialPort):
        ROOM = 9


@slip("bit-31", "bit 31 of a port's CONTROL is stored as written, in place of always set")
class Bit31(Board):
    class Port(SerialPort):
        def control_written(self, value):
            return value


@slip("status-count", "the number of bytes in STATUS stands one bit too low")
class StatusCount(Board):
    class Port(SerialPort):
        STATUS_COUNT = 1 << 25


@slip("past-end", "an access that runs past its window's end is refused with 2, in place of 3")
class PastEnd(Board):
    def refusal(self, size, address):
        number = super().refusal(size, address)
        return NO_WINDOW if number == PAST_END else number


@slip("skip-without-ie", "a skip ends at an underflow with IE 0 too")
class SkipWithoutIe(Board):
    class Unit(TimerUnit):
        def ends_skip(self, timer):
            return True


@slip("timer-1-chained", "timer 1 obeys CH, and so does not count while it is set")
class Timer1Chained(Board):
    class Unit(TimerUnit):
        class Timer(Timer):
            def is_enabled(self):
                return self.control & EN and (self.before or not self.control & CH)


@slip("timer-period", "a timer's period is its reload, in place of reload + 1; reload 0 stays a period of 1")
class TimerPeriod(Board):
    class Unit(TimerUnit):
        class Timer(Timer):
            def period(self):
                return self.reload or 1


@slip("one-shot-at-0", "an underflow without RS leaves the counter at 0, in place of 0xFFFFFFFF")
class OneShotAt0(Board):
    class Unit(TimerUnit):
        class Timer(Timer):
            SPENT = 0


@slip("reload-0-wraps", "a prescaler reload of 0 is a period of 65,536, in place of 1")
class Reload0Wraps(Board):
    class Unit(TimerUnit):
        def period(self):
            return super().period() if self.sreload else 1 << 16


@slip("underflow-at-0", "a counter underflows when it arrives at 0, in place of at the next count; 0 is 2^32 counts")
class UnderflowAt0(Board):
    class Unit(TimerUnit):
        class Timer(Timer):
            def first(self):
                return self.counter or 1 << 32

            def period(self):
                return self.reload or 1 << 32

            def counter_after(self, counts, underflows):
                return super().counter_after(counts, underflows) % (1 << 32)  # 0 stands for 2^32


@slip("reset-keeps-queues", "a reset leaves the bytes in the queues")
class ResetKeepsQueues(Board):
    class Port(SerialPort):
        queue = ()

        def reset(self):
            kept = list(self.queue)
            super().reset()
            self.queue = kept


@slip("long-advance", "an advance of 2^63 cycles or more does one cycle too few")
class LongAdvance(Board):
    def advance(self, cycles):
        return Answer(cycles=cycles, pulses=self.unit.advance(cycles - (cycles >= 1 << 63)))


# Of the offsets without a register.

LATCH = 0xC  # the word behind a timer's control: these timers have no latch


@slip("latch-reads-0", "the word behind a timer's control reads 0 and ignores writes, in place of refused with 13")
class LatchReads0(Board):
    class Unit(TimerUnit):
        REGISTERS = TimerUnit.REGISTERS | {base + LATCH for base in TIMER_BASES}

        class Timer(Timer):
            def read(self, register):
                return 0 if register == LATCH else super().read(register)


@slip("13-before-5", "13 is judged before 5, so that a size of 1 or 2 gets it wherever no register begins")
class ThirteenBefore5(Board):
    def refusal(self, size, address):
        number = super().refusal(size, address)
        return NO_REGISTER if number == NARROW and not self.has_register(address) else number


@slip("status-refused", "a write to STATUS is refused with 13, in place of ignored")
class StatusRefused(Board):
    def write(self, size, address, value):
        if size == 4 and address - STATUS in PORT_BASES:
            return Answer(number=NO_REGISTER)
        return super().write(size, address, value)


@slip("refused-write-lands", "a write behind a timer's control is refused with 13, but is stored in its counter")
class RefusedWriteLands(Board):
    def write(self, size, address, value):
        answer = super().write(size, address, value)
        counter = address - TIMER_UNIT_BASE - LATCH
        if answer.number == NO_REGISTER and counter in TIMER_BASES:
            self.unit.write(counter, value)
        return answer


@slip("refused-read-takes", "a read behind a port's registers is refused with 13, but takes the oldest byte")
class RefusedReadTakes(Board):
    def read(self, size, address):
        answer = super().read(size, address)
        if answer.number == NO_REGISTER and self.device(address) in self.ports:
            self.device(address).read_data()
        return answer


# Of the interrupt controller, and of what sets its lines.


@slip("pulse-sets-no-line", "a pulse sets no line pending")
class PulseSetsNoLine(Board):
    class Unit(TimerUnit):
        def set_lines(self, pulses):
            pass


@slip("timer-lines", "timer n is on line 8 + n, in place of 7 + n")
class TimerLines(Board):
    TIMER_LINES = (9, 10, 11, 12)


@slip("level-raises-again", "a port's level that is worked out and stays 1 sets the line pending again")
class LevelRaisesAgain(Board):
    class Port(SerialPort):
        def work_out_level(self):
            super().work_out_level()
            if self.level:
                self.controller.set_pending(self.line)


@slip("fall-clears-line", "a port's level that falls clears the line's pending bit")
class FallClearsLine(Board):
    class Port(SerialPort):
        def work_out_level(self):
            before = self.level
            super().work_out_level()
            if self.level < before:
                self.controller.clear(1 << self.line)


@slip("masked-not-kept", "a line that is set while its mask bit is 0 is lost")
class MaskedNotKept(Board):
    class Controller(InterruptController):
        def set_pending(self, line):
            if self.mask >> line & 1:
                super().set_pending(line)


@slip("mask-of-12", "line 12's mask bit holds the extended lines back too")
class MaskOf12(Board):
    class Controller(InterruptController):
        def candidates(self, waiting):
            return super().candidates(waiting if self.mask >> CARRIER & 1 else waiting & PLAIN_LINES)


@slip("lowest-first", "among lines 1 to 15 of the same level the lowest goes first, in place of the highest")
class LowestFirst(Board):
    class Controller(InterruptController):
        def choose(self, candidates):
            candidates = candidates & self.level or candidates
            return highest(candidates & -candidates)  # which is the lowest 1 alone


@slip("priority-ignored", "the bits of the controller's level make no difference")
class PriorityIgnored(Board):
    class Controller(InterruptController):
        def choose(self, candidates):
            return highest(candidates)


@slip("both-bits-cleared", "taking a line clears its force bit and its pending bit, in place of one of them")
class BothBitsCleared(Board):
    class Controller(InterruptController):
        def take(self, line):
            self.force &= ~(1 << line)
            self.pending &= ~(1 << line)


@slip("clear-clears-force", "a write to clear clears bits of force too")
class ClearClearsForce(Board):
    class Controller(InterruptController):
        def clear(self, lines):
            super().clear(lines)
            self.force &= ~lines


@slip("nothing-noted", "nothing is noted when an extended line is taken")
class NothingNoted(Board):
    class Controller(InterruptController):
        def acknowledge(self):
            line = super().acknowledge()
            self.noted = 0
            return line


@slip("note-cleared", "the number noted is cleared when another line than 12 is taken")
class NoteCleared(Board):
    class Controller(InterruptController):
        def acknowledge(self):
            line = super().acknowledge()
            if line not in (0, CARRIER):
                self.noted = 0
            return line


@slip("own-number", "an extended line is acknowledged by its own number, in place of 12")
class OwnNumber(Board):
    class Controller(InterruptController):
        def acknowledge(self):
            line = super().acknowledge()
            return self.noted or line if line == CARRIER else line


@slip("reset-keeps-mask", "a reset leaves the controller's mask")
class ResetKeepsMask(Board):
    class Controller(InterruptController):
        mask = 0

        def reset(self):
            kept = self.mask
            super().reset()
            self.mask = kept
