# A counter of 8 bits with an enable and a reset, and its bench.
from myhdl import *


@block
def counter(count, enable, clock, reset):
    @always_seq(clock.posedge, reset=reset)
    def increment():
        if enable:
            count.next = count + 1

    return increment


@block
def bench():
    clock = Signal(bool(0))
    reset = ResetSignal(1, active=1, isasync=False)
    enable = Signal(bool(0))
    count = Signal(modbv(250)[8:])
    dut = counter(count, enable, clock, reset)

    @always(delay(5))
    def tick():
        clock.next = not clock

    @instance
    def drive():
        yield clock.negedge
        print(now(), "reset", int(count))
        reset.next = 0
        yield clock.negedge
        print(now(), "held", int(count))
        enable.next = 1
        for i in range(8):
            yield clock.negedge
            print(now(), "count", int(count))
        raise StopSimulation()

    return dut, tick, drive


b = bench()
b.run_sim()
