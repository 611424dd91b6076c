# A traffic light as a state machine: its state is an enum's item, and a counter tells how long it lasts.
from myhdl import *

state_type = enum('RED', 'GREEN', 'YELLOW')


@block
def light(state, clock, reset):
    left = Signal(intbv(2, min=0, max=4))

    @always_seq(clock.posedge, reset=reset)
    def change():
        if left > 0:
            left.next = left - 1
        elif state == state_type.RED:
            state.next = state_type.GREEN
            left.next = 3
        elif state == state_type.GREEN:
            state.next = state_type.YELLOW
        else:
            state.next = state_type.RED
            left.next = 2

    return change


@block
def bench():
    clock = Signal(bool(0))
    reset = ResetSignal(0, active=0, isasync=True)
    state = Signal(state_type.RED)
    dut = light(state, clock, reset)

    @always(delay(5))
    def tick():
        clock.next = not clock

    @instance
    def release():
        yield delay(12)
        reset.next = 1

    @instance
    def watch():
        while True:
            if state == state_type.RED:
                print(now(), "red")
            elif state == state_type.GREEN:
                print(now(), "green")
            else:
                print(now(), "yellow")
            yield state

    return dut, tick, release, watch


b = bench()
b.run_sim(200)
