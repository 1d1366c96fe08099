"""The record of the radio side, and its moves from state to state."""

from tag.frames import ATQA, NAK, SILENCE


class Radio:
    """"IDLE, HALT, READY1, READY2, ACTIVE", and what is kept with the state."""

    def __init__(self, image):
        self.image = image
        self.field_off()

    def field_off(self):
        """"Field loss gives IDLE, not authenticated, no read answered in this
        field"."""
        self.state = "IDLE"
        self.woken_from_halt = False
        self.authenticated = False
        self.read_answered = False

    def wait_state(self):
        """"The wait state is HALT if the tag was woken from HALT, else IDLE." """
        return "HALT" if self.woken_from_halt else "IDLE"

    def wake(self):
        self.woken_from_halt = self.state == "HALT"
        self.state = "READY1"
        return ATQA

    def leave_for(self, state):
        """"Leaving ACTIVE ends authentication." So "ACTIVE is entered
        unauthenticated." """
        self.authenticated = False
        self.state = state

    def silent(self):
        """"silence, wait state" """
        self.leave_for(self.wait_state())
        return SILENCE

    def nak(self, number):
        """"Every NAK goes to the wait state." """
        self.leave_for(self.wait_state())
        return NAK[number]

    def may_tell_counter(self):
        """READ_CNT is refused, and a mirror with the counter in it isn't shown,
        "when the counter is off, or is under password and the tag isn't
        authenticated". """
        under_password = self.image.counter_under_password() and not self.authenticated
        return self.image.counter_on() and not under_password
