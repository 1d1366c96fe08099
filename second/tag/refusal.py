"""Refused calls."""


class Refused(Exception):
    """"A refused call returns its number, no answer, the records it was given,
    and every buffer untouched." """

    def __init__(self, number):
        self.number = number
