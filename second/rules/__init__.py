"""The rules, and which of them a step meets.

Each file holds a group of rules, keys with the sentences they stand for, and
`met(step)`, which finds those that a step meets by looking at it: how the tag
stood, the line, the answer, how it stands then. The tag knows nothing of it.

    naming      how rules are named
    book        the rules of one program together, and how often a text meets each
    line        a line that was answered: what it says, and its answer
    skipped, errors, returns
                what the lines of both programs have in common
    corridor    the book of `corridor`, of the groups that are named as its parts
    step        its steps
    mirror      what the mirror's settings ask for, for the groups that begin with its name
    crc, crc_checks
                the register of CRC_A, and checks that aren't CRC_A, for the groups that begin
                with its name
    workshop    the book of `workshop`, with groups and steps of its own
"""
