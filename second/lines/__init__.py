"""The line protocol of LINES.md, with the second tag behind it.

    words       a line as a command word and its arguments, in both programs
    answering   one answer for each line, in both programs
    reading     the lines of `corridor`
    records     the tag record and the bus record in words
    player      plays the tag: `corridor`

The lines of `workshop` are in the package of that name.
"""
