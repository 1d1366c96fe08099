"""The workshop's work, told a second time, and the lines of `workshop`.

Document 02 ("Requests from the schools' year") decides what the work is, and
LINES.md how its lines are written; sentences in quotation marks are taken from
them. Nothing is kept from one line to the next.

    screen      Q-6: what the corridor screen says of an image
    writer      Q-7: a reading written into a user area
    reading     the lines of `workshop`
    player      plays them
"""
