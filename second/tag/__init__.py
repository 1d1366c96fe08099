"""The corridor tag, told a second time.

Document 01 ("Build specification and rules: the corridor tag") decides what
the tag does, and document 02 ("Requests from the schools' year") amends it:
so far Q-1, Q-2 and Q-3, and Q-4, which changes no answer. Sentences in quotation
marks are taken from them. This second opinion leans on nothing but these
documents: bits are lists of 0 and 1 with the least significant first, pages are
four bytes each, and locks are sets of page numbers. What is kept from call to
call is plain values, replaced and never changed in place.

    calls       the whole tag: its three calls, with the five refusals
    refusal     what a refused call gives
    bits        bits, bytes, CRC_A
    locks       which bit locks which pages, and which bit blocks it
    layout      the table of sizes
    image       the pages, the tail and the settings
    frames      what frames and short answers look like
    radio       the record of the radio side, and its moves
    waiting     frames in IDLE and HALT
    selection   frames in READY1 and READY2
    active      frames in ACTIVE, up to the command
    reads       READ, FAST_READ, READ_CNT
    mirror      the characters that READ and FAST_READ show
    writes      WRITE
    password    PWD_AUTH
    regions     what the two wires reach: the data memory and the window
    bus         the two wires: one method for each phase
"""
