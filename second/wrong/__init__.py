"""Wrong programs: what the stored scripts would say of them.

That a script reaches a rule does not mean that it notices the rule's absence.
So programs are made that are wrong in one thing each, and the stored script must
get another answer from each of them than from the right one.

    kind        what is needed to make wrong programs of a kind
    corridor    the kind of `corridor`: wrong tags
    workshop    the kind of `workshop`, with parts of its own
    record      the right program's way through the stored script, line by line
    trial       plays a wrong program against the record, to the first difference
    twists      wrong by rule: what a step that meets a rule might do instead
    by_rule     the wrong tags of each rule, and how they are played
    slips       wrong by slip: one slip in the source of a program or of its lines
    by_slip     the wrong programs of each slip, and how they are played
    by_hand     wrong by hand: mistakes of a tag that are more than a slip
    by_hand_memory
                mistakes about the data memory and its lines
    by_hand_ready
                mistakes about READ 00h in READY1 and READY2
    by_hand_mirror, by_hand_mirror_shown
                mistakes about the ASCII mirror: its characters and its place; who
                sees it, and in which reads
    by_hand_crc, by_hand_crc_lengths, by_hand_crc_judged, by_hand_crc_answers
                mistakes about CRC_A: the sum itself; the lengths for which it is right;
                how a frame's check is judged; which bytes an answer's check is taken of
    by_hand_lines
                mistakes in reading lines, in both programs
    readers     wrong by reading: input that comes in chunks, read wrongly
    meaningless wrong tags that no script can notice, with the reason
    command     tries them all, or some by name
"""
