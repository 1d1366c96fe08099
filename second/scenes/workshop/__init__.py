"""What the scripts of `workshop` play.

A scene takes a Script and adds lines to it. The scenes of a part have the name
of its rules: image, walk, edges, readings, lent, written, back, kept, lines,
reading_lines, returns. Beside them:

    areas       the bytes of blocks, and of user pages
    script      writes lines: `screen` and `reading` lines, in several hands
    plausible   user pages as they might be met, and damaged ones; readings
                written into them
    chunks      input that is read by chunks
    examples    lines with their answers, by the words of document 02
    stored      the script that is stored, and fresh ones
"""
