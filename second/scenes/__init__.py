"""What the scripts play: scenes for each group of rules, and walks that mix all.

A scene takes a Script, which knows the tag, and adds lines to it. The scenes of
a part have the name of its rules: refusals, waiting, selection, active, reads,
writes, locks, password, bus, memory, both_sides, lines, memory_lines, records,
returns, reads_at_once, ready_commands, entered_by_read, mirror_places, mirror_reads,
mirror_text, mirror_stored, crc_frames (for crc_parts, too), crc_ready, crc_answers.
Beside them:

    dice        random numbers
    text        the lines of a script
    images      the bytes of an image
    script      writes lines while playing along, steers, and looks at the tag;
                script_radio and script_bus are its two sides, script_memory the
                data memory
    plausible   images and commands as they might be met
    chunks      input that is read by chunks
    walks       everything mixed
    mirror      what the scenes of the mirror have in common
    crc         what the scenes of the check sum have in common
    examples    the examples of document 01 and others, with their answers
    stored      the script that is stored, and fresh ones
    workshop    what the scripts of `workshop` play
"""
