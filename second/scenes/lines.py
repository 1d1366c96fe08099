"""Lines, good and bad."""

from tag.frames import REQA

LONGEST = b"parity 65535 " + b"A5" * 8192

# A bad line of each kind that rules/bad_lines.py names. Taken for good, most of
# them would do something that shows.
BAD_LINE_OF_EACH_KIND = [
    b"hello", b"STOP", b"stop\t", b"stop\r\r", b"stop\0", b"st\xf6p", b"sto", b"stopp", b"read  ack", b" stop",
    b"stop ", b"send \t", b"send A0\r\r", b"send A0\0", b"send A\xb0",
    b"send 5", b"send 5g", b"event +1 00", b"event 1", b"stop 00", b"read Ack", b"send A0A1",
    b"event 65536 00", b"event 65537 00", b"event 000001 00", b"buffer 1025", b"buffer 65535",
    b"image " + b"5A" * 1025, b"image " + b"5A" * 1026,
    b"frame 512 " + b"00" * 8193, b"frame 7 " + b"00" * 8194, LONGEST + b"0",
    b"memory 16385", b"memory 65535", b"recall 000 1", b"recall 00000 1", b"recall 0000 0", b"recall 0000 1025",
    b"recall 0000 1026"]

# Lines that do nothing to the tag, though they are good.
IDLE_LINES = [b"", b"#", b"# \t\r\0 \xff odd bytes", b"#" + b" long" * 3280, b"help", b"show", b"show 04",
              b"show 2D", b"tag", b"bus", b"recall 0000 4",
              b"buffer 1024", b"buffer 1023", b"buffer 0"]

BAD_LINES = [
    b"hello", b"shows", b"sho", b"imag", b"image00", b"Image", b"SHOW", b"fielD", b"FRAME 7 52",
    b"\tshow", b"show\t", b"frame\t7 52", b"frame 7\t52", b"# \tno comment"[1:],
    b"show\r\r", b"\r\r", b"frame 7 52\r\r", b"sho\0w", b"\0", b"frame 7 52\0", b"sh\xf6w", b"\xff",
    b"frame 7 5\xb2", b"frame  7 52", b"frame 7  52", b"read  ack", b" show", b"  ", b" ", b" # x",
    b"show ", b"image ", b"frame 7 ", b"frame 7 52 ", b"start ", b"frame 7 5", b"image 0",
    b"image 001", b"send A", b"event 0 0", b"frame 7 5G", b"image 0x", b"send -1", b"send 0x",
    b"frame +7 52", b"frame -7 52", b"frame 7. 52", b"frame 0x7 52", b"frame seven 52", b"buffer x",
    b"event A 00", b"frame 52", b"frame", b"parity", b"buffer", b"send", b"read", b"event",
    b"event 0", b"event 00", b"show 1", b"help me", b"field 1", b"start 00", b"stop 00",
    b"image 00 00", b"frame 16 93 20", b"parity 7 52 00", b"send A0 A1", b"read ack nak", b"event 2 A0 00",
    b"buffer 1 2", b"read Ack", b"read NAK", b"read no", b"read 1", b"send A0A1", b"send a0a10",
    b"event 2 A0A1", b"frame 65536", b"frame 65536 00", b"buffer 65536", b"event 65536 00",
    b"frame 99999 00", b"buffer 70000", b"frame 000007 52", b"frame 000000", b"buffer 001024",
    b"event 000000 00", b"event 100000 00", b"frame 4294967303 52", b"frame 18446744073709551623 52",
    b"buffer 1025", b"buffer 65535", b"buffer 1026", b"buffer 01025", b"show 001", b"show 0001", b"show 100",
    b"show 0G", b"show -1", b"show all", b"show 00 01", b"show  00", b"show 00 ", b"show00", b"tag 1", b"tag ",
    b"Tag", b"tags", b"ta", b"tag bus", b"bus 4000", b"bus ", b"BUS", b"buss", b"bu", b"help tag", b"error",
    b"page 00", b"idle", b"nak", b"read", b"hello ", b"hello  there", b"STOP 00 ", b"Send A", b"x\t",
    b"stop\t 00", b"\xff 00", b"stops \0", b"hello 1 2 3",
    b"memory", b"memory ", b"memory x", b"memory 0x10", b"memory -1", b"memory 016384", b"memory 16385",
    b"memory 65536", b"memory 20000", b"memory 0 0", b"memory  0", b"Memory 0", b"memor 0", b"memory0",
    b"memories 0", b"memory 3FFF", b"recall", b"recall 0000", b"recall 0000 ", b"recall  0000 1",
    b"recall 0000  1", b"recall 0000 1 1", b"recall 0 1", b"recall 00 1", b"recall 000 1", b"recall 00000 1",
    b"recall 000000 1", b"recall 000G 1", b"recall 0x00 1", b"recall +000 1", b"recall 0000 0",
    b"recall 0000 00000", b"recall 0000 -1", b"recall 0000 A", b"recall 0000 1025", b"recall 0000 1026",
    b"recall 0000 65535", b"recall 0000 65536", b"recall 0000 000001", b"recall 3FFF 2", b"recall 4000 1",
    b"recall FFFF 2", b"Recall 0000 1", b"RECALL 0000 1", b"recalls 0000 1", b"recal 0000 1", b"recall0000 1",
    b"recall 0000\t1", b"recall 1 0000"]

# One for each command, with a fault behind the command word.
WRONG_BEHIND_THE_WORD = [
    b"image 0", b"buffer 1025", b"field 1", b"frame 7 5G", b"parity 65536", b"start ", b"stop 00",
    b"send A", b"read Ack", b"event 1", b"show 0", b"tag idle", b"bus rest", b"memory 16385", b"recall 0000 0",
    b"help me"]

GOOD_LINES = [
    b"help", b"", b"#", b"# a comment", b"#show", b"# \t\r\0 \xff odd bytes", b"buffer 1024",
    b"buffer 01024", b"frame 00007 52", b"frame 7 26", b"frame 65535", b"frame 65535 00", b"frame 0",
    b"parity 0", b"frame 00000", b"parity 007 26", b"send 0a", b"send aB", b"event 00000 00",
    b"event 1 ff", b"event 03 00", b"event 4 00", b"show", b"show 2c", b"show 2D", b"show fF", b"tag", b"bus",
    b"recall 0000 1", b"recall 3FFF 01", b"recall 1aBc 00002", b"recall 3ff8 8"]


def odd_lines(s, amount):
    """Bad lines among good ones: a bad one changes nothing."""
    for _ in range(amount):
        s.say(s.dice.one_of(BAD_LINES))
        s.ask()
        if s.dice.one_in(3):
            s.say(s.dice.one_of(GOOD_LINES))


def every_odd_line(s):
    """All bad and good lines, in ACTIVE; what each leaves behind is asked."""
    s.image(45)
    s.active()
    for line in s.dice.shuffled(BAD_LINES + GOOD_LINES):
        s.say(line)
        s.ask()


def wrong_behind_the_word(s):
    """Each command with a fault behind its word, in HALT, in ACTIVE, and in IDLE
    before a READ: nothing changes."""
    s.image(45)
    for way in (lambda: s.reach("HALT"), s.authenticate, lambda: s.say("field")):
        way()
        s.to_phase(s.dice.one_of(["low", "read", "deaf"]))
        for line in WRONG_BEHIND_THE_WORD:
            s.say(line)
            s.ask()


def changes_nothing(s, line):
    """A line that changes nothing but the buffer, said three times: to a tag that was woken from
    HALT, is authenticated and in the middle of a write; to one in HALT, deaf,
    with a short buffer; and before the low address byte. What follows each time
    shows that all is as it was."""
    s.reach("ACTIVE", "HALT")
    s.authenticate()
    s.address(s.dice.between(0x4010, 0x4070))
    s.send(*s.dice.bytes(2))
    s.say(line)
    s.usual_buffer()
    s.look_at_radio()
    s.look_at_bus()
    s.reach("HALT")
    s.to_phase("deaf")
    s.say("buffer 1000")
    s.say(line)
    s.usual_buffer()
    s.look_at_radio()
    s.look_at_bus()
    s.start()
    s.send(0xA0, 0x40)
    s.say(line)
    s.look_at_bus()
    s.usual_buffer()


def lines_that_change_nothing(s):
    """Bad lines of each kind, comments, empty lines, `help`, `show`, `tag`, `bus`."""
    s.image(45)
    for line in BAD_LINE_OF_EACH_KIND + IDLE_LINES:
        changes_nothing(s, line)


def new_images(s):
    """An `image` line to a tag that is authenticated after HALT, and to one in
    READY1 that has answered no READ yet, in any phase, with a short buffer: the
    radio is as after field loss, the bus at rest at 4000h with nothing gathered,
    the buffer as short as it was."""
    s.image(45)
    for phase in ("device", "high", "low", "write", "read"):
        image = bytes(s.tag_image.everything()).hex().upper()
        for way in (lambda: s.reach("ACTIVE", "HALT"), lambda: s.frame(REQA)):
            way()
            if s.radio.state == "ACTIVE":
                s.authenticate()
            s.to_phase(phase)
            if phase == "write":
                s.send(s.dice.byte())
            s.say("buffer 1023")
            s.say(f"image {image}")
            s.usual_buffer()
            s.look_at_silent_bus()
            s.stop()
            s.look_at_counter()
        s.look_at_radio()


def spoiled_lines(s, amount):
    """Good lines with one character changed, left out, or put in; what each leaves
    behind is asked."""
    dice = s.dice
    for _ in range(amount):
        line = dice.one_of([b"frame 7 52", b"read ack", b"read nak", b"send A0", b"event 2 A0", b"stop",
                            b"start", b"buffer 1024", b"help", b"field", b"parity 16 9320", b"tag", b"bus",
                            b"show 04", b"stop\r", b"send A1\r", b"recall 0000 4", b"memory 16384"])
        place = dice.below(len(line) + 1)
        put = bytes([dice.one_of([0x20, 0x09, 0x30, 0x41, 0x61, 0x67, 0x0D, dice.byte()])])
        put = b"" if put == b"\n" else put
        s.say(line[:place] + put + line[place + dice.below(2):])
        s.ask()
        if len(s.data_memory) != 16384:
            s.usual_memory()
    s.usual_buffer()
    s.usual_memory()


def any_spoiled_lines(s):
    s.image(s.dice.size())
    spoiled_lines(s, s.dice.between(20, 60))


def image_limits(s):
    """Images of 1,024 bytes and of more; the short buffer stays short."""
    s.say("buffer 512")
    s.raw_image(s.dice.bytes(1024))
    s.say("image " + "5A" * 1025)
    s.say("image " + "5a" * s.dice.between(1026, 1100))
    s.say("show")
    s.image(45)


def long_lines(s):
    """The longest line there is, in each state that it must leave alone, and
    longer ones: the first 16,397 characters of one are the longest good line."""
    dice = s.dice
    s.image(45)
    s.say(LONGEST)
    s.look_at_radio()
    s.say(LONGEST)
    s.look_at_radio()
    s.authenticate()
    for line in (LONGEST + b"A5" * dice.between(1, 400), b"show" + b" " * dice.between(16395, 17000)):
        s.say(line)
        s.ask()
    s.say("frame 7 52")


def stored(s):
    every_odd_line(s)
    wrong_behind_the_word(s)
    spoiled_lines(s, 150)
    image_limits(s)
    long_lines(s)
    lines_that_change_nothing(s)
    new_images(s)


OF_ANY_KIND = [wrong_behind_the_word]
RARE = [every_odd_line, any_spoiled_lines, image_limits, long_lines, new_images]
