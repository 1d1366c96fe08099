"""Wrong by hand: screens that walk the blocks otherwise."""

KIND = "(kind,) = area.take(1)"
IS_NULL = "if kind == NULL:\n            continue"
IS_TERMINATOR = "if kind == TERMINATOR:\n            break"
CONTENT = "content = area.take(length_in(area))"
IS_MESSAGE = "if kind == MESSAGE:\n            return content"
NO_MESSAGE = "raise Refused(20)"
ONE_BYTE = "if first != 0xFF:\n        return first"
TWO_BYTES = "high, low = area.take(2)\n    return 256 * high + low"
TAKE = "if amount > len(self.left):\n            raise Refused(21)"


def instead(right, wrong):
    return "workshop.screen", right, wrong


def at_type(right, condition, then, indent="\n        "):
    """What else is done with a type before the right thing: `then` is one statement."""
    return instead(right, f"if {condition}:{indent}    {then}{indent}{right}")


def value(statement):
    """What else is done with a length of FFh and two before it is given."""
    return instead(TWO_BYTES, f"high, low = area.take(2)\n    {statement}\n    return 256 * high + low")


def content(statement):
    """The length is known as `length`, and what is done with it is another thing."""
    return instead(CONTENT, f"length = length_in(area)\n        {statement}")


def before_content(condition, then):
    """Something else is done where the length, or its block, is like this."""
    return content(f"if {condition}:\n            {then}\n        content = area.take(length)")


def later_message(condition):
    """A message is looked for behind the first, and taken where there is one."""
    return instead(IS_MESSAGE, f"if kind == MESSAGE and {condition}:\n            area.found = content\n"
                   "            try:\n                return first_message(area)\n"
                   f"            except Refused:\n                return content\n        {IS_MESSAGE}")


LENGTHS_BY_HAND = {
    "the length has its low byte first": instead(TWO_BYTES, TWO_BYTES.replace("high, low", "low, high")),
    "the length's high byte is passed over": instead(TWO_BYTES, "high, low = area.take(2)\n    return low"),
    "the length has one byte behind FFh": instead(TWO_BYTES, "(low,) = area.take(1)\n    return low"),
    "the length has three bytes behind FFh": instead(
        TWO_BYTES, "top, high, low = area.take(3)\n    return 65536 * top + 256 * high + low"),
    "FFh and two are counted from 255": instead(TWO_BYTES, TWO_BYTES + " + 255"),
    "FFh is a length of 255": instead(ONE_BYTE, "return first"),
    "FEh is followed by two as FFh is": instead(ONE_BYTE, "if first < 0xFE:\n        return first"),
    "FFh and two are 21 below 255": value("if high == 0 and low < 255:\n        raise Refused(21)"),
    "FFh and two are 22 below 255": value("if high == 0 and low < 255:\n        raise Refused(22)"),
    "FFh and two are 20 below 255": value("if high == 0 and low < 255:\n        raise Refused(20)"),
    "FFh and two are 21 at 254": value("if high == 0 and low == 254:\n        raise Refused(21)"),
    "FFh and two are 21 at 0": value("if high == low == 0:\n        raise Refused(21)"),
    "FFh and two are 255 below 255": value("if high == 0 and low < 255:\n        return 255"),
    "the length counts itself": content("content = area.take(max(0, length - 1))"),
    "the length counts type and length": content("content = area.take(max(0, length - 2))"),
    "a block ends a byte later": instead(CONTENT, f"{CONTENT}\n        area.left = area.left[1:]"),
    "blocks begin at pages": instead(
        KIND, "area.left = area.left[len(area.left) % 4:] or bytes([TERMINATOR])\n        " + KIND),
}

ENDS_BY_HAND = {
    "what passes the end is cut": instead(TAKE, "amount = min(amount, len(self.left))"),
    "bytes that pass the end are cut": content("content = area.take(min(length, len(area.left)))"),
    "bytes of another block that pass the end are cut": content(
        "content = area.take(length if kind == MESSAGE else min(length, len(area.left)))"),
    "bytes of a message that pass the end are cut": content(
        "content = area.take(length if kind != MESSAGE else min(length, len(area.left)))"),
    "what passes the end is 20": instead(TAKE, TAKE.replace("21", "20")),
    "what passes the end is 22": instead(TAKE, TAKE.replace("21", "22")),
    "another block that passes the end is 20": before_content(
        "kind != MESSAGE and length > len(area.left)", "break"),
    "a message that passes the end is 22": before_content(
        "kind == MESSAGE and length > len(area.left)", "raise Refused(22)"),
    "a message of another length that passes the end is 22": before_content(
        "kind == MESSAGE and length != 11", "raise Refused(22)"),
    "a block that ends with the last byte is 21": before_content(
        "0 < length == len(area.left)", "raise Refused(21)"),
    "a length as the last byte is 21": before_content("not area.left", "raise Refused(21)"),
    "a block may pass the end by a byte": before_content("length == len(area.left) + 1", "length -= 1"),
    "a type as the last byte is 20": at_type(CONTENT, "not area.left", "break"),
    "a message's type as the last byte is 22": at_type(
        CONTENT, "kind == MESSAGE and not area.left", "raise Refused(22)"),
    "a length that is cut behind FFh is 20": at_type(
        TWO_BYTES, "len(area.left) < 2", "raise Refused(20)", "\n    "),
    "a length that is cut behind FFh is what is there": at_type(
        TWO_BYTES, "len(area.left) < 2", "return sum(area.take(len(area.left)))", "\n    "),
    "the user pages without FEh are 21": instead(NO_MESSAGE, "raise Refused(20 if kind == TERMINATOR else 21)"),
    "the user pages without FEh are 22": instead(NO_MESSAGE, "raise Refused(20 if kind == TERMINATOR else 22)"),
    "00h as the last byte is 21": at_type(IS_NULL, "kind == NULL and not area.left", "raise Refused(21)"),
    "FEh as the last byte is 21": at_type(
        IS_TERMINATOR, "kind == TERMINATOR and not area.left", "raise Refused(21)"),
}

TYPES_BY_HAND = {
    "FEh is one byte that is passed over": instead(IS_TERMINATOR, IS_TERMINATOR.replace("break", "continue")),
    "FEh has a length": instead(IS_TERMINATOR + "\n        ", ""),
    "FEh has a length, and then ends": at_type(
        IS_TERMINATOR, "kind == TERMINATOR", "area.take(length_in(area))"),
    "FEh is passed over before any block": at_type(
        IS_TERMINATOR, "kind == TERMINATOR and 'blocks' not in vars(area)", "area.blocks = 1; continue"),
    "FEh is 22": instead(IS_TERMINATOR, IS_TERMINATOR.replace("break", "raise Refused(22)")),
    "00h has a length": instead(IS_NULL + "\n        ", ""),
    "00h is two bytes": instead(IS_NULL, "if kind == NULL:\n            area.take(1)\n            continue"),
    "00h ends": instead(IS_NULL, IS_NULL.replace("continue", "break")),
    "two 00h end": at_type(IS_NULL, "kind == NULL and area.left[:1] == b'\\0'", "break"),
    "four 00h end": at_type(IS_NULL, "kind == NULL and area.left[:3] == b'\\0\\0\\0'", "break"),
    "00h is one byte only before a block": instead(
        IS_NULL, IS_NULL.replace("NULL", "NULL and 'blocks' not in vars(area)") + "\n        area.blocks = 1"),
    "types from 80h up are one byte": at_type(IS_NULL, "0x80 <= kind < 0xFE", "continue"),
    "types from 04h up end": at_type(IS_TERMINATOR, "kind > 3", "break"),
    "types that aren't known are 22": at_type(
        CONTENT, "kind not in (0x01, 0x02, MESSAGE, 0xFD)", "raise Refused(22)"),
    "types that aren't known are 20": at_type(CONTENT, "kind not in (0x01, 0x02, MESSAGE, 0xFD)", "break"),
    "type FFh ends": at_type(IS_TERMINATOR, "kind == 0xFF", "break"),
    "type FFh is one byte": at_type(IS_NULL, "kind == 0xFF", "continue"),
    "type FDh ends": at_type(IS_TERMINATOR, "kind == 0xFD", "break"),
    "types 01h and 02h have three bytes, whatever their length": instead(
        CONTENT, "content = area.take(length_in(area)) if kind > 2 else area.take(4)"),
    "a type is known by its low half": instead(IS_MESSAGE, IS_MESSAGE.replace("kind ==", "kind % 16 ==")),
    "type 02h is a message too": instead(IS_MESSAGE, IS_MESSAGE.replace("== MESSAGE", "in (2, MESSAGE)")),
    "type 83h is a message too": instead(IS_MESSAGE, IS_MESSAGE.replace("kind ==", "kind % 128 ==")),
}

MESSAGES_BY_HAND = {
    "an empty message is passed over": at_type(IS_MESSAGE, "kind == MESSAGE and not content", "continue"),
    "an empty message is 20": at_type(IS_MESSAGE, "kind == MESSAGE and not content", "break"),
    "a message that is no reading is passed over": at_type(
        IS_MESSAGE, "kind == MESSAGE and (len(content) != 11 or content[:3] != BEGINNING)", "continue"),
    "the second message is taken where there are two": later_message("'found' not in vars(area)"),
    "the last message is taken": later_message("True"),
    "a message behind which something passes the end is 21": instead(
        IS_MESSAGE, "if kind == MESSAGE:\n            try:\n                first_message(area)\n"
        "            except Refused as refused:\n                if refused.number == 21:\n"
        "                    raise\n            return content"),
    "a message without FEh behind it is 20": at_type(
        IS_MESSAGE, "kind == MESSAGE and TERMINATOR not in area.left", "break"),
    "a message with nothing behind it is 21": at_type(
        IS_MESSAGE, "kind == MESSAGE and not area.left", "raise Refused(21)"),
    "a message behind another block isn't found": instead(IS_MESSAGE, f"{IS_MESSAGE}\n        break"),
    "03h inside of a block is a message": at_type(
        IS_MESSAGE, "kind != MESSAGE and MESSAGE in content",
        "return first_message(Area(content[content.index(MESSAGE):] + area.left))"),
    "FEh inside of a block ends": at_type(IS_MESSAGE, "kind != MESSAGE and TERMINATOR in content", "break"),
    "a reading is looked for at each place": instead(
        "content = first_message(user_area(image))",
        "area = user_area(image).left\n    place = area.find(b'\\3\\x0B' + BEGINNING)\n"
        "    content = area[place + 2:place + 13] if place >= 0 else first_message(user_area(image))"),
}

WALKS_BY_HAND = {**LENGTHS_BY_HAND, **ENDS_BY_HAND, **TYPES_BY_HAND, **MESSAGES_BY_HAND}
