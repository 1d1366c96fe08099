"""Wrong by hand: screens that take another message for a reading, or judge it otherwise."""

TESTED = "if len(content) != 11 or content[:3] != BEGINNING:\n        raise Refused(22)"
SECONDS, WATTS = 'int.from_bytes(content[3:7], "little")', 'int.from_bytes(content[7:], "little")'
NUMBERS = f"return {SECONDS}, {WATTS}"
JUDGED = "return judged(present - seconds), watts"
LIVE = "age <= SECONDS_OF_LIFE"


def instead(right, wrong):
    return "workshop.screen", right, wrong


def reading_if(condition):
    """Another test of what a reading is."""
    return instead(TESTED, f"if not ({condition}):\n        raise Refused(22)")


def numbers(seconds, watts):
    """Seconds and watts from other bytes."""
    return instead(NUMBERS, f"return {seconds}, {watts}")


def age(expression):
    """Another age than the right one, which is `age`."""
    return instead(JUDGED, f"age = present - seconds\n    return judged({expression}), watts")


def watts(expression):
    """Other watts than the right ones; `word` is the answer's, `age` the age."""
    return instead(JUDGED, f"age = present - seconds\n    word = judged(age)\n    return word, {expression}")


def refused(numbers_exchanged):
    return "tag.refusal", "self.number = number", f"self.number = {numbers_exchanged}.get(number, number)"


TESTS_BY_HAND = {
    "a message of 12 bytes is taken": reading_if("len(content) in (11, 12) and content[:3] == BEGINNING"),
    "a message of 10 bytes is taken": reading_if("len(content) in (10, 11) and content[:3] == BEGINNING"),
    "a longer message that begins right is taken": reading_if(
        "len(content) >= 11 and content[:3] == BEGINNING"),
    "any message that begins right is taken": reading_if("content[:3] == BEGINNING"),
    "a message that ends as a reading is taken": reading_if("content[-11:-8] == BEGINNING"),
    "a message's length is known by its low byte": reading_if(
        "len(content) % 256 == 11 and content[:3] == BEGINNING"),
    "a message is as long as its third byte says": reading_if(
        "content[:2] == BEGINNING[:2] and content[2:3] == bytes([len(content) % 256 - 3 & 0xFF])"),
    "byte 0 isn't tested": reading_if("len(content) == 11 and content[1:3] == BEGINNING[1:]"),
    "byte 1 isn't tested": reading_if("len(content) == 11 and content[0] == 0xD5 and content[2] == 8"),
    "byte 2 isn't tested": reading_if("len(content) == 11 and content[:2] == BEGINNING[:2]"),
    "byte 0 alone is tested": reading_if("len(content) == 11 and content[0] == 0xD5"),
    "byte 1 alone is tested": reading_if("len(content) == 11 and content[1] == 0x00"),
    "byte 2 alone is tested": reading_if("len(content) == 11 and content[2] == 0x08"),
    "no byte is tested": reading_if("len(content) == 11"),
    "three bits of byte 0 aren't tested": reading_if(
        "len(content) == 11 and content[0] & 0xF8 == 0xD0 and content[1:3] == BEGINNING[1:]"),
    "the three bytes come in any order": reading_if(
        "len(content) == 11 and sorted(content[:3]) == [0, 8, 0xD5]"),
    "the three bytes are added up": reading_if("len(content) == 11 and sum(content[:3]) == 0xDD"),
    "not a reading is 20": instead(TESTED, TESTED.replace("22", "20")),
    "not a reading is 21": instead(TESTED, TESTED.replace("22", "21")),
    "an empty message is 21": instead(TESTED, f"if not content:\n        raise Refused(21)\n    {TESTED}"),
    "a message that is too short is 21": instead(
        TESTED, f"if len(content) < 11:\n        raise Refused(21)\n    {TESTED}"),
    "20 and 21 are exchanged": refused({20: 21, 21: 20}),
    "21 and 22 are exchanged": refused({21: 22, 22: 21}),
    "20 and 22 are exchanged": refused({20: 22, 22: 20}),
}

NUMBERS_BY_HAND = {
    "seconds and watts are exchanged": numbers(WATTS, SECONDS),
    "seconds have their high byte first": numbers(SECONDS.replace("little", "big"), WATTS),
    "watts have their high byte first": numbers(SECONDS, WATTS.replace("little", "big")),
    "seconds have their halves exchanged": numbers(
        'int.from_bytes(content[5:7] + content[3:5], "little")', WATTS),
    "watts have their halves exchanged": numbers(
        SECONDS, 'int.from_bytes(content[9:] + content[7:9], "little")'),
    "seconds have two bytes": numbers(f"{SECONDS} % 2 ** 16", WATTS),
    "seconds have three bytes": numbers(f"{SECONDS} % 2 ** 24", WATTS),
    "seconds have a sign": numbers('int.from_bytes(content[3:7], "little", signed=True)', WATTS),
    "seconds begin a byte early": numbers('int.from_bytes(content[2:6], "little")', WATTS),
    "watts have two bytes": numbers(SECONDS, f"{WATTS} % 2 ** 16"),
    "watts have three bytes": numbers(SECONDS, f"{WATTS} % 2 ** 24"),
    "watts begin a byte early": numbers(SECONDS, 'int.from_bytes(content[6:10], "little")'),
    "watts end at 2147483647": numbers(SECONDS, f"min({WATTS}, 2 ** 31 - 1)"),
    "watts are told in kilowatts": numbers(SECONDS, f"{WATTS} // 1000"),
    "the watts of what is old are 0": watts('watts if word != "old" else 0'),
    "the watts of what is ahead are 0": watts('watts if word != "ahead" else 0'),
    "the age comes back for the watts": watts("abs(age)"),
    "the seconds come back for the watts": watts("seconds"),
}

AGES_BY_HAND = {
    "900 is old": instead(LIVE, "age < SECONDS_OF_LIFE"),
    "901 is live": instead(LIVE, "age <= SECONDS_OF_LIFE + 1"),
    "0 is ahead": instead("age < 0", "age <= 0"),
    "1 ahead is live": instead("age < 0", "age < -1"),
    "what is ahead is live": instead('return "ahead"', 'return "live"'),
    "what is ahead is old": instead('return "ahead"', 'return "old"'),
    "live and old are exchanged": instead('"live" if age <= SECONDS_OF_LIFE else "old"',
                                          '"old" if age <= SECONDS_OF_LIFE else "live"'),
    "what is ahead by 900 at most is live": age("abs(age) if age >= -900 else age"),
    "what is ahead by more than 900 is old": age("abs(age) if age < -900 else age"),
    "ages wrap around": age("age % 2 ** 32"),
    "ages have 32 bits and a sign": age("(age + 2 ** 31) % 2 ** 32 - 2 ** 31"),
    "ages have 31 bits": age("age % 2 ** 31 if age >= 0 else age"),
    "ages have 24 bits": age("age % 2 ** 24 if age >= 0 else age"),
    "ages have 16 bits": age("age % 2 ** 16 if age >= 0 else age"),
    "ages have 8 bits": age("age % 2 ** 8 if age >= 0 else age"),
    "ages end at 900": age("min(age, 900)"),
    "ages are whole minutes": age("age // 60 * 60"),
    "ages are counted from the next second": age("age - 1 if age else age"),
    "the present second loses its last bit": age("present // 2 * 2 - seconds"),
    "the present second has a sign": age("(present + 2 ** 31) % 2 ** 32 - 2 ** 31 - seconds"),
    "at second 0 nothing is ahead": age("age if present else 0"),
    "at the last second nothing is old": age("age if present < 2 ** 32 - 1 else 0"),
    "a reading of second 0 is old": age("age if seconds else 901"),
    "a reading of the last second is ahead": age("age if seconds < 2 ** 32 - 1 else -1"),
}

READINGS_BY_HAND = {**TESTS_BY_HAND, **NUMBERS_BY_HAND, **AGES_BY_HAND}
