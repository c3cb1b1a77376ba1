"""The words of a call: times with a unit become microseconds, what is wrong with words that were not understood, and which
files a run reads and writes."""
import os
import re

import pages

UNITS = {"us": 1, "ms": 1_000, "s": 1_000_000}
LONGEST = 10_000_000
LIMITS = {"--budget": (1, 10_000_000), "--bit": (2, 1_000_000), "--mode": (0, 3)}
VARIABLES = ("--uart", "--spi", "--data", "--i2c", "--sda")


def micros(text):
    """The microseconds of 200ms, 5s, 1.5ms or 30us; None where it is no such time, or no whole number of microseconds."""
    found = re.fullmatch(r"([0-9]{1,10})(?:\.([0-9]{1,6}))?(us|ms|s)", text)
    if not found:
        return None
    whole, part, unit = found.groups()
    millionths = int(whole) * 1_000_000 + int((part or "").ljust(6, "0"))
    exact, rest = divmod(millionths * UNITS[unit], 1_000_000)
    return None if rest else exact


def option_at(words, place):
    """The option whose value the word at the place is or has, and that value: `--us 5s` and `--us=5s`."""
    word = words[place]
    if word.startswith("--") and "=" in word:
        return tuple(word.split("=", 1))
    if place and re.fullmatch(r"--[a-z-]+", words[place - 1]) and not word.startswith("--"):
        return words[place - 1], word
    return None, None


def end_of_options(words):
    return words.index("--") if "--" in words else len(words)


def with_micros(words):
    """The words with each time of --us as microseconds. What stands after `--` stays as it is."""
    made = list(words)
    for place in range(1, end_of_options(words)):
        name, value = option_at(words, place)
        exact = micros(value) if name == "--us" else None
        if exact is not None:
            made[place] = f"--us={exact}" if words[place].startswith("--") else str(exact)
    return made


def parts(words):
    """The options of a call by their names, each with its values, and the words that are no options."""
    given, others, end, place = {}, [], end_of_options(words), 1
    while place < len(words):
        word = words[place]
        if place >= end or not word.startswith("--"):
            others += [word] if place != end else []
        elif "=" in word:
            given.setdefault(word.split("=", 1)[0], []).append(word.split("=", 1)[1])
        elif place + 1 < end and (words[place + 1] == "-" or not words[place + 1].startswith("-")):
            given.setdefault(word, []).append(words[place + 1])
            place += 1
        else:
            given.setdefault(word, []).append(None)
        place += 1
    return given, others


def near(word, known):
    import difflib  # rarely needed, and each run would pay for it

    close = difflib.get_close_matches(word, known, 1)
    return f"; is it {close[0]}?" if close else ""


def wrong_value(name, value):
    """What is wrong with an option's value, if the script can tell."""
    if value is None or value == "" and name not in VARIABLES:
        return f"{name} has no value"
    if name == "--us" and not (re.fullmatch("[0-9]{1,10}", value) and 1 <= int(value) <= LONGEST):
        return f"--us takes 1 to {LONGEST} microseconds, or a time as 200ms or 5s up to 10s, and not {value}"
    if name in LIMITS:
        least, most = LIMITS[name]
        if not (re.fullmatch("[0-9]{1,10}", value) and least <= int(value) <= most):
            return f"{name} takes {least} to {most}, and not {value}"
    return None


def wrong_groups(groups, given):
    """What is wrong with options in groups, of which one is given, and all of it."""
    begun = [[name for name in it if name in given] for it in groups]
    if not any(begun):
        return [f"one of {', '.join(it[0] for it in groups[:-1])} and {groups[-1][0]} is missing"] if groups else []
    found = [it[0] for it in begun if it]
    if len(found) > 1:
        return [f"{' and '.join(found)} do not go together"]
    return [f"{name} is missing" for it, some in zip(groups, begun) if some for name in it if name not in some]


def is_text(word):
    try:
        os.fsencode(word).decode("utf-8")
        return True
    except UnicodeDecodeError:
        return False


def are_wrong(words):
    """Whether the program would not understand the words of a call of it, as far as it can be told without the program."""
    return words[0] not in pages.commands("The script") and bool(mistakes(with_micros(words))[0])


def mistakes(words):
    """What is wrong with words that were not understood, as far as it can be told, and the command's form."""
    known = pages.commands()
    usage = known.get(words[0])
    if not all(map(is_text, words)):
        return ["a word is not text in UTF-8"], usage
    if usage is None:
        return [f"there is no command {words[0]}{near(words[0], known)}"], None
    given, others = parts(words)
    found = [f"{name} is no option of {usage.name}{near(name, usage.options)}" for name in given if name not in usage.options]
    found += [f"{name} is given {len(values)} times" for name, values in given.items() if len(values) > 1 and name in usage.options]
    for name, values in given.items():
        found += [it for it in (wrong_value(name, value) for value in values if name in usage.options) if it]
    found += [f"{name} is missing" for name in usage.needed if name not in given]
    found += wrong_groups(usage.one_of, given)
    found += [f"{name} is missing" for name in usage.takes[len(others) :]]
    found += [f"{word} is one word too many" for word in others[len(usage.takes) :]]
    found += [f"{name} is an empty name" for name, word in zip(usage.takes, others) if not word]
    if usage.name == "make" and others and not (re.fullmatch("[0-9]{1,10}", others[0]) and int(others[0]) < 2**32):
        found.append(f"SEED is a number from 0 to 4294967295, and not {others[0]}")
    return found, usage


def sentences(words):
    """What is said after status 2."""
    found, usage = mistakes(words)
    return [*found, f"the form is: {usage.shape}" if usage else "./mudflatjar --help lists the commands"]


def folders(words):
    """The project folders of a call."""
    usage = pages.commands().get(words[0])
    _, others = parts(words)
    return [word for name, word in zip(usage.takes if usage else [], others) if name in ("FOLDER", "OTHER")]


def text_of(file, most=1_048_576):
    try:
        with open(file, encoding="utf-8-sig", errors="replace") as it:
            return it.read(most)
    except (OSError, ValueError):
        return ""


def named_in(folder):
    """The texts `firmware` and each chip's `name` and `binary` that a folder's wokwi.toml gives, in their order."""
    toml = text_of(f"{folder}/wokwi.toml")
    return re.findall(r"""(?m)^\s*(firmware|name|binary)\s*=\s*["']([^"'\n]*)["']""", toml)


def firmware(words):
    """The HEX file of a call, or None."""
    if words[0] == "bare":
        return next(iter(parts(words)[1]), None)
    for folder in folders(words)[:1]:
        for name, value in named_in(folder):
            if name == "firmware":
                return f"{folder}/{value}"
    return None


def inputs(words):
    """The files that a call reads."""
    given, others = parts(words)
    usage = pages.commands().get(words[0])
    found = [file for file in given.get("--script", []) if file]
    for name, word in zip(usage.takes if usage else [], others):
        if name in ("HEX", "FILE", "WAVE"):
            found.append(word)
    for folder in folders(words):
        found += [f"{folder}/wokwi.toml", f"{folder}/diagram.json"]
        for name, value in named_in(folder):
            found += [f"{folder}/{value}"] if name != "name" else []
            found += [f"{folder}/{value[:-5]}.json"] if name == "binary" and value.endswith(".wasm") else []
    return found


def outputs(words):
    """The files that a call writes, each with its option."""
    given, _ = parts(words)
    return [(name, file) for name in ("--vcd", "--report") for file in given.get(name, []) if file and file != "-"]


def same(one, other):
    try:
        return os.path.samefile(one, other)
    except (OSError, ValueError):
        return os.path.normpath(one) == os.path.normpath(other)


def overwrites(words):
    """Sentences about outputs that overwrite an input of the same call, or each other."""
    found, written = [], outputs(words)
    for name, file in written:
        for read in inputs(words):
            if os.path.isfile(file) and same(file, read):
                found.append(f"{name} overwrites {file}, which this run reads")
                break
    if len(written) == 2 and same(written[0][1], written[1][1]) and not written[0][1].startswith("/dev/"):
        found.append(f"--vcd and --report name one file, {written[0][1]}: it will hold neither")
    return found
