"""What Wokwi's attributes are as values of the parts and chips here. `types.json` names the formulas, which
tools/web/page/formulas.js has too."""
import datetime
import math
import re


def number(text):
    """A decimal number, perhaps followed by a letter for thousands, millions or thousandths, as frequencies have it."""
    found = re.fullmatch(r"\s*([+-]?[0-9]+(?:\.[0-9]*)?|[+-]?\.[0-9]+)\s*([kKmM]?)\s*", str(text))
    if not found or len(found[1]) > 40:
        raise ValueError("is no number")
    return float(found[1]) * {"": 1, "k": 1e3, "K": 1e3, "M": 1e6, "m": 1e-3}[found[2]]


def whole(value):
    """The text of a whole number that a part or a chip takes as an attribute."""
    if not -2**31 <= value < 2**32:
        raise ValueError("is too large")
    return str(round(value))


def divided(lower, upper):
    """What analogRead gives between a resistor `upper` to 5V and a resistor `lower` to ground."""
    return whole(1023 * lower / (lower + upper))


def ntc(text, attrs):
    """An NTC of 10 kOhm at 25 degrees Celsius to ground, with 10 kOhm to 5V: R = 10k * exp(beta * (1/T - 1/298.15))."""
    kelvin = number(text) + 273.15
    if kelvin <= 0:
        raise ValueError("is below the least temperature that there is")
    beta = number(attrs.get("beta", "3950"))
    return divided(1, math.exp(min(700, beta * (1 / 298.15 - 1 / kelvin))))


def resistance(text, attrs):
    """A photoresistor of `rl10` kOhm at 10 lux: R = rl10 * (10 / lux) ^ gamma."""
    lux = max(number(text), 1e-3)
    return number(attrs.get("rl10", "50")) * (10 / lux) ** number(attrs.get("gamma", "0.7"))


def light(text, attrs):
    """A photoresistor to ground, with 10 kOhm to 5V: the more light, the lower."""
    return divided(resistance(text, attrs), 10)


def dark(text, attrs):
    """1 where the photoresistor's voltage is above `threshold`, so where it is dark, else 0."""
    ohms = resistance(text, attrs)
    return str(int(5 * ohms / (ohms + 10) > number(attrs.get("threshold", "2.5"))))


def volts(text, attrs):
    """What analogRead gives of a voltage."""
    return whole(1023 * min(max(number(text), 0), 5) / 5)


def above(text, attrs):
    """1 where a voltage is above `threshold`, else 0."""
    return str(int(number(text) > number(attrs.get("threshold", "2.5"))))


def not_above(text, attrs):
    """The opposite of `above`."""
    return "10"[int(above(text, attrs))]


def leftward(text, attrs):
    """A joystick's side to side, -1 to the left and 1 to the right, as a wiper that is at its end on the left."""
    return whole(1023 * (1 - min(max(number(text), -1), 1)) / 2)


def upward(text, attrs):
    """A joystick's up and down, -1 to 1, as a wiper that is at its end at the top."""
    return whole(1023 * (1 + min(max(number(text), -1), 1)) / 2)


def rom(text, attrs):
    """Of a number in hexadecimal digits the last byte, by which two thermometers on one wire differ; 77 where there is none."""
    if text == "":
        return "77"
    if not re.fullmatch(r"(?:0x)?[0-9a-fA-F]{1,12}", text):
        raise ValueError("is no number of hexadecimal digits")
    return str(int(text, 16) & 255)


DATE = r"[0-9]{4}(-?)[0-9]{2}\1[0-9]{2}(?:[T ][0-9]{2}(?:(:?)[0-9]{2}(?:\2[0-9]{2}(?:\.[0-9]{1,6})?)?)?(?:Z|[+-][0-9]{2}:?[0-9]{2})?)?"


def time(text, attrs):
    """Seconds from 1970 on; a run repeats, so `now` is 2000-01-01."""
    if text in ("now", ""):
        return "946684800"
    if re.fullmatch(r"[0-9]{1,10}", text):
        return whole(int(text))
    try:
        moment = datetime.datetime.fromisoformat(re.fullmatch(DATE, text)[0].replace("Z", "+00:00"))
    except (TypeError, ValueError):
        raise ValueError("is no time") from None
    if moment.tzinfo is None:
        moment = moment.replace(tzinfo=datetime.timezone.utc)
    seconds = int(moment.timestamp())
    if not 0 <= seconds < 2**32:
        raise ValueError("is before 1970 or after 2105")
    return str(seconds)


def half_period(text, attrs):
    """Nanoseconds of half a period of so many hertz."""
    hertz = number(text)
    if not 0.2 <= hertz <= 8e6:
        raise ValueError("is not within 0.2 and 8M")
    return str(round(5e8 / hertz))


def address(text, attrs):
    """An I2C address as the decimal number that a chip takes."""
    value = int(text, 0) if re.fullmatch(r"0x[0-9a-fA-F]{1,2}", text) else int(text) if re.fullmatch(r"[0-9]{1,5}", text) else 128
    if value > 127:
        raise ValueError("is no address")
    return str(value)


def serpentine(text, attrs):
    """Whether each second row of a matrix goes the other way."""
    return str(int(text == "serpentine"))


NAMED = {"address": address, "serpentine": serpentine, "ntc": ntc, "light": light, "dark": dark, "time": time, "half period": half_period, "volts": volts, "above": above, "not above": not_above, "leftward": leftward, "upward": upward, "rom": rom}


def value_of(rule, attrs):
    """The value by a rule of `types.json`: a text, or an attribute as it is, times a number, by words or by a formula."""
    if isinstance(rule, str):
        return rule
    text = attrs.get(rule["from"], rule["default"])
    text = rule["default"] if text == "" else str(text).strip()
    if "words" in rule:
        if text not in rule["words"]:
            raise ValueError("is none of " + ", ".join(rule["words"]))
        return rule["words"][text]
    if "formula" in rule:
        return NAMED[rule["formula"]](text, attrs)
    return whole(number(text) * rule.get("times", 1))
