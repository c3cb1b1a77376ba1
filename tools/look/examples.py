"""The projects that the tests look at, with the microseconds of a run that shows what each is about."""
import os

HERE = os.path.dirname(os.path.abspath(__file__))
FOLDER = os.path.join(HERE, "..", "..", "examples")
MICROSECONDS = {
    "arduino-blink": 20000, "blink": 20, "button": 60000, "chip-blinker": 3000, "chip-counter": 10000, "chip-echo": 10000, "chip-inverter": 1000,
    "chip-registers": 5000, "chip-thermometer": 20000, "counter": 30, "eeprom-counter": 250000, "fade": 20000, "i2c-scanner": 20000, "latch": 20000, "keypad": 260000, "lcd-hello": 120000,
    "lcd-i2c": 150000, "low-power": 1000000, "oled-hello": 80000, "pin-interrupt": 30000, "pot-blink": 20000, "pot-serial": 120000, "pulse": 200, "serial-hello": 110000, "seven-segment": 50000,
    "shift-out": 100000, "spi-loopback": 5000, "spi-shift": 30000, "tone": 20000, "watchdog": 500000,
}
DEFAULT = 20000


def folder_of(name):
    return os.path.join(FOLDER, name)


def names():
    """Each example that has a diagram and a firmware, those that have no time above too."""
    return sorted(name for name in os.listdir(FOLDER) if all(os.path.exists(os.path.join(FOLDER, name, file)) for file in ("diagram.json", "wokwi.toml")))


def microseconds(name):
    return MICROSECONDS.get(name, DEFAULT)


def script_of(name):
    path = os.path.join(folder_of(name), "script.txt")
    return path if os.path.exists(path) else None
