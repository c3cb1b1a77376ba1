#!/usr/bin/env python3
"""Builds a sketch for an Uno: by arduino-cli where it is there, else with the core and the compiler that the Arduino IDE installed, else
from Debian's packages arduino-core-avr, gcc-avr and avr-libc.

    tools/wokwi/sketch.py FOLDER|FILE.ino OUT.hex
"""
import glob
import hashlib
import os
import re
import shutil
import subprocess
import sys
import tempfile

import firmware

HERE = os.path.dirname(os.path.abspath(__file__))


def installed():
    """(the core's folder, the folder of its compiler or ""): those of the Arduino IDE in their newest version, else Debian's, whose
    compiler is on the path."""
    home = os.path.expanduser("~/.arduino15/packages/arduino")
    newest = lambda places: max(places, key=lambda place: [int(n) for n in re.findall(r"[0-9]+", place.removeprefix(home))], default="")
    core = newest(glob.glob(f"{home}/hardware/avr/*/cores/arduino"))
    compiler = newest(glob.glob(f"{home}/tools/avr-gcc/*/bin/avr-g++"))
    if core and compiler:
        return os.path.dirname(os.path.dirname(core)), os.path.dirname(compiler)
    return "/usr/share/arduino/hardware/arduino/avr", ""


BASE, COMPILERS = installed()
COMMON = ["-c", "-g", "-Os", "-w", "-ffunction-sections", "-fdata-sections", "-flto", "-mmcu=atmega328p", "-DF_CPU=16000000L",
          "-DARDUINO=10819", "-DARDUINO_AVR_UNO", "-DARDUINO_ARCH_AVR", f"-I{BASE}/cores/arduino", f"-I{BASE}/variants/standard"]
C = ["avr-gcc", "-std=gnu11", "-fno-fat-lto-objects"]
# gcc-avr 5.4 leaves DECIMAL_DIG out of its float.h for C++, and WString.cpp wants it
CPP = ["avr-g++", "-std=gnu++11", "-DDECIMAL_DIG=__DECIMAL_DIG__", "-fpermissive", "-fno-exceptions", "-fno-threadsafe-statics"]
ASSEMBLER = ["avr-gcc", "-x", "assembler-with-cpp"]
SOURCES = {".c": C, ".cpp": CPP, ".cc": CPP, ".S": ASSEMBLER}


class BuildFault(Exception):
    """What a build says; `missing` where only a tool is not there."""

    def __init__(self, text, missing=False):
        super().__init__(text)
        self.missing = missing


class CoreMissing(BuildFault):
    """arduino-cli is there, and its core for the Uno is not."""


# ---- the text of a sketch

def without_comments(text):
    """The text with comments, strings and characters as blanks, line by line as it was."""
    blank = lambda found: re.sub(r"[^\n]", " ", found[0])
    return re.sub(r'//[^\n]*|/\*.*?\*/|"(?:\\.|[^"\\\n])*"|\'(?:\\.|[^\'\\\n])*\'', blank, text, flags=re.S)


def outermost(text):
    """The text with all inside braces, and the preprocessor's lines, as blanks."""
    text = re.sub(r"^[ \t]*#(?:[^\n]*\\\n)*[^\n]*", lambda found: re.sub(r"[^\n]", " ", found[0]), text, flags=re.M)
    out, depth = [], 0
    for letter in text:
        depth -= letter == "}" and depth > 0
        out.append(letter if depth == 0 or letter == "\n" else " ")
        depth += letter == "{"
    return "".join(out)


FUNCTION = re.compile(r"(?<![\w:])((?:[A-Za-z_]\w*(?:\s*::\s*\w+)*(?:\s*<[^<>(){};]*>)?[\s*&]+)+)([A-Za-z_]\w*)\s*\(([^(){};]*(?:\([^(){};]*\)[^(){};]*)*)\)\s*\{")
NO_TYPE = {"class", "struct", "enum", "union", "namespace", "return", "else", "new", "typedef", "template", "operator", "using", "extern"}


def conditional(text):
    """(from, to) of each part between #if and its #endif, outermost ones alone."""
    spans, depth, start = [], 0, 0
    for it in re.finditer(r"^[ \t]*#[ \t]*(if|endif)", text, flags=re.M):
        if it[1] == "if":
            start = it.start() if depth == 0 else start
            depth += 1
        elif depth:
            depth -= 1
            if depth == 0:
                spans.append((start, it.end()))
    return spans


def prototypes(text):
    """(the place of the first function, a declaration of each function): the IDE puts these before the first function. A
    function between #if and #endif may not be there, so it has none."""
    plain = without_comments(text)
    top, spans = outermost(plain), conditional(plain)
    first, found = None, []
    for it in FUNCTION.finditer(top):
        start = it.start()
        span = next((span for span in spans if span[0] <= start < span[1]), None)
        if first is None:
            first = span[0] if span else start
        words = set(re.findall(r"\w+", it[1]))
        if span or words & NO_TYPE or "template" in top[max(0, start - 200):start].split(";")[-1].split("}")[-1]:
            continue
        parameters = re.sub(r"\s*=[^,]*", "", it[3])  # a default is given once, in the definition
        found.append(" ".join(f"{it[1].strip()} {it[2]}({parameters.strip()});".split()))
    return first, [one for one in dict.fromkeys(found) if "=" not in one]


def joined(folder, main):
    """The sketch as one C++ text: its .ino files, the main one first, with the declarations of its functions."""
    names = sorted(name for name in os.listdir(folder) if name.endswith((".ino", ".pde")) and name != main)
    text = ""
    for name in [main, *names]:
        with open(os.path.join(folder, name), encoding="utf-8", errors="replace") as file:
            text += f'#line 1 "{name}"\n' + file.read() + "\n"
    first, declared = prototypes(text)
    if declared:
        cut = text.rfind("\n", 0, first) + 1
        start = text.rfind("#line 1 ", 0, cut)
        name = text[start:].split('"')[1]
        line = text.count("\n", start, cut)
        text = text[:cut] + "\n".join(declared) + f'\n#line {line} "{name}"\n' + text[cut:]
    return "#include <Arduino.h>\n" + text


def main_file(folder):
    """The sketch's main file: NAME.ino in a folder NAME, sketch.ino, else the one with `setup`; of C++ where there is no .ino."""
    files = sorted(os.listdir(folder))
    names = [name for name in files if name.endswith((".ino", ".pde"))]
    for wanted in (os.path.basename(os.path.abspath(folder)) + ".ino", "sketch.ino"):
        if wanted in names:
            return wanted
    for name in names or [name for name in files if name.endswith(".cpp")]:
        with open(os.path.join(folder, name), encoding="utf-8", errors="replace") as file:
            if re.search(r"\bvoid\s+setup\s*\(", without_comments(file.read())):
                return name
    return names[0] if names else None


def sketch_of(folder):
    """(folder, main file) of a project's sketch, which PlatformIO has in src/; the file is None where there is none."""
    for place in (folder, os.path.join(folder, "src")):
        main = main_file(place) if os.path.isdir(place) else None
        if main:
            return place, main
    return folder, None


# ---- libraries

def sketchbooks():
    """The folders in which the Arduino IDE and arduino-cli keep what a user installs, as their settings name them."""
    home = os.path.expanduser("~")
    places = [os.environ.get("ARDUINO_DIRECTORIES_USER", "")]
    user, path = r"^\s+user:\s*[\"']?(.*?)[\"']?\s*$", r"^sketchbook\.path=(.*)$"
    for name, form in ((".arduino15/arduino-cli.yaml", user), (".arduinoIDE/arduino-cli.yaml", user), (".arduino15/preferences.txt", path)):
        try:
            with open(os.path.join(home, name), encoding="utf-8", errors="replace") as file:
                places += re.findall(form, file.read(), flags=re.M)
        except OSError:
            pass
    return [place for place in (*places, f"{home}/Arduino", f"{home}/Documents/Arduino") if place]


def platformio(folder):
    """Where PlatformIO keeps the libraries of a project: those of the environment `uno`, then of its others."""
    deps = os.path.join(folder, ".pio", "libdeps")
    environments = sorted(os.listdir(deps), key=lambda name: (name != "uno", name)) if os.path.isdir(deps) else []
    return [os.path.join(deps, name) for name in environments]


def library_folders(folder):
    """Where libraries may be, those of the project first."""
    above = os.path.dirname(folder) if os.path.basename(folder) == "src" else folder
    home = os.path.expanduser("~")
    places = [os.path.join(folder, "libraries"), os.path.join(above, "lib"), *platformio(above),
              *map(os.path.abspath, filter(None, os.environ.get("ARDUINO_LIBRARIES", "").split(":"))),
              *(os.path.join(place, "libraries") for place in sketchbooks()), f"{home}/.platformio/lib",
              f"{home}/.arduino15/libraries", "/usr/share/arduino/libraries", f"{BASE}/libraries", os.path.join(HERE, "libraries")]
    return [place for place in dict.fromkeys(map(os.path.normpath, places)) if os.path.isdir(place)]


def includes(text):
    return re.findall(r'^[ \t]*#[ \t]*include[ \t]*[<"]([^>"]+)[>"]', text, flags=re.M)


def for_avr(root):
    """Whether a library says that it is for this processor, or says nothing."""
    try:
        with open(os.path.join(root, "library.properties"), encoding="utf-8", errors="replace") as file:
            found = re.search(r"^architectures=(.*)$", file.read(), flags=re.M)
    except OSError:
        return True
    return not found or not found[1].strip() or bool({"*", "avr"} & set(re.split(r"[,\s]+", found[1].strip())))


class Libraries:
    """The libraries that a sketch's includes lead to: the first folder that has such a header."""

    def __init__(self, folder):
        self.headers, self.places, self.used = {}, {}, []
        for place in library_folders(folder):
            for name in sorted(os.listdir(place)):
                root = os.path.join(place, name)
                if not for_avr(root):
                    continue
                top = os.path.join(root, "src") if os.path.isdir(os.path.join(root, "src")) else root
                if os.path.isdir(top):
                    for header in os.listdir(top):
                        if header.endswith((".h", ".hpp")):
                            self.offer(header, top, place, name)

    def offer(self, header, top, place, name):
        """The first place that has a header wins, and in it the library that is called like the header."""
        is_called = re.sub(r"[^a-z0-9]", "", re.sub(r"-(master|main|[0-9.]+)$", "", name.lower())) == re.sub(r"[^a-z0-9]", "", header.rsplit(".", 1)[0].lower())
        known = self.headers.get(header)
        if known is None or (is_called and self.places[header] == (place, False)):
            self.headers[header] = top
            self.places[header] = (place, is_called)

    def follow(self, text):
        for header in includes(text):
            top = self.headers.get(header)
            if top and top not in self.used:
                self.used.append(top)
                for file in self.files(top, (".h", ".hpp", ".c", ".cpp", ".cc")):
                    with open(file, encoding="utf-8", errors="replace") as it:
                        self.follow(it.read())

    @staticmethod
    def files(top, endings):
        """The files of a library: with src/ all below it, else the folder's own and those of utility/."""
        deep = os.path.basename(top) == "src"
        found = []
        for here, below, names in os.walk(top):
            below[:] = sorted(it for it in below if deep or (here == top and it == "utility"))
            found.extend(os.path.join(here, name) for name in sorted(names) if name.endswith(endings))
        return found

    def small(self):
        """The names of the small versions of tools/wokwi/libraries that were taken, without what these include themselves."""
        own = os.path.join(HERE, "libraries") + os.sep
        names = (os.path.basename(os.path.dirname(top) if os.path.basename(top) == "src" else top) for top in self.used if top.startswith(own))
        return [name for name in names if name not in ("CharacterDisplay", "unity")]

    def words(self):
        words = []
        for top in self.used:
            words.append(f"-I{top}")
            if os.path.isdir(os.path.join(top, "utility")):
                words.append(f"-I{top}/utility")
        return words


# ---- Debian's packages

def tool(name):
    """A tool of the compiler that is used."""
    return os.path.join(COMPILERS, name) if COMPILERS else name


def call(words, folder):
    words = [tool(words[0]) if words[0].startswith("avr-") else words[0], *words[1:]]
    ran = subprocess.run(words, cwd=folder, stdout=subprocess.PIPE, stderr=subprocess.STDOUT, stdin=subprocess.DEVNULL, text=True, errors="replace", check=False)
    if ran.returncode:
        raise BuildFault(ran.stdout.strip() or f"{words[0]}: status {ran.returncode}")


def compiled(files, words, folder, base=None):
    """Objects of files, in the order of the files. A file below `base` is named from there, for its __FILE__ and messages."""
    objects = []
    for place, file in enumerate(files):
        made = os.path.join(folder, f"{place:03}-{os.path.basename(file)}.o")
        compiler = SOURCES[os.path.splitext(file)[1]]
        named = os.path.relpath(file, base) if base and file.startswith(base + os.sep) else file
        call([*compiler, *COMMON, *words, "-o", made, named], base or folder)
        objects.append(made)
    return objects


def kept_path(name):
    return os.path.join(os.environ.get("XDG_CACHE_HOME") or os.path.expanduser("~/.cache"), "mudflatjar", name)


def keep(made, kept):
    """Copies a file to where it is kept, as a whole. One that is there already stays, since another linker may be reading it;
    where nothing can be kept it is made each time."""
    try:
        os.makedirs(os.path.dirname(kept), exist_ok=True)
        copy = f"{kept}.{os.getpid()}"
        shutil.copyfile(made, copy)
        try:
            os.link(copy, kept)
        except FileExistsError:
            pass
        finally:
            os.unlink(copy)
    except OSError:
        pass


def elf_beside(hex_file):
    return os.path.splitext(hex_file)[0] + ".elf"


def put(made, out):
    """Copies a HEX file, and the ELF file beside it, which has the lines of the source."""
    shutil.copyfile(made, out)
    if os.path.exists(elf_beside(made)):
        shutil.copyfile(elf_beside(made), elf_beside(out))


def core_key():
    """What the core's archive depends on."""
    core = f"{BASE}/cores/arduino"
    about = hashlib.sha256(repr((COMMON, C, CPP)).encode())
    about.update(subprocess.run([tool("avr-gcc"), "--version"], stdout=subprocess.PIPE, check=False).stdout)
    for name in sorted(os.listdir(core)):
        state = os.stat(os.path.join(core, name))
        about.update(f"{name} {state.st_size} {state.st_mtime_ns}\n".encode())
    return about.hexdigest()


def core_archive(key, work, say):
    """The core's archive, which is compiled once and kept."""
    kept = kept_path(f"core-{key[:20]}.a")
    if os.path.exists(kept):
        return kept
    say("compiling the Arduino core, once: some seconds")
    core = f"{BASE}/cores/arduino"
    files = [os.path.join(core, name) for name in sorted(os.listdir(core)) if os.path.splitext(name)[1] in SOURCES]
    os.mkdir(os.path.join(work, "core"))
    made = os.path.join(work, "core.a")
    call(["avr-gcc-ar", "rcs", made, *compiled(files, [], os.path.join(work, "core"))], work)
    keep(made, kept)
    return made


def library_nearby(header, folder):
    """The folder of a library with this header that is in a sketch's folder, or next to it; the IDE does not look there either."""
    stem = os.path.splitext(os.path.basename(header))[0]
    inside = sorted(it.path for it in os.scandir(folder) if it.is_dir() and it.name != "libraries")
    for place in (*inside, os.path.join(os.path.dirname(folder), stem)):
        if any(os.path.isfile(os.path.join(place, more, header)) for more in ("", "src")):
            return place
    return None


def install_words(name):
    """The command that installs a library."""
    return f'arduino-cli lib install "{name}"'


def listed_libraries(folder):
    """The names of the libraries in libraries.txt, as Wokwi's editor writes it."""
    path = os.path.join(folder, "libraries.txt")
    if not os.path.exists(path):
        return []
    with open(path, encoding="utf-8", errors="replace") as file:
        return [line.split("@")[0].strip() for line in file if line.strip() and not line.startswith("#")]


def install(folder, say):
    """Installs what libraries.txt lists by arduino-cli, which asks the network for what is not installed yet."""
    names = listed_libraries(folder)
    if not names:
        say(f"{folder} has no libraries.txt that lists a library: nothing to install")
        return
    if not shutil.which("arduino-cli"):
        raise BuildFault(f"there is no arduino-cli to install {', '.join(names)} with. With the Arduino IDE's library manager they are installed too, and are found")
    for name in names:
        say(f"installing {name}")
        call(["arduino-cli", "lib", "install", name], folder)


def missing_library(fault, folder):
    """What to do about a header that no library has."""
    found = re.search(r"fatal error: ([^:\s]+): No such file", fault)
    if not found:
        return fault
    near = library_nearby(found[1], folder)
    if near:
        return f"{fault}\n{near} has {found[1]}, and libraries are looked for in {os.path.join(folder, 'libraries')}: move it there, or name the folder that it is in in ARDUINO_LIBRARIES"
    names = listed_libraries(folder)
    name = LIBRARY_NAMES.get(found[1]) or next((name for name in names if alike(name, found[1])), None)
    install = install_words(name or "NAME")
    which = f"The library is called {name}." if name else f"libraries.txt has {', '.join(names)}." if names else "Its documentation says what it is called."
    return (f"{fault}\nno library here has {found[1]}. {which} Install it with the Arduino IDE's library manager or by\n    {install}\n"
            f"and run again; or copy its folder into a folder `libraries` beside the sketch. Looked into: {', '.join(map(os.path.realpath, library_folders(folder)))}")


# What the library manager calls the libraries whose header has another name.
LIBRARY_NAMES = {
    "Adafruit_NeoPixel.h": "Adafruit NeoPixel", "FastLED.h": "FastLED", "Adafruit_GFX.h": "Adafruit GFX Library", "Adafruit_SSD1306.h": "Adafruit SSD1306",
    "Adafruit_ILI9341.h": "Adafruit ILI9341", "Adafruit_MPU6050.h": "Adafruit MPU6050", "Adafruit_Sensor.h": "Adafruit Unified Sensor", "DHT_U.h": "DHT sensor library",
    "U8g2lib.h": "U8g2", "U8x8lib.h": "U8g2", "RTClib.h": "RTClib", "IRremote.h": "IRremote", "IRremote.hpp": "IRremote", "OneWire.h": "OneWire",
    "DallasTemperature.h": "DallasTemperature", "TM1637Display.h": "TM1637", "LedControl.h": "LedControl", "MD_MAX72xx.h": "MD_MAX72XX", "MD_Parola.h": "MD_Parola",
    "AccelStepper.h": "AccelStepper", "SevSeg.h": "SevSeg", "Bounce2.h": "Bounce2", "NewPing.h": "NewPing", "HX711.h": "HX711 Arduino Library", "MFRC522.h": "MFRC522",
    "ezButton.h": "ezButton", "TimerOne.h": "TimerOne", "ArduinoJson.h": "ArduinoJson", "Encoder.h": "Encoder", "ServoEasing.hpp": "ServoEasing", "SD.h": "SD",
}


def alike(name, header):
    plain = lambda text: re.sub(r"[^a-z0-9]", "", text.lower())
    return plain(header.rsplit(".", 1)[0]) in plain(name)


def by_debian(folder, main, out, say, flags):
    work = tempfile.mkdtemp()
    try:
        text = "#include <Arduino.h>\n" if main.endswith(".cpp") else joined(folder, main)
        libraries = Libraries(folder)
        own = [os.path.join(folder, name) for name in sorted(os.listdir(folder)) if os.path.splitext(name)[1] in SOURCES and not name.endswith(".chip.c")]
        tabs = [os.path.join(folder, name) for name in sorted(os.listdir(folder)) if name.endswith((".h", ".hpp"))]
        libraries.follow(text)
        key = core_key()  # of the core and the compiler
        about = hashlib.sha256(f"{key} {flags}\n{text}".encode())
        for file in own + tabs:
            with open(file, encoding="utf-8", errors="replace") as it:
                content = it.read()
            about.update(f"{os.path.basename(file)}\n{content}".encode())
            libraries.follow(content)
        of_libraries = [file for top in libraries.used for file in Libraries.files(top, (*SOURCES, ".h", ".hpp"))]
        for file in of_libraries:
            about.update(f"{file} {os.stat(file).st_size} {os.stat(file).st_mtime_ns}\n".encode())
        for name in libraries.small():
            say(f"{name} is Mudflatjar's own small version (tools/wokwi/libraries), since none is installed: the library itself may have more calls")
        kept = kept_path(f"sketch-{about.hexdigest()[:20]}.hex")
        if not os.path.exists(kept):
            sources = [file for file in of_libraries if os.path.splitext(file)[1] in SOURCES]
            made = linked(work, folder, text, own, sources, [*flags, f"-I{folder}", *libraries.words()], core_archive(key, work, say))
            keep(elf_beside(made), elf_beside(kept))
            keep(made, kept)
        else:
            made = kept
        put(made, out)
    except BuildFault as fault:
        raise BuildFault(missing_call(missing_library(str(fault), folder), libraries.small())) from None
    finally:
        shutil.rmtree(work)


def missing_call(fault, small):
    """What a fault of the compiler may come from where small versions of libraries were taken."""
    if not small or not re.search(r"has no member named|was not declared in this scope|no matching function for call|undefined reference to", fault):
        return fault
    own = " and ".join(small)
    return (f"{fault}\n{own} {'is' if len(small) == 1 else 'are'} Mudflatjar's own small version{'s' * (len(small) > 1)} (tools/wokwi/libraries), which may lack this call. "
            f"Install the library itself, and it is taken: {', '.join(install_words(LIBRARY_NAMES.get(name + '.h', name)) for name in small)}")


def linked(work, folder, text, own, of_libraries, words, core):
    """The HEX file of a sketch's text, its other files and the files of its libraries."""
    source = os.path.join(work, "sketch.ino.cpp")
    with open(source, "w", encoding="utf-8") as file:
        file.write(text)
    objects = compiled([source, *own], words, work, folder)
    archives = [core]
    if of_libraries:
        below = os.path.join(work, "libraries")
        os.mkdir(below)
        archives.insert(0, os.path.join(work, "libraries.a"))
        call(["avr-gcc-ar", "rcs", archives[0], *compiled(of_libraries, words, below)], work)
    elf, made = os.path.join(work, "sketch.elf"), os.path.join(work, "sketch.hex")
    call(["avr-gcc", "-g", "-w", "-Os", "-flto", "-fuse-linker-plugin", "-Wl,--gc-sections", "-mmcu=atmega328p", "-o", elf, *objects, *archives, "-lm"], work)
    call(["avr-objcopy", "-O", "ihex", "-R", ".eeprom", elf, made], work)
    return made


# ---- arduino-cli

def by_cli(folder, main, out, flags):
    """arduino-cli wants the main file to have its folder's name, so it gets a copy."""
    work = tempfile.mkdtemp()
    try:
        copy = os.path.join(work, "sketch")
        shutil.copytree(folder, copy, ignore=shutil.ignore_patterns("*.chip.c", "*.wasm", "build", ".git"))
        if main.endswith(".cpp"):
            open(os.path.join(copy, "sketch.ino"), "w", encoding="utf-8").close()
        else:
            os.rename(os.path.join(copy, main), os.path.join(copy, "sketch.ino"))
        words = ["arduino-cli", "compile", "--fqbn", "arduino:avr:uno", "--output-dir", os.path.join(work, "build")]
        if flags:
            words += ["--build-property", f"compiler.cpp.extra_flags={' '.join(flags)}"]
        above = os.path.dirname(folder) if os.path.basename(folder) == "src" else folder
        for place in (os.path.join(copy, "libraries"), os.path.join(above, "lib"), *platformio(above), *filter(None, os.environ.get("ARDUINO_LIBRARIES", "").split(":"))):
            if os.path.isdir(place):
                words += ["--libraries", os.path.abspath(place)]
        call([*words, copy], work)
        put(os.path.join(work, "build", "sketch.ino.hex"), out)
    except BuildFault as fault:
        if re.search(r"platform\b.*\bnot (?:installed|found)", str(fault), flags=re.I):
            raise CoreMissing(str(fault)) from None
        raise BuildFault(missing_library(str(fault), folder)) from None
    finally:
        shutil.rmtree(work)


def build(folder, main, out, say=lambda text: None, flags=()):
    """Writes the Intel HEX of the sketch whose main file is `main` in a folder. `flags` are for the compiler."""
    folder = os.path.abspath(folder)
    has_core = bool(shutil.which(tool("avr-g++"))) and os.path.isdir(f"{BASE}/cores/arduino")
    if shutil.which("arduino-cli"):
        try:
            by_cli(folder, main, os.path.abspath(out), flags)
            return
        except CoreMissing as fault:
            if not has_core:
                raise BuildFault(f"{fault}\nInstall the core: arduino-cli core install arduino:avr") from None
            say("arduino-cli has no core arduino:avr, so the core and the compiler that are installed here are taken")
    if has_core:
        by_debian(folder, main, out, say, list(flags))
    else:
        raise BuildFault("there is neither arduino-cli nor Debian's arduino-core-avr, gcc-avr and avr-libc to build the sketch with: ./mudflatjar setup sketches installs these", missing=True)
    say_sizes(elf_beside(out), say)


def say_sizes(elf, say):
    """Says what a build took, where its ELF file is there."""
    try:
        with open(elf, "rb") as file:
            say(firmware.said_of_sizes(*firmware.sizes_of_elf(file.read())))
    except (OSError, ValueError):
        pass


def main(words):
    if len(words) != 2:
        print(__doc__, file=sys.stderr)
        return 2
    source, out = words
    folder, name = (source, main_file(source)) if os.path.isdir(source) else os.path.split(os.path.abspath(source))
    try:
        if not name:
            raise BuildFault("no .ino file is there")
        build(folder, name, out, lambda text: print(f"sketch: {text}", file=sys.stderr))
    except (BuildFault, OSError) as fault:
        print(f"sketch: {fault}", file=sys.stderr)
        return 1
    return 0


if __name__ == "__main__":
    try:
        sys.exit(main(sys.argv[1:]))
    except KeyboardInterrupt:
        sys.exit(130)
