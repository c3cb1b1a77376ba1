"""Makes of a diagram as Wokwi's editor writes it one whose parts the simulator has. `types.json` says how; here is no type's name.

tools/web/page/lower.js does the same in the page, text for text; tools/web/test/test_same.py compares both."""
import json
import os
import re

from formulas import number, value_of

TABLE = os.path.join(os.path.dirname(os.path.abspath(__file__)), "types.json")
# What a made project keeps of a part, for a page: its type in the editor, the part that it is a piece of, its place in a chain.
MADE = ("as", "within", "slice")
CONTROL = "control"  # the pin of a chip of ours by which a script moves its controls
MOST_PARTS, MOST_WIRES, MOST_CHIPS, MOST_PIXELS = 64, 512, 8, 65536


def table():
    with open(TABLE, encoding="utf-8") as file:
        return json.load(file)


class Joined:
    """Sets that grow together: union-find."""

    def __init__(self):
        self.above = {}

    def find(self, it):
        self.above.setdefault(it, it)
        while self.above[it] != it:
            self.above[it] = self.above[self.above[it]]
            it = self.above[it]
        return it

    def join(self, one, other):
        self.above[self.find(other)] = self.find(one)


def shape_fault(diagram):
    """What keeps a value from being a diagram, or nothing."""
    if not isinstance(diagram, dict) or diagram.get("version") != 1:
        return "it is no object with version 1"
    for name in ("parts", "connections"):
        if not isinstance(diagram.get(name), list):
            return f"it has no array `{name}`"
    for place, part in enumerate(diagram["parts"], 1):
        if not (isinstance(part, dict) and isinstance(part.get("type"), str) and isinstance(part.get("id"), str)):
            return f"part {place} lacks its texts `type` and `id`"
        if not isinstance(part.get("attrs", {}), dict):
            return f"the attrs of part {place} are no object"
    for place, wire in enumerate(diagram["connections"], 1):
        if not (isinstance(wire, list) and len(wire) >= 2 and all(isinstance(end, str) and ":" in end for end in wire[:2])):
            return f"connection {place} lacks two ends part:pin"
    return None


def attrs_of(part):
    """The attributes of a part that are texts or numbers, as texts."""
    return {key: str(value) for key, value in part.get("attrs", {}).items() if isinstance(value, (str, int, float)) and not isinstance(value, bool)}


class Lowering:
    """One diagram on its way. `notes` are what a reader should know, `faults` what could not be done."""

    def __init__(self, diagram, chip_pins, types=None):
        self.types = types or table()
        self.diagram = diagram
        self.chip_pins = chip_pins  # of each chip of the project, by name: its pins
        self.notes, self.faults = [], []
        self.parts, self.wires = [], []
        self.own_chips = {}  # name in the new diagram: name of the file in chips/, size of its display, its pins where they are others
        self.ends = {}  # (part, pin): the ends that are that pin now
        self.pins = {}  # part: its pins, or None where any name is one
        self.strips = {}  # part: its columns and the length of its rails
        self.reshaped = set()  # parts that are drawn as others, with their pins elsewhere
        self.whole = {}  # parts that are drawn as the editor draws them, whatever they have become: the ids that they have then
        self.is_other = False  # whether a wire is drawn to a pin that the new diagram has no more
        self.controls = {}  # of parts that a hand moves by more than a script of the program has: their type, attributes and pieces
        self.scenery = []  # what the editor drew and the new diagram has no part for
        self.drawn = []  # the editor's wires, as a page draws them
        self.inner = []  # wires between the parts that one part has become
        self.unseen = []  # those to hidden ones, by which a script moves a chip's controls
        self.level = {}  # of each net, one end that is on it
        self.is_board = True  # whether what is left is one that the simulator takes
        self.nets = Joined()
        self.ids = {part["id"] for part in diagram["parts"]}
        self.firsts = list({part["id"]: part for part in reversed(diagram["parts"])}.values())[::-1]  # without second parts of an id
        self.heads = {}  # of each first part of a chain, the id in the new diagram
        self.begin()
        self.wires.extend(self.inner + self.unseen)
        self.connect()

    # ---- parts

    def chains(self):
        """{id: [(id, pixels), ..]}: the parts that pass on the same bits, from each that begins a chain of two or more. They
        become one chip, as if it were a strip."""
        sizes, after = {}, {}
        for part in self.firsts:
            rule = self.types["lowered"].get(part["type"], {})
            if rule.get("chained"):
                try:
                    sizes[part["id"]] = {side: int(value_of(how, attrs_of(part))) for side, how in rule["display"].items()}
                except ValueError:
                    return {}
        wires = [wire[:2] for wire in self.diagram["connections"]]
        ends = [end for wire in wires for end in wire]
        for wire in wires:
            for one, other in (wire, wire[::-1]):
                is_link = one.endswith(":DOUT") and other.endswith(":DIN") and one[:-5] in sizes and other[:-4] in sizes
                if is_link and ends.count(one) == 1 and ends.count(other) == 1:
                    after[one[:-5]] = other[:-4]
        found = {}
        for head in sizes:
            if head in after and head not in after.values():
                chain = [head]
                while after.get(chain[-1]) in sizes and after[chain[-1]] not in chain:
                    chain.append(after[chain[-1]])
                found[head] = [(name, sizes[name]["width"] * sizes[name]["height"]) for name in chain]
        return found

    def viewers(self, links):
        """The ids of parts that only show, of which the board has no room for a chip: a page shows them by the levels of their wires."""
        rules = [(part["id"], self.types["lowered"].get(part["type"], {})) for part in self.firsts if part["id"] not in links]
        alone = {name for name, rule in rules if "page alone" in rule}
        chips = sum(sum("hidden" not in piece for piece in rule.get("as") or [{}]) for name, rule in rules if "chip" in rule and name not in alone) + sum(part["type"].startswith("chip-") for part in self.firsts)
        ends = {end for wire in self.diagram["connections"] for end in wire[:2]}
        free = [name for name, rule in rules if rule.get("only shows") and name not in alone and f"{name}:DOUT" not in ends]
        return alone | (set(free[-max(chips - MOST_CHIPS, 0):]) if chips > MOST_CHIPS else set())

    def begin(self):
        seen, chains = set(), self.chains()
        links = {name: head for head, chain in chains.items() for name, _ in chain[1:]}
        viewers = self.viewers(links)
        self.heads = {name: self.new_id(name, old=name) for name in chains}
        for part in self.diagram["parts"]:
            kind, name = part["type"], part["id"]
            attrs = attrs_of(part)
            if name in seen:
                self.faults.append(f"{name}: a second part has this id")
                continue
            seen.add(name)
            rule = self.types["lowered"].get(kind)
            if rule and "cases" in rule:
                case = attrs.get(rule["by"]) or rule["default"]
                if case not in rule["cases"]:
                    self.faults.append(f"{name} ({kind}): {rule['by']} is {case!r}, and not one of {', '.join(rule['cases'])}")
                    continue
                rule = dict(rule, **{"as": rule["cases"][case]})
            if name in links:
                self.link(part, attrs, rule, chains[links[name]], links[name])
                continue
            if name in chains:
                rule = dict(rule, display={"width": str(sum(count for _, count in chains[name])), "height": "1"}, slice={"of": self.heads[name], "from": 0, "count": chains[name][0][1]})
            if name in viewers:
                self.view(part, attrs, rule)
            elif rule and rule["as"] is not None:
                self.replace(part, attrs, rule)
            elif kind in self.types["simulated"]:
                self.keep(part, attrs, self.types["simulated"][kind])
            elif kind in self.types["breadboards"]:
                self.strips[name] = self.types["breadboards"][kind]
                self.scenery.append(dict(self.placed(part, kind, name), **self.strips[name]))
            elif kind in self.types["left out"]:
                self.leave_out(name, kind)
                self.scenery.append(dict(self.placed(part, kind, name), **({"as": kind} if self.types["left out"][kind].get("drawn as itself") else {})))
                self.control(part, kind, attrs, self.types["left out"][kind], {})
            elif kind.startswith("chip-"):
                self.keep_chip(part, attrs)
            else:
                why = self.types["not there"].get(kind, "is no type that is known here")
                self.faults.append(f"{name} ({kind}): {why}")

    def new_id(self, name, old=None):
        """`name` with what an id may not have changed, and other than all ids but `old`."""
        base = made = re.sub(r"[^A-Za-z0-9_-]", "_", name)[:64] or "part"
        count = 1
        while made != old and made in self.ids:
            count += 1
            made = f"{base[:60]}-{count}"
        self.ids.add(made)
        return made

    def placed(self, part, kind, name):
        """A part of a kind and a name where the old one is."""
        return {"type": kind, "id": name, **{key: part[key] for key in ("top", "left", "rotate", "hide", *MADE) if key in part}}

    def place(self, part, kind, name, attrs):
        self.parts.append(dict(self.placed(part, kind, name), attrs=attrs))

    def keep(self, part, attrs, rule):
        name, kind = part["id"], part["type"]
        kept = self.new_id(name, old=name)
        if kept != name:
            self.notes.append(f"{name} is called {kept}: an id has letters, digits, _ and - alone")
        pins = rule["pins"]
        if "pins if" in rule and attrs.get(rule["pins if"]["attribute"]) == rule["pins if"]["is"]:
            pins = rule["pins if"]["pins"]
        self.pins[name] = set(pins) | set(rule.get("other names", {}))
        for pin in self.pins[name]:
            self.ends[name, pin] = [f"{kept}:{rule.get('other names', {}).get(pin, pin)}"]
        self.place(part, kind, kept, self.fitting(name, attrs, rule))

    def fitting(self, name, attrs, rule):
        """The attributes that the simulator reads, in its form."""
        fitted = dict(attrs)
        for key in [*rule.get("numbers", {}), *rule.get("words", {}), *rule.get("addresses", [])]:
            if fitted.get(key) == "":
                del fitted[key]
        for key, most in rule.get("numbers", {}).items():
            try:
                if key in fitted:
                    value = number(fitted[key])
                    fitted[key] = str(round(value))
                    if not 0 <= value <= most:
                        raise ValueError(f"is not within 0 and {most}")
            except ValueError as fault:
                self.faults.append(f"{name}: {key} {attrs[key]!r} {fault}")
        for key, words in rule.get("words", {}).items():
            if key in fitted and fitted[key] not in words:
                self.faults.append(f"{name}: {key} {attrs[key]!r} is none of {', '.join(words)}")
        for key in rule.get("addresses", []):
            if key in fitted and not re.fullmatch(r"0x[0-9a-fA-F]{1,2}|[0-9]{1,5}", fitted[key]):
                self.faults.append(f"{name}: {key} {attrs[key]!r} is no address")
        return fitted

    def control(self, part, kind, attrs, rule, ids):
        """Keeps of a part with controls what tools/wokwi/moves.py needs: its type, its attributes and the ids of its pieces."""
        if "controls" in rule:
            self.controls[part["id"]] = {"type": kind, "attrs": attrs, "ids": ids}

    def leave_out(self, name, kind):
        rule = self.types["left out"][kind]
        self.pins[name] = None
        self.reshaped.add(name)
        self.notes.append(f"{name} ({kind}) {rule['why']}" + ("" if "controls" in rule else ", and is left out; its wires stay"))
        for group in rule.get("joined", []):
            for pin in group[1:]:
                self.nets.join((name, group[0]), (name, pin))

    def link(self, part, attrs, rule, chain, head):
        """A part of a chain, which the chip of its first part shows."""
        name = part["id"]
        place = [it for it, _ in chain].index(name)
        self.pins[name] = None
        if place == len(chain) - 1:
            self.ends[name, "DOUT"] = [f"{self.heads[head]}:DOUT"]
        kept = {key: attrs[key] for key in rule["as"][0].get("keep", []) if key in attrs}
        self.scenery.append(dict(self.placed(part, part["type"], name), attrs=kept, **{"as": part["type"], "slice": {"of": self.heads[head], "from": sum(count for _, count in chain[:place]), "count": chain[place][1]}}))
        self.notes.append(f"{name} ({part['type']}) is shown by the chip of {head}, which is before it in the chain")

    def view(self, part, attrs, rule):
        """A part that only shows, and is no part of the board: a page plays its chip on the levels of its wires."""
        name, piece = part["id"], rule["as"][0]
        self.pins[name] = None
        self.scenery.append(dict(self.placed(part, self.piece_type(part, piece, rule, attrs), name), attrs=self.given_to(part, piece, attrs), **{"as": part["type"]}))
        why = rule.get("page alone", f"a board has room for {MOST_CHIPS} chips")
        self.notes.append(f"{name} ({part['type']}) is shown by the page alone: {why}")

    def keep_chip(self, part, attrs):
        chip = part["type"][len("chip-"):]
        if chip not in self.chip_pins:
            self.faults.append(f"{part['id']} ({part['type']}): the folder has no chip {chip}: neither {chip}.chip.wasm nor {chip}.chip.c")
            return
        pins = self.chip_pins[chip]
        name = part["id"]
        kept = self.new_id(name, old=name)
        self.pins[name] = set(pins)
        for pin in pins:
            self.ends[name, pin] = [f"{kept}:{pin}"]
        self.place(part, part["type"], kept, attrs)

    def replace(self, part, attrs, rule):
        name, kind = part["id"], part["type"]
        is_one = rule.get("drawn as one")
        if is_one is None and not rule.get("drawn as itself"):
            self.reshaped.add(name)
        if is_one is not None:
            self.whole[name] = name
            kept = {key: attrs[key] for key in is_one if key in attrs}
            self.scenery.append(dict(self.placed(part, kind, name), attrs=kept, **{"as": kind}))
        self.pins[name] = set(rule.get("other pins", []))  # those that nothing here is on
        names = {}
        for piece in rule["as"]:
            made = names[piece["id"]] = self.heads.get(name) or self.new_id(name + piece["id"], old=name if piece["id"] == "" else None)
            given = self.given_to(part, piece, attrs)
            if piece["type"] in self.types["simulated"]:
                given = self.fitting(name, given, self.types["simulated"][piece["type"]])
            for pin, new in piece["pins"].items():
                self.pins[name].add(pin)
                self.ends.setdefault((name, pin), []).append(f"{made}:{new}")
            self.place(part, self.piece_type(part, piece, rule, attrs), made, given)
            if "hidden" in piece:
                self.parts[-1] |= {"within": name, "hide": True}
                continue
            if rule.get("drawn as itself"):
                self.parts[-1]["as"] = kind
                self.whole[name] = made
            if is_one is not None:
                self.parts[-1]["within"] = name
            if "slice" in rule:
                self.parts[-1]["slice"] = rule["slice"]
                self.ends.pop((name, "DOUT"))
        for one, other in rule.get("wires", []):
            both = [names[end.split(":")[0]] + ":" + end.split(":")[1] for end in (one, other)]
            (self.unseen if "controls" in rule else self.inner).append([*both, "", []])
        self.control(part, kind, attrs, rule, names)
        pieces = ", ".join(f"{names[piece['id']]} ({piece['type']})" for piece in rule["as"] if "hidden" not in piece)
        if rule["as"][0]["type"] != kind or "says" in rule:
            self.notes.append(f"{name} ({kind}) is {pieces}" + (f": it {rule['says']}" if "says" in rule else ""))

    def given_to(self, part, piece, attrs):
        """The attributes of a piece, from those of its part."""
        given = {key: attrs[key] for key in piece.get("keep", []) if key in attrs}
        for key, how in piece.get("attrs", {}).items():
            try:
                given[key] = value_of(how, attrs)
            except (ValueError, ArithmeticError) as fault:
                why = "is beyond what can be calculated" if isinstance(fault, ArithmeticError) else fault
                self.faults.append(f"{part['id']} ({part['type']}): {how['from']} {attrs.get(how['from'])!r} {why}")
        return given

    def piece_type(self, part, piece, rule, attrs):
        """The type of a piece; a chip of ours gets a name that no chip of the project has, with the size of its display where the
        part says that."""
        if "chip" not in rule or not piece["type"].startswith("chip-"):
            return piece["type"]
        made, size = rule["chip"], {}
        if "display" in rule:
            try:
                size = {side: int(value_of(how, attrs)) for side, how in rule["display"].items()}
                if not (1 <= min(size.values()) and (size["width"] * size["height"] <= MOST_PIXELS or "page alone" in rule)):
                    raise ValueError(f"a display has 1 to {MOST_PIXELS} pixels")
            except ValueError as fault:
                self.faults.append(f"{part['id']} ({part['type']}): its display: {fault}")
                size = {"width": 1, "height": 1}
            made += f"-{size['width']}x{size['height']}"
        pins = [*dict.fromkeys(piece["pins"].values()), *([CONTROL] if any("hidden" in it for it in rule["as"]) else [])]
        own = (rule["chip"], size, pins if rule.get("drawn as itself") else None)
        while made in self.chip_pins or self.own_chips.get(made, own) != own:
            made += "-"
        self.own_chips[made] = own
        return f"chip-{made}"

    # ---- wires

    def hole(self, name, pin):
        """The strip of a breadboard that a hole is on, or None where there is no such hole."""
        size = self.strips[name]
        column = re.fullmatch(r"([1-9][0-9]?)(t\.[a-e]|b\.[f-j])", pin)
        if column and int(column[1]) <= size["columns"]:
            return column[1] + column[2][0]
        rail = re.fullmatch(r"([tb][pn])\.([1-9][0-9]?)", pin)
        if rail and int(rail[2]) <= size["rail"]:
            return rail[1]
        return None

    def node(self, place, end):
        """What an end of a wire is on, or None after a fault."""
        name, _, pin = end.partition(":")
        if name in self.strips:
            strip = self.hole(name, pin)
            if strip is None:
                self.faults.append(f"connection {place}: {name} has no hole {pin}")
                return None
            return name, strip
        if name not in self.pins:
            if all(part["id"] != name for part in self.diagram["parts"]):
                self.faults.append(f"connection {place}: there is no part {name}")
            return None  # of a part that is a fault itself nothing more is said
        if self.pins[name] is not None and pin not in self.pins[name]:
            its = ", ".join(sorted(self.pins[name], key=lambda it: (len(it), it)))
            self.faults.append(f"connection {place}: {name} has no pin {pin}" + (f"; it has {its}" if 0 < len(self.pins[name]) <= 16 else ""))
            return None
        return name, pin

    def connect(self):
        groups, order, colours = Joined(), [], {}
        for place, wire in enumerate(self.diagram["connections"], 1):
            if any(end.startswith("$") for end in wire[:2]):
                continue
            both = [self.node(place, end) for end in wire[:2]]
            if None in both:
                continue
            order.extend(both)
            ends = [self.ends.get(node, []) for node in both]
            if [len(it) for it in ends] == [1, 1]:
                self.wires.append([ends[0][0], ends[1][0], *self.drawing_of(wire, both)])
                groups.join(ends[0][0], ends[1][0])
            self.draw(wire, both)
            self.nets.join(*both)
            colour = wire[2] if len(wire) > 2 and isinstance(wire[2], str) else ""
            colours.setdefault(both[0], colour)
            colours.setdefault(both[1], colour)
        self.draw_pieces(dict.fromkeys(order), colours)
        nets = {}
        for node in dict.fromkeys(order):
            nets.setdefault(self.nets.find(node), []).append(node)
        for net, nodes in nets.items():
            first = None
            colour = next((colours[node] for node in nodes if colours[node]), "")
            for end in (end for node in nodes for end in self.ends.get(node, [])):
                if first is None:
                    first = self.level[net] = end
                elif groups.find(first) != groups.find(end):
                    self.wires.append([first, end, colour, []])
                    groups.join(first, end)

    # ---- the drawing

    def drawing_of(self, wire, both):
        """A wire's colour and steps; those of a wire to a part that is drawn as another lead past its pins."""
        return [*wire[2:3], []] if len(wire) > 3 and self.reshaped & {node[0] for node in both} else wire[2:]

    def draw(self, wire, both):
        """Keeps how the editor drew a wire. An end in a hole, or on a part that is left out, stays what it is."""
        stays = lambda node: node[0] in self.strips or self.pins[node[0]] is None
        whole = lambda node: [f"{self.whole[node[0]]}:{node[1]}"] if node[0] in self.whole else None
        ends = [[end] if stays(node) else whole(node) or self.ends.get(node, []) for node, end in zip(both, wire[:2])]
        self.is_other |= any(node[0] in self.whole and whole(node) != self.ends.get(node) for node in both)
        if all(ends):
            is_plugged = len(wire) > 3 and wire[3] == ["$bb"]
            colour, steps = [*(wire[2:] if is_plugged else self.drawing_of(wire, both)), "", []][:2]
            self.drawn.append((ends[0][0], ends[1][0], colour, steps, both[0]))

    def draw_pieces(self, nodes, colours):
        """The wires between the parts that one part has become."""
        for node in nodes:
            if node[0] in self.whole:
                continue
            first, *others = self.ends.get(node, [""])
            self.drawn.extend((first, other, colours[node], [], node) for other in others)

    def drawing(self):
        """What a page draws in place of the new diagram's wires: what is no part of it, and the editor's wires, each with the
        pin whose level it has, or "" where there is none."""
        level = lambda node: self.level.get(self.nets.find(node), "").replace(":", ".", 1)
        wires = [[one, other, colour, steps, level(node)] for one, other, colour, steps, node in self.drawn]
        wires += [[*wire, wire[0].replace(":", ".", 1)] for wire in self.inner]
        return {"of": mark_of(self.wires), "parts": self.scenery, "connections": wires}

    # ---- the outcome

    def refuse_board(self, fault):
        self.faults.append(fault)
        self.is_board = False

    def outcome(self):
        """The new diagram; what breaks a rule of a whole board is among the faults."""
        kinds = [part["type"] for part in self.parts]
        unos = kinds.count("wokwi-arduino-uno")
        if unos != 1:
            self.refuse_board("there is no Arduino Uno" if not unos else "there is more than one Arduino Uno")
        chips = sum(kind.startswith("chip-") for kind in kinds)
        for count, most, what in ((len(kinds), MOST_PARTS, "parts"), (len(self.wires), MOST_WIRES, "connections"), (chips, MOST_CHIPS, "parts that are chips")):
            if count > most:
                ours = ", ".join(part["id"] for part in self.parts if part["type"][len("chip-"):] in self.own_chips) if what == "parts that are chips" else ""
                self.refuse_board(f"there are {count} {what}, and {most} is the most" + (f"; chips in place of Wokwi's parts are {ours}" if ours else ""))
        made = {"version": 1, "author": self.diagram.get("author", ""), "editor": "wokwi", "parts": self.parts, "connections": self.wires, "dependencies": {}}
        drawn = self.drawing() if self.scenery or self.is_other else self.diagram.get("drawn")
        controls = self.controls or self.diagram.get("controls")
        return made | ({"controls": controls} if controls else {}) | ({"drawn": drawn} if drawn else {})


def mark_of(connections):
    """A number that tells whether a diagram still has the wires that a drawing was made with: FNV-1a, 32 bits."""
    mark = 0x811C9DC5
    for byte in "\n".join(f"{wire[0]} {wire[1]}" for wire in connections).encode("utf-8", "replace"):
        mark = (mark ^ byte) * 0x01000193 & 0xFFFFFFFF
    return mark


def needs_lowering(diagram, types=None):
    """Whether the simulator lacks a type of the diagram, or an attribute's form."""
    types = types or table()
    for part in diagram["parts"]:
        rule = types["lowered"].get(part["type"])
        attrs = part.get("attrs", {})
        if rule and not ("cases" in rule and rule["cases"].get(str(attrs.get(rule["by"]) or rule["default"]), 0) is None):
            return True
        simulated = types["simulated"].get(part["type"])
        if simulated is None and not part["type"].startswith("chip-"):
            return True
        numbers = [attrs[key] for key in (simulated or {}).get("numbers", {}) if key in attrs]
        if not all(re.fullmatch("[0-9]+", str(number)) for number in numbers) or not re.fullmatch("[A-Za-z0-9_-]{1,64}", part["id"]):
            return True
    return False


def text_of(diagram):
    """A diagram as the editor lays it out: a part and a wire a line."""
    line = lambda value: json.dumps(value, ensure_ascii=False).encode("utf-8", "replace").decode("utf-8")  # half a pair is no text
    rows = ["{", '  "version": 1,', f'  "author": {line(diagram["author"])},', '  "editor": "wokwi",']
    for name in ("parts", "connections"):
        rows.append(f'  "{name}": [')
        rows.extend(f"    {line(it)}," for it in diagram[name])
        rows[-1] = rows[-1].rstrip(",") if diagram[name] else rows[-1]
        rows.append("  ],")
    rows.extend(f'  "{name}": {line(diagram[name])},' for name in ("controls", "drawn") if name in diagram)
    return "\n".join([*rows, '  "dependencies": {}', "}"]) + "\n"
