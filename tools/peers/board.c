/* A second reading of docs/PARTS.md, docs/WAVE.md and the data sheets of the 74HC series, the HD44780U and the SSD1306, apart from the
   definitions and the code of this repository: a board of parts around an Uno whose pins are told. It goes cycle by cycle: all nets are
   resolved from what all pins drive, then all parts act on these levels. Prints the wave in the form of `run`.
   Words: the diagram, how many cycles, then `script=FILE`, `uno=FILE` with a wave of uno.c whose values the Uno's pins
   drive, `input=PIN` for one that it only reads, `weak=PIN` for one whose 1 is a pull-up, and `report=FILE`, where the
   lines of the report go that are not the Uno's. With -DBOARD it is linked with uno.c, whose core then stands on the board:
   `firmware=FILE` and `serial=FILE` are its HEX file and where its bytes go, and the report is whole.
   cc -O2 -o board board.c; cc -O2 -DBOARD -o uno-board uno.c board.c */
#include <stdio.h>
#include <stdlib.h>
#include <string.h>

enum { PARTS = 64, PINS = 32, NETS = PARTS * PINS };
enum { NONE, ZERO, ONE, BOTH }; /* a set of values */
enum strength { NO, WEAK, STRONG };

struct window { int first, last, at; };
struct oled {
    int cells[8][128], mode, all_lit, inverted, control; /* the control byte of this write, -1 where one is next */
    int waits, wanted, given, parameter[6];              /* a command and its parameters */
    struct window column, page;
};
struct part {
    char type[40], id[70];
    int value, count, first;
    const char *pins[PINS];
    int strength[PINS], drives[PINS]; /* what each pin drives: none, weak or strong; 0 or 1 */
    int before[PINS], now[PINS];      /* what stands on its nets: a set of values */
    int stages, storage, lit, rises;
    int cathode, text[128], address, down, on, halves, high, lost; /* a digit; a display and what it was told */
    int by_bus, bus_address, hears, bits, byte, expander;          /* a part on a bus of two wires */
    struct oled oled;
};
static struct part parts[PARTS];
static int part_count;
static int net_of[NETS], pin_count;
static struct link { int a, b, part, bit; } links[NETS]; /* part -1: a resistor; else a contact */
static int link_count;

static void fail(const char *what) { fprintf(stderr, "board: %s\n", what); exit(2); }

/* ---- the diagram ---- */
static char *text;
static void blanks(void) { while (*text && strchr(" \t\r\n,:", *text)) text++; }
static void quoted(char *into, int room) {
    blanks();
    if (*text++ != '"') fail("a text is wanted");
    while (*text != '"') { if (room-- > 1) *into++ = *text; text++; }
    *into = 0, text++;
}
static void skip(void) { /* any value */
    char word[512];
    blanks();
    if (*text == '"') { quoted(word, sizeof word); return; }
    if (*text == '{' || *text == '[') {
        char end = *text == '{' ? '}' : ']';
        for (text++, blanks(); *text != end; blanks()) skip();
        text++;
        return;
    }
    while (*text && !strchr(",]} \n", *text)) text++;
}
static const struct { const char *type, *pins; } kinds[] = {
    {"wokwi-arduino-uno", "0 1 2 3 4 5 6 7 8 9 10 11 12 13 A0 A1 A2 A3 A4 A5 A4.2 A5.2 GND.1 GND.2 GND.3 5V 3.3V VIN IOREF AREF RESET"},
    {"wokwi-led", "A C"}, {"wokwi-resistor", "1 2"}, {"wokwi-junction", "J"}, {"wokwi-vcc", "VCC"}, {"wokwi-gnd", "GND"},
    {"wokwi-pushbutton", "1.l 1.r 2.l 2.r"}, {"wokwi-slide-switch", "1 2 3"}, {"wokwi-potentiometer", "GND SIG VCC"},
    {"wokwi-dip-switch-8", "1a 2a 3a 4a 5a 6a 7a 8a 1b 2b 3b 4b 5b 6b 7b 8b"},
    {"wokwi-gate-not", "IN OUT"}, {"wokwi-gate-buffer", "IN OUT"}, {"wokwi-gate-and-2", "A B OUT"}, {"wokwi-gate-or-2", "A B OUT"},
    {"wokwi-gate-nand-2", "A B OUT"}, {"wokwi-gate-nor-2", "A B OUT"}, {"wokwi-gate-xor-2", "A B OUT"}, {"wokwi-gate-xnor-2", "A B OUT"},
    {"wokwi-74hc595", "DS SHCP STCP MR OE Q0 Q1 Q2 Q3 Q4 Q5 Q6 Q7 Q7S GND VCC"},
    {"wokwi-7segment", "A B C D E F G DP COM COM.1 COM.2"}, {"wokwi-lcd1602", "VSS VDD V0 RS RW E D0 D1 D2 D3 D4 D5 D6 D7 A K"},
    {"wokwi-lcd1602 by I2C", "GND VCC SDA SCL"}, {"board-ssd1306", "GND VCC SCL SDA"}, {"wokwi-membrane-keypad", "R1 R2 R3 R4 C1 C2 C3 C4"},
    {"board-source", "OUT"},
};
static int pin(struct part *p, const char *name) {
    for (int i = 0; i < p->count; i++) if (!strcmp(p->pins[i], name)) return p->first + i;
    fail(name);
    return 0;
}
static struct part *named(const char *id) {
    for (int i = 0; i < part_count; i++) if (!strcmp(parts[i].id, id)) return &parts[i];
    fail(id);
    return 0;
}
static int is(struct part *p, const char *type) { return !strcmp(p->type + strlen("wokwi-"), type); }
static void put_part(void) {
    struct part *p = &parts[part_count++];
    char key[80], value[80];
    p->bus_address = p->value = -1;
    for (blanks(), text++, blanks(); *text != '}'; blanks()) {
        quoted(key, sizeof key);
        if (!strcmp(key, "type")) quoted(p->type, sizeof p->type);
        else if (!strcmp(key, "id")) quoted(p->id, sizeof p->id);
        else if (!strcmp(key, "attrs")) {
            for (blanks(), text++, blanks(); *text != '}'; blanks()) {
                quoted(key, sizeof key), quoted(value, sizeof value);
                if (!strcmp(key, "value")) p->value = atoi(value);
                if (!strcmp(key, "common")) p->cathode = !strcmp(value, "cathode");
                if (!strcmp(key, "pins")) p->by_bus = !strcmp(value, "i2c");
                if (!strcmp(key, "i2cAddress")) p->bus_address = strtol(value, 0, strncmp(value, "0x", 2) ? 10 : 16);
            }
            text++;
        } else skip();
    }
    text++;
    p->first = pin_count;
    if (p->value < 0 || is(p, "resistor")) p->value = is(p, "source") ? 2 : 0;
    if (is(p, "lcd1602") && p->by_bus) strcat(p->type, " by I2C");
    if (p->bus_address < 0) p->bus_address = is(p, "ssd1306") ? 0x3C : 0x27;
    for (unsigned k = 0; k < sizeof kinds / sizeof *kinds; k++) {
        if (strcmp(kinds[k].type, p->type)) continue;
        char *names = strdup(kinds[k].pins);
        for (char *name = strtok(names, " "); name; name = strtok(0, " ")) p->pins[p->count++] = name;
    }
    if (!p->count) fail(p->type);
    for (int i = 0; i < p->count; i++) net_of[pin_count] = pin_count, pin_count++;
}
static void join(int a, int b) { /* all pins of one net become pins of the other */
    int from = net_of[b], to = net_of[a];
    for (int i = 0; i < pin_count; i++) if (net_of[i] == from) net_of[i] = to;
}
static int end_of(char *end) {
    char *colon = strchr(end, ':');
    if (!colon) fail(end);
    *colon = 0;
    return pin(named(end), colon + 1);
}
static void contact(int part, const char *a, const char *b, int bit) {
    links[link_count++] = (struct link){pin(&parts[part], a), pin(&parts[part], b), part, bit};
}
static void read_diagram(const char *name) {
    FILE *f = fopen(name, "r");
    if (!f) fail(name);
    static char all[1 << 20];
    all[fread(all, 1, sizeof all - 1, f)] = 0;
    fclose(f);
    char key[80], a[160], b[160];
    text = all;
    for (blanks(), text++, blanks(); *text != '}'; blanks()) {
        quoted(key, sizeof key), blanks();
        if (!strcmp(key, "parts")) {
            for (text++, blanks(); *text != ']'; blanks()) put_part();
            text++;
            for (int i = 0; i < part_count; i++) {
                struct part *p = &parts[i];
                if (is(p, "arduino-uno")) join(pin(p, "A4"), pin(p, "A4.2")), join(pin(p, "A5"), pin(p, "A5.2"));
                if (is(p, "pushbutton")) join(pin(p, "1.l"), pin(p, "1.r")), join(pin(p, "2.l"), pin(p, "2.r")), contact(i, "1.l", "2.l", 1);
                if (is(p, "slide-switch")) contact(i, "1", "2", 0), contact(i, "2", "3", 1);
                for (int k = 0; k < 8 && is(p, "dip-switch-8"); k++) links[link_count++] = (struct link){p->first + k, p->first + k + 8, i, k};
                for (int k = 0; k < 16 && is(p, "membrane-keypad"); k++) links[link_count++] = (struct link){p->first + k / 4, p->first + 4 + k % 4, i, k};
                if (is(p, "7segment")) join(pin(p, "COM"), pin(p, "COM.1")), join(pin(p, "COM"), pin(p, "COM.2"));
                if (is(p, "resistor")) links[link_count++] = (struct link){p->first, p->first + 1, -1, 0};
            }
        } else if (!strcmp(key, "connections")) {
            for (text++, blanks(); *text != ']'; blanks()) {
                text++;
                quoted(a, sizeof a), quoted(b, sizeof b);
                for (blanks(); *text != ']'; blanks()) skip();
                text++;
                join(end_of(a), end_of(b));
            }
            text++;
        } else skip();
    }
}

/* ---- nets ---- */
static int strong[NETS], weak[NETS], level[NETS];
static int closed(struct link *l) {
    if (l->part < 0) return 0;
    struct part *p = &parts[l->part];
    return is(p, "dip-switch-8") || is(p, "membrane-keypad") ? p->value >> l->bit & 1 : p->value == l->bit;
}
static int roots[NETS], root_count;
static char linked[NETS]; /* the nets that a contact or a resistor ends at */
static void find_nets(void) {
    for (int k = 0; k < link_count; k++) linked[net_of[links[k].a]] = linked[net_of[links[k].b]] = 1;
    for (int n = 0; n < pin_count; n++) if (net_of[n] == n) roots[root_count++] = n;
}
/* the nets that are reached from a net: over closed contacts alone, or over resistors too, and then on from nets without a
   strong value alone */
static void reach(int net, int resistors, char *seen) {
    int grew = linked[net];
    memset(seen, 0, pin_count);
    seen[net] = 1;
    while (grew) {
        grew = 0;
        for (int k = 0; k < link_count; k++) {
            int a = net_of[links[k].a], b = net_of[links[k].b];
            if (!closed(&links[k]) && !(resistors && links[k].part < 0)) continue;
            if (seen[a] && !seen[b] && !(resistors && strong[a])) seen[b] = 1, grew = 1;
            if (seen[b] && !seen[a] && !(resistors && strong[b])) seen[a] = 1, grew = 1;
        }
    }
}
static void resolve(void) {
    static int own[NETS];
    static char seen[NETS];
    memset(own, 0, sizeof own), memset(weak, 0, sizeof weak);
    for (int i = 0; i < part_count; i++)
        for (int k = 0; k < parts[i].count; k++) {
            struct part *p = &parts[i];
            int net = net_of[p->first + k], value = p->drives[k] ? ONE : ZERO;
            if (p->strength[k] == STRONG) own[net] |= value;
            if (p->strength[k] == WEAK) weak[net] |= value;
        }
    for (int i = 0; i < root_count; i++) {
        int n = roots[i];
        strong[n] = own[n];
        if (!linked[n]) continue;
        reach(n, 0, seen);
        for (int m = 0; m < pin_count; m++) if (seen[m]) strong[n] |= own[m];
    }
    for (int i = 0; i < root_count; i++) {
        int n = roots[i];
        level[n] = strong[n] ? strong[n] : weak[n];
        if (strong[n] || !linked[n]) continue;
        reach(n, 1, seen);
        for (int m = 0; m < pin_count; m++) if (seen[m]) level[n] |= strong[m] ? strong[m] : weak[m];
    }
}

/* ---- parts ---- */
static int busy; /* something was given, driven anew or had another level: else a cycle is as the one before */
static void drive(struct part *p, int i, int strength, int value) {
    busy |= p->strength[i] != strength || p->drives[i] != value;
    p->strength[i] = strength, p->drives[i] = value;
}
static void set(struct part *p, const char *name, int strength, int value) { drive(p, pin(p, name) - p->first, strength, value); }
static int one(struct part *p, const char *name) { return p->now[pin(p, name) - p->first] == ONE; }
static int low(struct part *p, const char *name) { return p->now[pin(p, name) - p->first] == ZERO; }
static int rises(struct part *p, const char *name) { return one(p, name) && p->before[pin(p, name) - p->first] != ONE; }
static int falls(struct part *p, const char *name) { return !one(p, name) && p->before[pin(p, name) - p->first] == ONE; }
/* the 80 places of a display in their order, and back: those of the second line begin at 0x40 */
static int place(int address) {
    if (address < 0x40) return address < 0x28 ? address : 0x27;
    return address < 0x68 ? address - 0x18 : 0x4F;
}
static void move(struct part *p, int down) {
    int next = (place(p->address) + (down ? 79 : 1)) % 80;
    p->address = next < 0x28 ? next : next + 0x18;
}
static void put(struct part *p, int byte) {
    if (p->lost) return;
    if (p->address % 0x40 < 0x28) p->text[p->address] = byte;
    move(p, p->down);
}
static void order(struct part *p, int byte) {
    int from = 7;
    while (from >= 0 && !(byte >> from & 1)) from--;
    if (from == 7) p->address = byte & 0x7F;
    if (from == 6) p->lost = 1;
    if (from == 5) p->halves = !(byte & 0x10), p->high = -1;
    if (from == 4 && !(byte & 8)) move(p, !(byte & 4));
    if (from == 3) p->on = byte >> 2 & 1;
    if (from == 2) p->down = !(byte & 2);
    if (from == 0) for (int k = 0; k < 128; k++) p->text[k] = ' ';
    if (from == 0) p->down = 0;
    if (from == 0 || from == 1) p->address = 0;
    if (from == 0 || from == 1 || from == 7) p->lost = 0;
}
static void take(struct part *p) {
    char name[3] = "D0";
    int byte = 0;
    for (int k = 0; k < 8; k++) name[1] = '0' + k, byte |= one(p, name) << k;
    if (p->halves && p->high < 0) { p->high = byte & 0xF0; return; }
    if (p->halves) byte = p->high | byte >> 4, p->high = -1;
    if (one(p, "RS")) put(p, byte); else order(p, byte);
}
static void by_expander(struct part *p, int byte) { /* RS, RW and E in bits 0 to 2, D4 to D7 above */
    int fell = p->expander & 4 && !(byte & 4), high = byte & 0xF0;
    p->expander = byte;
    if (!fell || byte & 2) return;
    if (p->halves && p->high < 0) { p->high = high; return; }
    if (p->halves) high = p->high | high >> 4, p->high = -1;
    if (byte & 1) put(p, high); else order(p, high);
}
/* ---- the OLED ---- */
static int parameters(int command) {
    static const char one[] = "\x20\x81\x8D\xA8\xD3\xD5\xD9\xDA\xDB", two[] = "\x21\x22\xA3", five[] = "\x29\x2A", six[] = "\x26\x27";
    if (!command) return 0;
    return strchr(one, command) ? 1 : strchr(two, command) ? 2 : strchr(five, command) ? 5 : strchr(six, command) ? 6 : 0;
}
static void frame(struct window *w, int first, int last) {
    if (first <= last) w->first = w->at = first, w->last = last;
}
static void obey(struct part *p, int command, int *given) {
    struct oled *o = &p->oled;
    if (command < 0x10) o->column.at = (o->column.at & 0x70) | command;
    else if (command < 0x20) o->column.at = (o->column.at & 0x0F) | (command & 7) << 4;
    else if (command == 0x20) o->mode = given[0] & 3;
    else if (command == 0x21) frame(&o->column, given[0] & 0x7F, given[1] & 0x7F);
    else if (command == 0x22) frame(&o->page, given[0] & 7, given[1] & 7);
    else if (command >> 3 == 0xB0 >> 3) o->page.at = command & 7;
    else if (command >> 1 == 0xA4 >> 1) o->all_lit = command & 1;
    else if (command >> 1 == 0xA6 >> 1) o->inverted = command & 1;
    else if (command >> 1 == 0xAE >> 1) p->on = command & 1;
}
static void command(struct part *p, int byte) {
    struct oled *o = &p->oled;
    if (o->given == o->wanted) o->waits = byte, o->given = 0, o->wanted = parameters(byte);
    else o->parameter[o->given++] = byte;
    if (o->given == o->wanted) obey(p, o->waits, o->parameter);
}
/* whether it went over the window's end, so that the other one moves on */
static int moved(struct window *w, int places) {
    int at_end = w->at == w->last;
    w->at = at_end ? w->first : (w->at + 1) % places;
    return at_end;
}
static void dots(struct part *p, int byte) {
    struct oled *o = &p->oled;
    o->cells[o->page.at][o->column.at] = byte;
    if (o->mode >= 2) o->column.at = (o->column.at + 1) % 128;
    else if (o->mode == 0 && moved(&o->column, 128)) moved(&o->page, 8);
    else if (o->mode == 1 && moved(&o->page, 8)) moved(&o->column, 128);
}
static void to_oled(struct part *p, int byte) {
    struct oled *o = &p->oled;
    if (o->control < 0) { o->control = byte; return; }
    if (o->control & 0x40) dots(p, byte); else command(p, byte);
    if (o->control & 0x80) o->control = -1;
}
static int dots_shown(struct part *p, int page, int column) {
    int cell = p->oled.cells[page][column];
    return !p->on ? 0 : p->oled.all_lit ? 0xFF : p->oled.inverted ? cell ^ 0xFF : cell;
}
/* ---- a bus of two wires: START, eight bits and an acknowledge for each byte, STOP ---- */
enum { NOTHING, ITS_ADDRESS, READING, WRITTEN };
static void begin_write(struct part *p) { p->oled.control = -1; }
static void eight_bits(struct part *p) {
    if (p->hears == WRITTEN) { if (is(p, "ssd1306")) to_oled(p, p->byte); else by_expander(p, p->byte); return; }
    int reading = p->byte & 1;
    p->hears = p->byte >> 1 != p->bus_address || (reading && is(p, "ssd1306")) ? NOTHING : reading ? READING : WRITTEN;
    if (p->hears == WRITTEN) begin_write(p);
}
static void listen(struct part *p) {
    if (one(p, "SCL") && !rises(p, "SCL")) {
        if (!rises(p, "SDA") && !falls(p, "SDA")) return;
        p->hears = falls(p, "SDA") ? ITS_ADDRESS : NOTHING;
        p->bits = 0;
        set(p, "SDA", NO, 0);
    } else if (rises(p, "SCL") && p->hears) {
        if (p->bits < 8) p->byte = (p->byte << 1 | one(p, "SDA")) & 0xFF;
        if (++p->bits == 8) eight_bits(p);
    } else if (falls(p, "SCL") && p->hears && p->bits >= 8) {
        set(p, "SDA", p->bits == 8 ? STRONG : NO, 0);
        if (p->bits == 9) p->bits = 0, p->hears = p->hears == READING ? NOTHING : WRITTEN;
    }
}
static void show(struct part *p, int off) {
    char name[4] = "Q0";
    for (int k = 0; k < 8; k++) name[1] = '0' + k, set(p, name, off ? NO : STRONG, p->storage >> k & 1);
    set(p, "Q7S", STRONG, p->stages >> 7);
}
static void begin(struct part *p) {
    if (is(p, "vcc")) set(p, "VCC", STRONG, 1);
    if (is(p, "gnd")) set(p, "GND", STRONG, 0);
    if (is(p, "source")) set(p, "OUT", p->value == 2 ? NO : STRONG, p->value == 1);
    if (is(p, "potentiometer")) set(p, "SIG", WEAK, p->value >= 512);
    if (!strncmp(p->type, "wokwi-gate-", 11)) set(p, "OUT", STRONG, 1);
    if (is(p, "74hc595")) show(p, 0);
    if (!strncmp(p->type, "wokwi-lcd1602", 13)) for (int k = 0; k < 128; k++) p->text[k] = ' ';
    if (is(p, "ssd1306")) p->oled.mode = 2, p->oled.column.last = 127, p->oled.page.last = 7;
    if (is(p, "arduino-uno")) {
        static const char *high[] = {"5V", "3.3V", "VIN", "IOREF", "AREF"}, *lows[] = {"GND.1", "GND.2", "GND.3"};
        for (int i = 0; i < 5; i++) set(p, high[i], STRONG, 1);
        for (int i = 0; i < 3; i++) set(p, lows[i], STRONG, 0);
    }
}
static void act(struct part *p) {
    if (is(p, "source")) set(p, "OUT", p->value == 2 ? NO : STRONG, p->value == 1);
    if (is(p, "potentiometer")) set(p, "SIG", WEAK, p->value >= 512); /* alone on its net it reads as high from 512 on */
    if (is(p, "gate-not")) set(p, "OUT", STRONG, !one(p, "IN"));
    if (is(p, "gate-buffer")) set(p, "OUT", STRONG, one(p, "IN"));
    if (!strncmp(p->type, "wokwi-gate-", 11) && strstr(p->type, "-2")) {
        int sum = one(p, "A") + one(p, "B"), out = 0; /* by how many inputs are 1 */
        if (is(p, "gate-and-2")) out = sum == 2;
        if (is(p, "gate-nand-2")) out = sum != 2;
        if (is(p, "gate-or-2")) out = sum != 0;
        if (is(p, "gate-nor-2")) out = sum == 0;
        if (is(p, "gate-xor-2")) out = sum == 1;
        if (is(p, "gate-xnor-2")) out = sum != 1;
        set(p, "OUT", STRONG, out);
    }
    if (is(p, "74hc595")) {
        int old = p->stages;
        if (rises(p, "SHCP")) p->stages = (old << 1 | one(p, "DS")) & 0xFF;
        if (low(p, "MR")) p->stages = 0;
        if (rises(p, "STCP")) p->storage = old;
        show(p, one(p, "OE"));
    }
    if (is(p, "7segment")) {
        p->lit = 0;
        for (int k = 0; k < 8; k++) {
            const char *at = p->pins[k];
            p->lit |= (p->cathode ? low(p, "COM") && one(p, at) : one(p, "COM") && low(p, at)) << k;
        }
    }
    if (is(p, "lcd1602 by I2C") || is(p, "ssd1306")) listen(p);
    if (is(p, "lcd1602") && falls(p, "E") && !one(p, "RW")) take(p);
    if (is(p, "led")) {
        int lit = one(p, "A") && low(p, "C");
        p->rises += lit && !p->lit;
        p->lit = lit;
    }
}

/* ---- what comes from outside ---- */
static struct given { long long at; struct part *part; int pin, value; } given[1 << 20];
static int given_count, script_count;
static void read_script(const char *name) {
    FILE *f = fopen(name, "r");
    char line[256], unit[8], verb[16], id[80];
    long long at;
    int value;
    if (!f) fail(name);
    while (fgets(line, sizeof line, f)) {
        int words = sscanf(line, "%lld%7[a-z] %15s %79s %d", &at, unit, verb, id, &value);
        if (line[0] == '#' || words < 4) continue;
        if (words == 4) value = !strcmp(verb, "press");
        given[given_count++] = (struct given){strcmp(unit, "us") ? at : 16 * at, named(id), -1, value};
    }
    fclose(f);
    script_count = given_count;
}
static void read_uno(const char *name, struct part *uno) {
    FILE *f = fopen(name, "r");
    char line[256];
    long long at = 0;
    if (!f) fail(name);
    while (fgets(line, sizeof line, f)) {
        if (line[0] == '#') at = atoll(line + 1) / 625;
        if (strchr("01z", line[0]) && line[1] >= '!' && line[1] < '!' + 20 && line[2] == '\n')
            given[given_count++] = (struct given){at, uno, line[1] - '!', line[0] == 'z' ? -1 : line[0] - '0'};
    }
    fclose(f);
}

/* ---- an Uno whose firmware runs ---- */
static const char *firmware, *bytes;
#ifdef BOARD
int uno_begins(const char *firmware, const char *bytes), uno_drives(int pin, int *value);
void uno_sees(int pin, int value), uno_steps(void), uno_ends(FILE *out);
#else
static int uno_begins(const char *file, const char *into) { return !file && !into; }
static int uno_drives(int pin, int *value) { return pin + *value; }
static void uno_sees(int pin, int value) { (void)pin, (void)value; }
static void uno_steps(void) {}
static void uno_ends(FILE *out) { (void)out; }
#endif
static void uno_pins(struct part *uno) {
    for (int k = 0; k < 20; k++) {
        int value = 0, strength = uno_drives(k, &value);
        drive(uno, k, strength, value);
    }
}
static void uno_cycle(struct part *uno) {
    for (int k = 0; k < 20; k++) {
        int now = level[net_of[uno->first + k]];
        uno_sees(k, now == ONE ? 1 : now == ZERO ? 0 : -1);
    }
    uno_steps();
}

/* ---- the wave ---- */
static int variables[NETS], variable_count, was[NETS];
static void code(int k) {
    if (k >= 94) putchar('!' + (k - 94) / 94);
    putchar('!' + (k < 94 ? k : (k - 94) % 94));
}
static void wave(long long t) {
    int any = t == 0;
    for (int k = 0; k < variable_count; k++) any |= level[net_of[variables[k]]] != was[k];
    if (!any) return;
    printf(t ? "#%lld\n" : "#%lld\n$dumpvars\n", 625 * t);
    for (int k = 0; k < variable_count; k++) {
        int now = level[net_of[variables[k]]];
        if (t && now == was[k]) continue;
        putchar("z01x"[now]), code(k), putchar('\n');
        was[k] = now;
    }
    if (!t) puts("$end");
}

int main(int count, char **words) {
    struct part *uno = 0;
    long long cycles;
    const char *report = 0;
    int is_weak[20] = {0}, is_input[20] = {0}, next_script = 0, next_uno;
    if (count < 3) fail("the diagram and how many cycles are wanted");
    read_diagram(words[1]);
    find_nets();
    cycles = atoll(words[2]);
    for (int i = 0; i < part_count; i++) if (is(&parts[i], "arduino-uno")) uno = &parts[i];
    for (int i = 3; i < count; i++) if (!strncmp(words[i], "script=", 7)) read_script(words[i] + 7);
    next_uno = script_count;
    for (int i = 3; i < count; i++) {
        if (!strncmp(words[i], "uno=", 4)) read_uno(words[i] + 4, uno);
        if (!strncmp(words[i], "input=", 6)) is_input[pin(uno, words[i] + 6) - uno->first] = 1;
        if (!strncmp(words[i], "weak=", 5)) is_weak[pin(uno, words[i] + 5) - uno->first] = 1;
        if (!strncmp(words[i], "report=", 7)) report = words[i] + 7;
        if (!strncmp(words[i], "firmware=", 9)) firmware = words[i] + 9;
        if (!strncmp(words[i], "serial=", 7)) bytes = words[i] + 7;
    }
    if (firmware && !(uno && uno_begins(firmware, bytes))) fail(firmware);
    puts("$timescale 100 ps $end\n$scope module board $end");
    for (int i = 0; i < part_count; i++) {
        int shown = &parts[i] == uno ? 20 : parts[i].count;
        for (int k = 0; k < shown; k++) {
            printf("$var wire 1 "), code(variable_count), printf(" %s.%s $end\n", parts[i].id, parts[i].pins[k]);
            variables[variable_count++] = parts[i].first + k;
        }
        begin(&parts[i]);
    }
    puts("$upscope $end\n$enddefinitions $end");
    for (long long t = 0; t < cycles; t++) {
        for (; next_uno < given_count && given[next_uno].at == t; next_uno++) {
            struct given *g = &given[next_uno];
            uno->strength[g->pin] = g->value < 0 || is_input[g->pin] ? NO : is_weak[g->pin] ? WEAK : STRONG;
            uno->drives[g->pin] = g->value > 0;
            busy = 1;
        }
        if (firmware) uno_pins(uno);
        if (busy || t == 0) {
            busy = 0;
            resolve();
            wave(t);
            for (int i = 0; i < part_count; i++) {
                struct part *p = &parts[i];
                for (int k = 0; k < p->count; k++) {
                    p->before[k] = p->now[k], p->now[k] = level[net_of[p->first + k]];
                    busy |= p->before[k] != p->now[k];
                }
                act(p);
            }
        }
        if (firmware) uno_cycle(uno);
        for (; next_script < script_count && given[next_script].at == t; next_script++) {
            given[next_script].part->value = given[next_script].value;
            if (is(given[next_script].part, "potentiometer") || is(given[next_script].part, "source")) act(given[next_script].part);
            busy = 1;
        }
    }
    printf("#%lld\n", 625 * cycles);
    if (report) {
        FILE *f = fopen(report, "w");
        if (!f) fail(report);
        if (firmware) fprintf(f, "cycles %lld\n", cycles);
        for (int i = 0; i < part_count; i++) {
            struct part *p = &parts[i];
            if (p == uno && firmware) fprintf(f, "uno %s ", p->id), uno_ends(f);
            if (is(p, "led")) fprintf(f, "led %s %s lit %d\n", p->id, p->lit ? "on" : "off", p->rises);
            if (is(p, "pushbutton") || strstr(p->type, "-switch") || is(p, "potentiometer") || is(p, "membrane-keypad") || is(p, "source")) fprintf(f, "input %s %d\n", p->id, p->value);
            if (is(p, "74hc595")) fprintf(f, "shift %s %02X %02X\n", p->id, p->stages, p->storage);
            if (is(p, "7segment")) fprintf(f, "seg %s %02X\n", p->id, p->lit);
            if (is(p, "ssd1306")) fprintf(f, "oled %s %s\n", p->id, p->on ? "on" : "off");
            for (int page = 0; page < 8 && is(p, "ssd1306"); page++) {
                fprintf(f, "oled %s page %d ", p->id, page);
                for (int column = 0; column < 128; column++) fprintf(f, "%02X", dots_shown(p, page, column));
                fputc('\n', f);
            }
            for (int line = 0; line < 2 && !strncmp(p->type, "wokwi-lcd1602", 13); line++) {
                fprintf(f, "lcd %s %d |", p->id, line + 1);
                for (int k = 0; k < 16; k++) {
                    int c = p->text[0x40 * line + k];
                    fputc(!p->on ? ' ' : c < ' ' || c > '~' ? '?' : c, f);
                }
                fputs("|\n", f);
            }
        }
        fclose(f);
    }
    return 0;
}
