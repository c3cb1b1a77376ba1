// A chip that puts the inverse of its pin IN on its pin OUT.
#define IMPORT(name) __attribute__((import_module("env"), import_name(name)))

typedef unsigned int word;

enum { OUTPUT_LOW = 16, OUTPUT_HIGH = 17, INPUT = 0, BOTH_EDGES = 3 };

IMPORT("pinInit") word pin_init(const char *name, word mode);
IMPORT("pinWrite") void pin_write(word pin, word value);
IMPORT("pinWatch") word pin_watch(word pin, const void *watch);

struct watch {
    word user;
    word edge;
    void (*changed)(word user, word pin, word value);
};

static word out;

static void changed(word user, word pin, word value) {
    (void)user;
    (void)pin;
    pin_write(out, !value);
}

static const struct watch watch = {0, BOTH_EDGES, changed};

__attribute__((export_name("chipInit"))) void chip_init(void) {
    word in = pin_init("IN", INPUT);
    out = pin_init("OUT", OUTPUT_HIGH);
    pin_watch(in, &watch);
}
