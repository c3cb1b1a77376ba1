// A chip that reckons with float numbers.
#define IMPORT(name) __attribute__((import_module("env"), import_name(name)))

IMPORT("pinInit") unsigned pin_init(const char *name, unsigned mode);
IMPORT("attrInit") unsigned attr_init(const char *name, unsigned initial);
IMPORT("attrRead") unsigned attr_read(unsigned attr);

__attribute__((export_name("chipInit"))) void chip_init(void) {
    float celsius = (float)attr_read(attr_init("celsius", 20));
    pin_init("OUT", celsius * 1.8f + 32.0f > 68.0f ? 17 : 16);
}
