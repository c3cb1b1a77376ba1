#include "wokwi-api.h"
void chip_init(void) { pin_init("A", INPUT); }
