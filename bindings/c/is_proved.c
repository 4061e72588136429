/* Says how the library was built. tools/build_c compiles this file into it, with NASHIRUDDER_PROVED as true or false. */
#include "nashirudder.h"

bool nashirudder_is_proved(void) { return NASHIRUDDER_PROVED; }
