#define PART show_atomics
#include "names_of_the_library.h"
