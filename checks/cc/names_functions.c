#define PART show_functions
#include "names_of_the_library.h"
