#define PART show_exact_functions
#include "names_of_the_library.h"
