#define PART show_pairs
#include "names_of_the_library.h"
