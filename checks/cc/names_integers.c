#define PART show_integers
#include "names_of_the_library.h"
