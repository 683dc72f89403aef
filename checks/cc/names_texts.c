#define PART show_texts
#include "names_of_the_library.h"
