#define PART show_complex
#include "names_of_the_library.h"
