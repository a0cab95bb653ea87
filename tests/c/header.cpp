// landfill.h and all uses of it in header.c, as C++.
#include "landfill.h"
#include "landfill.h"

#include "header.c"
