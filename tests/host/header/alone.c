/* The header and nothing else: it must compile as each language that it is for. */
#include "torfbarke.h"
