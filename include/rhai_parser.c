/* The calls of rhai_parser.h as functions, for hosts that cannot read C. */
#define RHAI_API
#include "rhai_parser.h"
