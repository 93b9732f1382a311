/* The version of the library for the program over files in memory. */
#include "safebound_command.h"

const char safebound_command_version[] = SAFEBOUND_VERSION;
