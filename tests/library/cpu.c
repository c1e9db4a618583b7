/* Prints the level of the processor whose code the archive uses. */
#include "lrc_coder.h"

#include <stdio.h>

int main(void) { return puts(lrc_coder_cpu()) < 0; }
