/* The backend as a library that liberasurecode loads by name. liberasurecode 1.6 opens
 * libphazr.so.1 when an instance of the type `libphazr` is made, and then calls the functions of a
 * table that it exports. Loading this library fills that table, before the first of them is called.
 */
#include "lrc_backend.h"

#include <stdio.h>

/* The table and its order are not part of liberasurecode's API. */
enum { TESTED_MAJOR = 1, TESTED_MINOR = 6 };

extern struct ec_backend_op_stubs
    libphazr_op_stubs; /* exported by liberasurecode.so.1, and in no header */

/* Under another release the table stays as it is, and no instance can be made. */
__attribute__((constructor)) static void fill_table(void) {
    const uint32_t version = liberasurecode_get_version();
    if (version >> 8 == (TESTED_MAJOR << 8 | TESTED_MINOR))
        libphazr_op_stubs = lrc_backend_functions;
    else
        fprintf(stderr,
                "libphazr of lrcstore is tested with liberasurecode %d.%d, and this is %u.%u: "
                "install %d.%d\n",
                TESTED_MAJOR, TESTED_MINOR, version >> 16, version >> 8 & 255, TESTED_MAJOR,
                TESTED_MINOR);
}
