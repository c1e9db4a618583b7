/* LRC(12,2,2) and LRC(6,2,2) as a backend of liberasurecode 1.6, which is used as it is installed.
 */
#ifndef LRC_BACKEND_H
#define LRC_BACKEND_H

#include <liberasurecode/erasurecode.h>
#include <liberasurecode/erasurecode_backend.h>

/* The backend version in each fragment's header: "LR", the number of data fragments, and 1. It is
 * part of the on-disk format: it stands for a code of lrc_coder.h with the order of its fragments.
 */
#define LRC_BACKEND_VERSION(k) (0x4C520001u | (uint32_t)(k) << 8)

/* A new instance with `k` data fragments, 12 or 6, and four parities: its descriptor, for every
 * call of liberasurecode.h, or a negative number of the same file. liberasurecode_instance_destroy
 * frees it. */
int lrc_backend_create(int k, ec_checksum_type_t checksum);

/* The functions of the backend, as liberasurecode calls them. Its own type for them is not
 * constant. */
extern struct ec_backend_op_stubs lrc_backend_functions;

#endif
