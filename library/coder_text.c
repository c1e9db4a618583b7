/* What the statuses of lrc_coder.h mean. */
#include "lrc_coder.h"

const char *lrc_coder_text(uint32_t status) {
    switch (status) {
    case LRC_DONE:
        return "done";
    case LRC_UNRECOVERABLE:
        return "the fragment is unrecoverable";
    case LRC_BAD_ARGUMENT:
        return "an argument is invalid";
    default:
        return "unknown status";
    }
}
