# shellcheck shell=bash
# For the test scripts that need the libraries for C: LRC_LIBRARIES names their folder.
: "${LRC_LIBRARIES:?has to name a folder that tools/libraries.py --to FOLDER has filled}"
LRC_LIBRARIES=$(realpath "$LRC_LIBRARIES")
export LRC_LIBRARIES
