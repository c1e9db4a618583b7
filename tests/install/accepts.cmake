# cmake -DFILE=F -DPACKAGE_FIND_VERSION=N -P accepts.cmake: whether a package accepts a number
include(${FILE})
if(NOT PACKAGE_VERSION_COMPATIBLE)
  message(FATAL_ERROR "refused")
endif()
