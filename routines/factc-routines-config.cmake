# find_package(factc-routines) gives target_routines, as routines.cmake says.
include(${CMAKE_CURRENT_LIST_DIR}/../../factc/routines/routines.cmake)
