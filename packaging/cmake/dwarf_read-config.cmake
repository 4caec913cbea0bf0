# The targets of find_package(dwarf_read): dwarf_read::dwarf_read is the archive, and dwarf_read::dwarf_read_shared the
# shared library.
if(NOT TARGET dwarf_read::dwarf_read)
  add_library(dwarf_read::dwarf_read STATIC IMPORTED)
  set_target_properties(dwarf_read::dwarf_read PROPERTIES
    IMPORTED_LOCATION "${CMAKE_CURRENT_LIST_DIR}/../../libdwarf_read.a"
    INTERFACE_INCLUDE_DIRECTORIES "${CMAKE_CURRENT_LIST_DIR}/../../@UP@/include")
  add_library(dwarf_read::dwarf_read_shared SHARED IMPORTED)
  set_target_properties(dwarf_read::dwarf_read_shared PROPERTIES
    IMPORTED_LOCATION "${CMAKE_CURRENT_LIST_DIR}/../../@SHARED@"
    IMPORTED_SONAME "@SHARED@"
    INTERFACE_INCLUDE_DIRECTORIES "${CMAKE_CURRENT_LIST_DIR}/../../@UP@/include")
endif()
