# Gives the target volgwain::volgwain: the header, the library and the heap that it needs.
get_filename_component(_volgwain "${CMAKE_CURRENT_LIST_DIR}/../../.." ABSOLUTE)

if(NOT TARGET volgwain::volgwain)
  add_library(volgwain::heap STATIC IMPORTED)
  set_target_properties(volgwain::heap PROPERTIES
    IMPORTED_LOCATION "${_volgwain}/lib/liblibc_c.a")
  add_library(volgwain::volgwain STATIC IMPORTED)
  set_target_properties(volgwain::volgwain PROPERTIES
    IMPORTED_LOCATION "${_volgwain}/lib/liblookup_c.a"
    INTERFACE_INCLUDE_DIRECTORIES "${_volgwain}/include"
    INTERFACE_LINK_LIBRARIES volgwain::heap)
endif()

unset(_volgwain)
