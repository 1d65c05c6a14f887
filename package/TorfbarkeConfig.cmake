# find_package(Torfbarke) gives the target Torfbarke::torfbarke, the library with its header. The tree may be moved.
get_filename_component(_torfbarke_prefix "${CMAKE_CURRENT_LIST_DIR}/../../.." ABSOLUTE)
if(NOT TARGET Torfbarke::torfbarke)
  add_library(Torfbarke::torfbarke STATIC IMPORTED)
  set_target_properties(Torfbarke::torfbarke PROPERTIES
    IMPORTED_LOCATION "${_torfbarke_prefix}/lib/libtorfbarke.a"
    IMPORTED_LINK_INTERFACE_LANGUAGES C
    INTERFACE_INCLUDE_DIRECTORIES "${_torfbarke_prefix}/include")
endif()
unset(_torfbarke_prefix)
