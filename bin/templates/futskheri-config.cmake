# find_package(futskheri): the targets futskheri::shared and futskheri::static.
get_filename_component(_futskheri_prefix "${CMAKE_CURRENT_LIST_DIR}/../../.." ABSOLUTE)

if(NOT TARGET futskheri::shared)
  add_library(futskheri::shared SHARED IMPORTED)
  set_target_properties(futskheri::shared PROPERTIES
    IMPORTED_LOCATION "${_futskheri_prefix}/lib/libfutskheri.so.@VERSION@"
    IMPORTED_SONAME "@SONAME@"
    INTERFACE_INCLUDE_DIRECTORIES "${_futskheri_prefix}/include")
endif()

if(NOT TARGET futskheri::static)
  add_library(futskheri::static STATIC IMPORTED)
  set_target_properties(futskheri::static PROPERTIES
    IMPORTED_LOCATION "${_futskheri_prefix}/lib/libfutskheri.a"
    INTERFACE_INCLUDE_DIRECTORIES "${_futskheri_prefix}/include")
endif()

unset(_futskheri_prefix)
