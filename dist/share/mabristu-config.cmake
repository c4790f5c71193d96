# The library mabristu: find_package(mabristu) gives the targets mabristu::mabristu, the shared object, and mabristu::static, the archive. The
# folders are found from where this file lies, so that a moved one works too.
get_filename_component(_mabristu_lib "${CMAKE_CURRENT_LIST_DIR}/../.." REALPATH)
get_filename_component(_mabristu_include "${CMAKE_CURRENT_LIST_DIR}/../../../include" REALPATH)

if(NOT TARGET mabristu::mabristu)
  add_library(mabristu::mabristu SHARED IMPORTED)
  set_target_properties(mabristu::mabristu PROPERTIES
    IMPORTED_LOCATION "${_mabristu_lib}/libmabristu.so.@INTERFACE@"
    IMPORTED_SONAME "libmabristu.so.@INTERFACE@"
    INTERFACE_INCLUDE_DIRECTORIES "${_mabristu_include}")
  add_library(mabristu::static STATIC IMPORTED)
  set_target_properties(mabristu::static PROPERTIES
    IMPORTED_LOCATION "${_mabristu_lib}/libmabristu.a"
    INTERFACE_INCLUDE_DIRECTORIES "${_mabristu_include}")
endif()

unset(_mabristu_lib)
unset(_mabristu_include)
