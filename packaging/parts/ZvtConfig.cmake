# The C library of zvt, as the targets Zvt::zvt (shared) and Zvt::zvt_static.
get_filename_component(_zvt_include "${CMAKE_CURRENT_LIST_DIR}/@INCLUDE@" ABSOLUTE)
get_filename_component(_zvt_libraries "${CMAKE_CURRENT_LIST_DIR}/../.." ABSOLUTE)
foreach(_zvt_kind zvt:SHARED:libzvt.so.0 zvt_static:STATIC:libzvt.a)
  string(REPLACE ":" ";" _zvt_kind "${_zvt_kind}")
  list(GET _zvt_kind 0 _zvt_target)
  list(GET _zvt_kind 1 _zvt_type)
  list(GET _zvt_kind 2 _zvt_file)
  if(NOT TARGET Zvt::${_zvt_target})
    add_library(Zvt::${_zvt_target} ${_zvt_type} IMPORTED)
    set_target_properties(Zvt::${_zvt_target} PROPERTIES
      IMPORTED_LOCATION "${_zvt_libraries}/${_zvt_file}"
      INTERFACE_INCLUDE_DIRECTORIES "${_zvt_include}")
  endif()
endforeach()
