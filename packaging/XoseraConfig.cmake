# Xosera::model, the header and the library. The folder may be moved: its place is taken from this file's.
if(NOT TARGET Xosera::model)
  get_filename_component(_xosera_root "${CMAKE_CURRENT_LIST_DIR}/../../.." ABSOLUTE)
  add_library(Xosera::model STATIC IMPORTED)
  set_target_properties(Xosera::model PROPERTIES
    IMPORTED_LOCATION "${_xosera_root}/lib/libxosera.a"
    INTERFACE_INCLUDE_DIRECTORIES "${_xosera_root}/include")
  unset(_xosera_root)
endif()
