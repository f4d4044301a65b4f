# find_package(crepulanter) after `make install PREFIX=..`: the target crepulanter, to name in target_link_libraries.
get_filename_component(crepulanter_prefix "${CMAKE_CURRENT_LIST_DIR}/../../.." ABSOLUTE)
add_library(crepulanter STATIC IMPORTED)
set_target_properties(crepulanter PROPERTIES IMPORTED_LOCATION "${crepulanter_prefix}/lib/libcrepulanter.a"
    INTERFACE_INCLUDE_DIRECTORIES "${crepulanter_prefix}/include")
