# The targets ploverchaise::shared and ploverchaise::static, which are the two libraries of this folder's prefix.
get_filename_component(_ploverchaise_prefix "${CMAKE_CURRENT_LIST_DIR}/../../.." ABSOLUTE)
include(CMakeFindDependencyMacro)
find_dependency(Threads)

if(NOT TARGET ploverchaise::shared)
    add_library(ploverchaise::shared SHARED IMPORTED)
    set_target_properties(ploverchaise::shared PROPERTIES
        IMPORTED_LOCATION "${_ploverchaise_prefix}/lib/libploverchaise.so.@VERSION@"
        IMPORTED_SONAME "@SONAME@"
        INTERFACE_INCLUDE_DIRECTORIES "${_ploverchaise_prefix}/include")
    add_library(ploverchaise::static STATIC IMPORTED)
    set_target_properties(ploverchaise::static PROPERTIES
        IMPORTED_LOCATION "${_ploverchaise_prefix}/lib/libploverchaise.a"
        INTERFACE_INCLUDE_DIRECTORIES "${_ploverchaise_prefix}/include"
        INTERFACE_LINK_LIBRARIES Threads::Threads)
endif()
unset(_ploverchaise_prefix)
