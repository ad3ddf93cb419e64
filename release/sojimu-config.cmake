# find_package(sojimu N): the target sojimu::sojimu. Paths go from where this file stands.
get_filename_component(sojimu_prefix "${CMAKE_CURRENT_LIST_DIR}/../../.." ABSOLUTE)
if(NOT TARGET sojimu::sojimu)
    add_library(sojimu::sojimu STATIC IMPORTED)
    set_target_properties(sojimu::sojimu PROPERTIES
        IMPORTED_LOCATION "${sojimu_prefix}/lib/libsojimu.a"
        IMPORTED_LINK_INTERFACE_LANGUAGES C
        INTERFACE_INCLUDE_DIRECTORIES "${sojimu_prefix}/include")
endif()
unset(sojimu_prefix)
