# SPDX-License-Identifier: MIT
# zacpi::zacpi for programs, zacpi::kernel for kernels. The folder is LIBDIR/cmake/zacpi, and LIBDIR stands beside
# include/.
get_filename_component(zacpi_libdir "${CMAKE_CURRENT_LIST_DIR}/../.." ABSOLUTE)
foreach(up .. ../..)
    if(EXISTS "${zacpi_libdir}/${up}/include/zacpi.h")
        get_filename_component(zacpi_include "${zacpi_libdir}/${up}/include" ABSOLUTE)
    endif()
endforeach()
foreach(pair "zacpi;zacpi" "kernel;zacpi-kernel")
    list(GET pair 0 name)
    list(GET pair 1 file)
    if(NOT TARGET zacpi::${name})
        add_library(zacpi::${name} STATIC IMPORTED)
        set_target_properties(zacpi::${name} PROPERTIES IMPORTED_LOCATION "${zacpi_libdir}/lib${file}.a"
            INTERFACE_INCLUDE_DIRECTORIES "${zacpi_include}")
    endif()
endforeach()
