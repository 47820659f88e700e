# find_package(vokhsaot) gives two targets, each with the header's folder: vokhsaot::static and vokhsaot::shared.
# The folders are worked out from where this file stands, so that the whole prefix can be moved.
get_filename_component(vokhsaot_prefix "${CMAKE_CURRENT_LIST_DIR}/../../.." ABSOLUTE)

function(vokhsaot_library target kind file)
    if(NOT EXISTS "${vokhsaot_prefix}/lib/${file}")
        message(FATAL_ERROR "vokhsaot: there is no ${vokhsaot_prefix}/lib/${file}")
    endif()
    if(NOT TARGET ${target})
        add_library(${target} ${kind} IMPORTED)
        set_target_properties(${target} PROPERTIES
            IMPORTED_LOCATION "${vokhsaot_prefix}/lib/${file}"
            INTERFACE_INCLUDE_DIRECTORIES "${vokhsaot_prefix}/include")
    endif()
endfunction()

vokhsaot_library(vokhsaot::static STATIC libvokhsaot.a)
vokhsaot_library(vokhsaot::shared SHARED libvokhsaot.so)
