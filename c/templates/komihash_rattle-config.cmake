# The targets komihash_rattle::static and komihash_rattle::static_v3 are the static libraries,
# komihash_rattle::komihash_rattle is the shared one, or if that is missing, the first of these, and
# komihash_rattle::komihash_h is the folder of the header komihash.h.
get_filename_component(komihash_rattle_libdir "${CMAKE_CURRENT_LIST_DIR}/../.." REALPATH)
file(RELATIVE_PATH komihash_rattle_include [=[@LIBDIR@]=] [=[@INCLUDEDIR@]=])
get_filename_component(komihash_rattle_include
  "${komihash_rattle_libdir}/${komihash_rattle_include}" REALPATH)
file(RELATIVE_PATH komihash_rattle_dll [=[@LIBDIR@]=] [=[@BINDIR@]=])
string(APPEND komihash_rattle_dll "/komihash_rattle-${komihash_rattle_VERSION_MAJOR}.dll")
function(komihash_rattle_target name kind file)
  if(NOT TARGET komihash_rattle::${name} AND EXISTS "${komihash_rattle_libdir}/${file}")
    add_library(komihash_rattle::${name} ${kind} IMPORTED)
    set_target_properties(komihash_rattle::${name} PROPERTIES
      IMPORTED_LOCATION "${komihash_rattle_libdir}/${file}"
      INTERFACE_INCLUDE_DIRECTORIES "${komihash_rattle_include}" ${ARGN})
  endif()
endfunction()
set(komihash_rattle_shared libkomihash_rattle.so.${komihash_rattle_VERSION_MAJOR})
komihash_rattle_target(komihash_rattle SHARED ${komihash_rattle_shared}
  IMPORTED_SONAME ${komihash_rattle_shared})
set(komihash_rattle_shared libkomihash_rattle.${komihash_rattle_VERSION_MAJOR}.dylib)
komihash_rattle_target(komihash_rattle SHARED ${komihash_rattle_shared}
  IMPORTED_SONAME @rpath/${komihash_rattle_shared})
komihash_rattle_target(komihash_rattle SHARED libkomihash_rattle.dll.a
  IMPORTED_IMPLIB "${komihash_rattle_libdir}/libkomihash_rattle.dll.a"
  IMPORTED_LOCATION "${komihash_rattle_libdir}/${komihash_rattle_dll}")
komihash_rattle_target(komihash_rattle STATIC libkomihash_rattle.a)
komihash_rattle_target(static STATIC libkomihash_rattle.a)
komihash_rattle_target(static_v3 STATIC libkomihash_rattle_v3.a)
if(NOT TARGET komihash_rattle::komihash_h)
  add_library(komihash_rattle::komihash_h INTERFACE IMPORTED)
  set_target_properties(komihash_rattle::komihash_h PROPERTIES
    INTERFACE_INCLUDE_DIRECTORIES "${komihash_rattle_include}/komihash_rattle")
endif()
# A component is the name of a target. One of them is always needed.
set(komihash_rattle_FIND_REQUIRED_komihash_rattle TRUE)
foreach(komihash_rattle_component IN LISTS komihash_rattle_FIND_COMPONENTS ITEMS komihash_rattle)
  if(TARGET komihash_rattle::${komihash_rattle_component})
    set(komihash_rattle_${komihash_rattle_component}_FOUND TRUE)
  elseif(komihash_rattle_FIND_REQUIRED_${komihash_rattle_component})
    set(komihash_rattle_FOUND FALSE)
    set(komihash_rattle_NOT_FOUND_MESSAGE
      "There is no target komihash_rattle::${komihash_rattle_component}.")
  endif()
endforeach()
