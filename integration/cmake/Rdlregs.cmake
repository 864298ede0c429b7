# rdlregs_module(NAME SOURCE [WAITS N] [TOP NAME])
#
# Adds a target NAME that compiles a register description into a Verilog module in the build folder, anew only where the
# description changed. NAME_VERILOG is the module's path.
find_program(RDLREGS rdlregs)
set(RDLREGS_RUN "${CMAKE_CURRENT_LIST_DIR}/RdlregsRun.cmake")

function(rdlregs_module name source)
  cmake_parse_arguments(ASKED "" "WAITS;TOP" "" ${ARGN})
  if(NOT RDLREGS)
    message(FATAL_ERROR "rdlregs_module: there is no rdlregs on the path; set RDLREGS")
  endif()
  get_filename_component(description "${source}" ABSOLUTE)
  set(module "${CMAKE_CURRENT_BINARY_DIR}/${name}.v")
  set(words compile)
  if(DEFINED ASKED_WAITS)
    list(APPEND words --waits ${ASKED_WAITS})
  endif()
  if(DEFINED ASKED_TOP)
    list(APPEND words --top ${ASKED_TOP})
  endif()
  list(JOIN words " " words)
  add_custom_command(
    OUTPUT "${module}"
    COMMAND "${CMAKE_COMMAND}" "-DPROGRAM=${RDLREGS}" "-DWORDS=${words}" "-DSOURCE=${description}" "-DMODULE=${module}" -P "${RDLREGS_RUN}"
    DEPENDS "${description}" "${RDLREGS}"
    COMMENT "rdlregs ${words} ${source}"
    VERBATIM)
  add_custom_target(${name} DEPENDS "${module}")
  set(${name}_VERILOG "${module}" PARENT_SCOPE)
endfunction()
