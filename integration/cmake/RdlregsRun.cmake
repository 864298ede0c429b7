# Writes a module beside its place and moves it there, so that no text that was cut short is taken for one.
separate_arguments(words UNIX_COMMAND "${WORDS}")
execute_process(COMMAND "${PROGRAM}" ${words} "${SOURCE}" OUTPUT_FILE "${MODULE}.part" RESULT_VARIABLE status)
if(NOT status EQUAL 0)
  file(REMOVE "${MODULE}.part")
  message(FATAL_ERROR "rdlregs ended with ${status}")
endif()
file(RENAME "${MODULE}.part" "${MODULE}")
