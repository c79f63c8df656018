# Tests whether a new build of a library may replace the released one, whose interface is kept in a file, its baseline:
#
#   find_package(Abi)
#   if(Abi_FOUND)
#     abi_add_test(TARGET stream)
#   endif()
#
# abi_add_test(TARGET <library> [NAME <test>] [BASELINE <file>] [RULES <file>] [REQUIRE_TYPES <share>] [STRICT])
#
#   Adds the test NAME (abi-<library>), which fails if the library may not replace the released one, or if it cannot be told. BASELINE
#   is the released interface (abi/<library>.abi in the source folder), and RULES a rule file, which says what is not compared; both are
#   relative to the source folder. REQUIRE_TYPES is the percentage of compared exports that must have types in both libraries (90).
#   With STRICT the test also fails if a note names what no rule judges and what can break compiled callers.
#   The target keep-<test> makes the baseline from the build of a release.
#
# If the programs are not there, Abi_FOUND is false. They are beside this file, if it is an installed one, or on the PATH.
get_filename_component(_abi_prefix "${CMAKE_CURRENT_LIST_DIR}/../../.." ABSOLUTE)
find_program(ABI_GATE_PROGRAM abi-gate HINTS "${_abi_prefix}/bin")
find_program(ABI_BASELINE_PROGRAM abi-baseline HINTS "${_abi_prefix}/bin")
unset(_abi_prefix)
if(NOT ABI_GATE_PROGRAM OR NOT ABI_BASELINE_PROGRAM)
  set(Abi_FOUND FALSE)
  set(Abi_NOT_FOUND_MESSAGE "there is no abi-gate, or no abi-baseline")
  return()
endif()

function(abi_add_test)
  cmake_parse_arguments(PARSE_ARGV 0 ABI "STRICT" "TARGET;NAME;BASELINE;RULES;REQUIRE_TYPES" "")
  if(NOT ABI_TARGET OR ABI_UNPARSED_ARGUMENTS)
    message(FATAL_ERROR "abi_add_test takes TARGET, NAME, BASELINE, RULES, REQUIRE_TYPES and STRICT; not: ${ABI_UNPARSED_ARGUMENTS}")
  endif()
  if(NOT ABI_NAME)
    set(ABI_NAME "abi-${ABI_TARGET}")
  endif()
  if(NOT ABI_BASELINE)
    set(ABI_BASELINE "abi/${ABI_TARGET}.abi")
  endif()
  if(NOT DEFINED ABI_REQUIRE_TYPES)
    set(ABI_REQUIRE_TYPES 90)
  endif()
  get_filename_component(baseline "${ABI_BASELINE}" ABSOLUTE BASE_DIR "${CMAKE_CURRENT_SOURCE_DIR}")
  get_filename_component(folder "${baseline}" DIRECTORY)
  set(options --require-types "${ABI_REQUIRE_TYPES}")
  if(ABI_STRICT)
    list(APPEND options --strict)
  endif()
  if(ABI_RULES)
    get_filename_component(file "${ABI_RULES}" ABSOLUTE BASE_DIR "${CMAKE_CURRENT_SOURCE_DIR}")
    list(APPEND options --rules "${file}")
  endif()
  add_test(NAME "${ABI_NAME}"
    COMMAND "${ABI_GATE_PROGRAM}" ${options} "${baseline}" "$<TARGET_FILE:${ABI_TARGET}>")
  add_custom_target("keep-${ABI_NAME}"
    COMMAND "${CMAKE_COMMAND}" -E make_directory "${folder}"
    COMMAND "${ABI_BASELINE_PROGRAM}" "$<TARGET_FILE:${ABI_TARGET}>" "${baseline}"
    DEPENDS "${ABI_TARGET}" VERBATIM)
endfunction()
