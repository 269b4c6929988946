# The Fact Graph: the targets fact_graph::shared and fact_graph::static, each with its header. License: @LICENSE@.
get_filename_component(fact_graph_PREFIX "${CMAKE_CURRENT_LIST_DIR}/@UP@" ABSOLUTE)

if(NOT TARGET fact_graph::shared)
  add_library(fact_graph::shared SHARED IMPORTED)
  set_target_properties(fact_graph::shared PROPERTIES
    IMPORTED_LOCATION "${fact_graph_PREFIX}/@LIBDIR@/@SHARED@"
    IMPORTED_SONAME "@SONAME@"
    INTERFACE_INCLUDE_DIRECTORIES "${fact_graph_PREFIX}/include")

  add_library(fact_graph::static STATIC IMPORTED)
  set_target_properties(fact_graph::static PROPERTIES
    IMPORTED_LOCATION "${fact_graph_PREFIX}/@LIBDIR@/@ARCHIVE@"
    INTERFACE_INCLUDE_DIRECTORIES "${fact_graph_PREFIX}/include")
endif()
