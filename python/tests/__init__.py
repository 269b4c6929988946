"""The tests of the package, over the library that FACT_GRAPH_LIBRARY names: `tests/test_python.py` runs them."""
