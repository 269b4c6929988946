"""What tests/test_javascript.py runs the engine of pages and of Node by."""
