"""Data and checks of tools/test_maps.py."""
