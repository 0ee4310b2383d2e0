"""What tools/make_map.py and tools/import_mapfile.py share: a map as plain values, its text, and its fitting to the limits."""
