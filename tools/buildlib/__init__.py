"""The parts of tools/build."""
