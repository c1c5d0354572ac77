"""Random inputs for the driving program and the workbench."""
