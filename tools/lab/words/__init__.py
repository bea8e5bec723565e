"""The words of the lab, a file each.

Each file has SUMMARY (one line), DETAILS (what its help says more), `add_arguments` and `main`, which gives the status.
"""
