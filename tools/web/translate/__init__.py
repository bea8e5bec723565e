"""Writes modules of the lab, which are Python, as modules of JavaScript that do the same.

So the page and the lab have one source for what a macro comes to, for the picture of a run and for what is told of it. It takes
the part of Python that the lab is written in, and stops at anything else; `tools/web/page/python` has what Python itself brings.
"""
