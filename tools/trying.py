"""The module of tools/try-edits, for the tools beside it: what an edit is, and how rt takes a library as built."""
import importlib.machinery
import importlib.util
import os

loader = importlib.machinery.SourceFileLoader("try_edits", os.path.join(os.path.dirname(os.path.realpath(__file__)), "try-edits"))
tool = importlib.util.module_from_spec(importlib.util.spec_from_loader("try_edits", loader))
loader.exec_module(tool)
