"""Leads to tools/lib, the modules that all scripts share."""
import os

__path__ = [os.path.join(os.path.dirname(os.path.abspath(__file__)), "..", "tools", "lib")]
