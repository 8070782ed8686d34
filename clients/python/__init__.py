"""The client as an installed package; filser.py alone is the same."""

from .filser import *
