# SPDX-License-Identifier: MIT
"""LLVM's text as C: the parts of scripts/translate/ir2c. head.c has the operations that C lacks."""
