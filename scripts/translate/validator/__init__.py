# SPDX-License-Identifier: MIT
"""Whether C does what LLVM's module does, by z3: the parts of scripts/translate/validate. Of the translator it has the
words of LLVM's text alone."""
