# SPDX-License-Identifier: MIT
"""What scripts/dist changes in the module that rustc makes, before and after LLVM's passes."""
