# SPDX-License-Identifier: MIT
"""Commands of scripts/ as modules, for scripts that use parts of them: their names have no ending to import by."""
import importlib.machinery
import importlib.util
import sys
from pathlib import Path

SCRIPTS = Path(__file__).resolve().parents[1]


def command(path):
    loader = importlib.machinery.SourceFileLoader(f'command {path}', str(SCRIPTS / path))
    module = importlib.util.module_from_spec(importlib.util.spec_from_loader(loader.name, loader))
    sys.modules[loader.name] = module
    loader.exec_module(module)
    return module
