#!/usr/bin/env python3
"""The language server for `.imp` files: what an editor starts. editors/README.md says how."""
import sys

if sys.version_info < (3, 10):
    sys.stderr.write("daig-lsp: Python 3.10 or later is wanted, this is %d.%d\n" % sys.version_info[:2])
    sys.exit(2)

from daig_editor.commands.lsp import main  # noqa: E402

if __name__ == "__main__":
    sys.exit(main())
