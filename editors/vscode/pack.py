#!/usr/bin/env python3
"""Packs the extension for Visual Studio Code, with the language server in it: pack.py [OUT.vsix].

`code --install-extension OUT.vsix` installs it. No other tool is needed. The program daig is not in it. Its version is
that of the language server; package.json has a stand-in.
"""
from __future__ import annotations

import json
import sys
import zipfile
from pathlib import Path
from typing import Any
from xml.sax.saxutils import quoteattr

HERE = Path(__file__).resolve().parent
sys.path.insert(0, str(HERE.parent))

from daig_editor import VERSION  # noqa: E402

# The files of the extension that are copied, and those of the language server.
OWN = ("language-configuration.json", "*.js", "syntaxes/*.json")
SERVER = ("daig_lsp.py", "daig_editor/**/*.py")
TYPES = {"json": "application/json", "js": "application/javascript", "py": "text/x-python", "vsixmanifest": "text/xml"}
MANIFEST = """<?xml version="1.0" encoding="utf-8"?>
<PackageManifest Version="2.0.0" xmlns="http://schemas.microsoft.com/developer/vsx-schema/2011">
  <Metadata>
    <Identity Language="en-US" Id={name} Version={version} Publisher={publisher}/>
    <DisplayName>{title}</DisplayName>
    <Description xml:space="preserve">{description}</Description>
    <Categories>{categories}</Categories>
    <Properties><Property Id="Microsoft.VisualStudio.Code.Engine" Value={engine}/></Properties>
  </Metadata>
  <Installation><InstallationTarget Id="Microsoft.VisualStudio.Code"/></Installation>
  <Dependencies/>
  <Assets>
    <Asset Type="Microsoft.VisualStudio.Code.Manifest" Path="extension/package.json" Addressable="true"/>
  </Assets>
</PackageManifest>
"""


def extension() -> dict[str, Any]:
    """What package.json tells, with the version."""
    return {**json.loads((HERE / "package.json").read_text()), "version": VERSION}


def manifest(told: dict[str, Any]) -> str:
    """What the package is."""
    return MANIFEST.format(
        name=quoteattr(told["name"]),
        version=quoteattr(told["version"]),
        publisher=quoteattr(told["publisher"]),
        engine=quoteattr(told["engines"]["vscode"]),
        title=told["displayName"],
        description=told["description"],
        categories=",".join(told["categories"]),
    )


def content_types() -> str:
    """Of which type the files of each ending are."""
    lines = [f'<Default Extension=".{it}" ContentType="{kind}"/>' for it, kind in TYPES.items()]
    space = "http://schemas.openxmlformats.org/package/2006/content-types"
    return f'<?xml version="1.0" encoding="utf-8"?>\n<Types xmlns="{space}">{"".join(lines)}</Types>\n'


def pack(out: Path) -> None:
    """Writes the package."""
    with zipfile.ZipFile(out, "w", zipfile.ZIP_DEFLATED) as package:
        package.writestr("extension.vsixmanifest", manifest(extension()))
        package.writestr("extension/package.json", json.dumps(extension(), indent=2))
        package.writestr("[Content_Types].xml", content_types())
        for top, patterns, below in ((HERE, OWN, "extension"), (HERE.parent, SERVER, "extension/server")):
            for path in sorted(it for pattern in patterns for it in top.glob(pattern)):
                package.write(path, f"{below}/{path.relative_to(top).as_posix()}")


if __name__ == "__main__":
    pack(Path(sys.argv[1] if len(sys.argv) > 1 else "daig.vsix"))
