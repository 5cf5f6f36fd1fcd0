"""Packs a folder `extension` as the package that VS Code takes, with the two files that say what is in it.

    vscode/pack.py FOLDER PACKAGE
"""

import json
import pathlib
import sys
import zipfile
from xml.sax.saxutils import escape, quoteattr

TIME = (1980, 1, 1, 0, 0, 0)
TYPES = {"json": "application/json", "js": "application/javascript", "md": "text/markdown", "png": "image/png", "wasm": "application/wasm", "vsixmanifest": "text/xml"}
folder, package = pathlib.Path(sys.argv[1]), sys.argv[2]
extension = folder / "extension"
said = json.loads((extension / "package.json").read_text())
files = sorted(extension.iterdir())

types = "".join(f'<Default Extension=".{ending}" ContentType="{kind}"/>' for ending, kind in TYPES.items())
plain = "".join(f'<Override PartName="/extension/{file.name}" ContentType="text/plain"/>' for file in files if file.suffix == "")
content = f'<?xml version="1.0" encoding="utf-8"?>\n<Types xmlns="http://schemas.openxmlformats.org/package/2006/content-types">{types}{plain}</Types>\n'

languages = said["contributes"]["languages"]
tags = [*said["keywords"], *(language["id"] for language in languages), *(f"__ext_{ending[1:]}" for language in languages for ending in language["extensions"]), *(["__web_extension"] if "browser" in said else [])]
kinds = said["extensionKind"] + (["web"] if "browser" in said else [])

manifest = f"""<?xml version="1.0" encoding="utf-8"?>
<PackageManifest Version="2.0.0" xmlns="http://schemas.microsoft.com/developer/vsx-schema/2011">
  <Metadata>
    <Identity Language="en-US" Id={quoteattr(said["name"])} Version={quoteattr(said["version"])} Publisher={quoteattr(said["publisher"])}/>
    <DisplayName>{escape(said["displayName"])}</DisplayName>
    <Description xml:space="preserve">{escape(said["description"])}</Description>
    <Tags>{escape(",".join(tags))}</Tags>
    <Categories>{escape(",".join(said["categories"]))}</Categories>
    <GalleryFlags>Public</GalleryFlags>
    <Properties>
      <Property Id="Microsoft.VisualStudio.Code.Engine" Value={quoteattr(said["engines"]["vscode"])}/>
      <Property Id="Microsoft.VisualStudio.Code.ExtensionKind" Value={quoteattr(",".join(kinds))}/>
    </Properties>
    <License>extension/LICENSE-MIT</License>
    <Icon>extension/{escape(said["icon"])}</Icon>
  </Metadata>
  <Installation><InstallationTarget Id="Microsoft.VisualStudio.Code"/></Installation>
  <Dependencies/>
  <Assets>
    <Asset Type="Microsoft.VisualStudio.Code.Manifest" Path="extension/package.json" Addressable="true"/>
    <Asset Type="Microsoft.VisualStudio.Services.Content.Details" Path="extension/README.md" Addressable="true"/>
    <Asset Type="Microsoft.VisualStudio.Services.Content.Changelog" Path="extension/CHANGELOG.md" Addressable="true"/>
    <Asset Type="Microsoft.VisualStudio.Services.Icons.Default" Path={quoteattr("extension/" + said["icon"])} Addressable="true"/>
    <Asset Type="Microsoft.VisualStudio.Services.Content.License" Path="extension/LICENSE-MIT" Addressable="true"/>
  </Assets>
</PackageManifest>
"""

with zipfile.ZipFile(package, "w", zipfile.ZIP_DEFLATED, compresslevel=9) as packed:
    for name, data in [("[Content_Types].xml", content.encode()), ("extension.vsixmanifest", manifest.encode()), *((f"extension/{file.name}", file.read_bytes()) for file in files)]:
        info = zipfile.ZipInfo(name, TIME)
        info.compress_type, info.external_attr = zipfile.ZIP_DEFLATED, 0o644 << 16
        packed.writestr(info, data)
