"""Writes the manifest of a module in the form of the standard (VDI/VDE/NAMUR 2658 parts 1, 3 and 4)."""
import dataclasses
import io
import itertools
import uuid
import xml.etree.ElementTree as tree
import zipfile

from making import items

CAEX3_NAMESPACE = "http://www.dke.de/CAEX"
WRITER, WRITER_VERSION, WRITTEN = "station/samples", "1.0.0", "2026-01-01T00:00:00"
ENDPOINT = "opc.tcp://192.168.0.10:4840"
READ_ONLY, READ_AND_WRITTEN = 1, 3
EARLIEST_DATE = (1980, 1, 1, 0, 0, 0)


@dataclasses.dataclass(frozen=True)
class Form:
    """The names that differ between the standard and drafts of it, and the version of CAEX."""
    caex: str
    groups: dict
    procedure: str
    number: str
    parameter: str


STANDARD = Form("2.15", items.STANDARD_GROUPS, "ServiceProcedure", "ProcedureId", "ServiceParameter/ProcedureParameter")
CAEX3 = dataclasses.replace(STANDARD, caex="3.0")
DRAFT = Form("2.15", items.DRAFT_GROUPS, "ServiceStrategy", "StrategyId", "StrategyParameter")


class Writer:
    """Writes one module: its services in a hierarchy of their own, their data assemblies in the package's list."""

    def __init__(self, module, form):
        self.module, self.form, self.count = module, form, itertools.count(1)
        self.root = tree.Element("CAEXFile", {"FileName": "manifest.aml", "SchemaVersion": form.caex})
        self.write_header()
        package = self.element(tree.SubElement(self.root, "InstanceHierarchy", Name="ModuleTypePackage"), module.type,
                               "MTPSUCLib/ModuleTypePackage")
        if module.version:
            attribute(package, "Version", "xs:string", module.version)
        communication = self.element(package, "CommunicationSet", "MTPSUCLib/CommunicationSet")
        self.instances = self.element(communication, "InstanceList", "MTPSUCLib/CommunicationSet/InstanceList")
        sources = self.element(communication, "SourceList", "MTPSUCLib/CommunicationSet/SourceList")
        self.server = self.element(sources, "Server", "MTPCommunicationSUCLib/ServerAssembly/OPCUAServer", Endpoint=ENDPOINT)
        self.element(package, "HMISet", "MTPSUCLib/HMISet")

    def text(self):
        """The bytes of the manifest: of one module and form always the same."""
        services = tree.SubElement(self.root, "InstanceHierarchy", Name="Services")
        for service in self.module.services:
            self.write_service(services, service)
        for each in self.module.assemblies:
            self.assembly(each.kind, each.name, each.facts)
        tree.indent(self.root)
        return b'<?xml version="1.0" encoding="utf-8"?>\n' + tree.tostring(self.root, "utf-8")

    def write_header(self):
        if self.form.caex == "3.0":
            self.root.set("xmlns", CAEX3_NAMESPACE)
            tree.SubElement(self.root, "SourceDocumentInformation", OriginName=WRITER, OriginID=WRITER,
                            OriginVersion=WRITER_VERSION, LastWritingDateTime=WRITTEN)
            return
        tree.SubElement(self.root, "AdditionalInformation", AutomationMLVersion="2.0")
        header = tree.SubElement(tree.SubElement(self.root, "AdditionalInformation"), "WriterHeader")
        tree.SubElement(header, "WriterName").text = WRITER
        tree.SubElement(header, "WriterVersion").text = WRITER_VERSION

    def id(self):
        return str(uuid.uuid5(uuid.NAMESPACE_URL, f"{self.module.type}/{next(self.count)}"))

    def element(self, parent, name, path, **constants):
        made = tree.SubElement(parent, "InternalElement", Name=name, ID=self.id(), RefBaseSystemUnitPath=path)
        for key, value in constants.items():
            attribute(made, key, "xs:boolean" if value in ("true", "false") else "xs:string", value)
        return made

    def assembly(self, kind, name, facts, defaults={}):
        """Writes a data assembly, and gives its RefID. What is none of the facts is an item, which may have a default."""
        reference = self.id()
        path = f"MTPDataObjectSUCLib/DataAssembly/{self.form.groups.get(kind, '')}{kind}"
        made = self.element(self.instances, name, path, TagName=name, TagDescription="", RefID=reference)
        for key in [*items.ITEMS[kind], *(key for key in facts if key not in items.ITEMS[kind])]:
            if key in facts:
                attribute(made, key, "xs:string", facts[key])
            else:
                attribute(made, key, "xs:IDREF", self.item(f"{name}.{key}", items.is_written(key)), defaults.get(key))
        return reference

    def item(self, node, is_written):
        made = tree.SubElement(self.server, "ExternalInterface", Name=node, ID=self.id(),
                               RefBaseClassPath="MTPCommunicationICLib/DataItem/OPCUAItem")
        attribute(made, "Identifier", "xs:string", node)
        attribute(made, "Namespace", "xs:string", f"urn:maker:{self.module.type}".replace(" ", "_"))
        attribute(made, "Access", "xs:unsignedByte", READ_AND_WRITTEN if is_written else READ_ONLY)
        return made.get("ID")

    def write_service(self, parent, service):
        control = self.assembly("ServiceControl", service.name, {})
        made = self.element(parent, service.name, "MTPServiceSUCLib/Service", RefID=control)
        for each in service.parameters:
            self.write_parameter(made, "ServiceParameter/ConfigurationParameter", each, service.name)
        for procedure in service.procedures:
            self.write_procedure(made, procedure, f"{service.name}_{procedure.name}")

    def write_procedure(self, parent, procedure, before):
        made = self.element(parent, procedure.name, f"MTPServiceSUCLib/{self.form.procedure}", RefID=self.id(),
                            IsSelfCompleting=str(procedure.is_self_completing).lower(),
                            IsDefault=str(procedure.is_default).lower())
        attribute(made, self.form.number, "xs:unsignedInt", procedure.number)
        for each in procedure.parameters:
            self.write_parameter(made, self.form.parameter, each, before)
        for name in procedure.reports:
            view = self.assembly("AnaView", f"{before}_{name}", {})
            self.element(made, name, "MTPServiceSUCLib/ReportValue", RefID=view)

    def write_parameter(self, parent, path, parameter, before):
        limits = {key: limit for key, limit in (("VMin", parameter.low), ("VMax", parameter.high)) if limit is not None}
        facts, defaults = ({}, limits) if parameter.is_read else (limits, {})
        reference = self.assembly(parameter.kind, f"{before}_{parameter.name}", facts, defaults)
        self.element(parent, parameter.name, f"MTPServiceSUCLib/{path}", RefID=reference)


def attribute(parent, name, kind, value, default=None):
    """An attribute; one whose value is a table has others in it."""
    made = tree.SubElement(parent, "Attribute", Name=name, AttributeDataType=kind)
    if isinstance(value, dict):
        for key, each in value.items():
            attribute(made, key, kind, each)
        return
    if default is not None:
        tree.SubElement(made, "DefaultValue").text = str(default)
    tree.SubElement(made, "Value").text = str(value)


def zipped(entries):
    """A zip with these texts by their names, each time the same."""
    whole = io.BytesIO()
    with zipfile.ZipFile(whole, "w", zipfile.ZIP_DEFLATED) as package:
        for name, text in entries.items():
            package.writestr(zipfile.ZipInfo(name, EARLIEST_DATE), text, zipfile.ZIP_DEFLATED)
    return whole.getvalue()


def package_of(module, form=STANDARD):
    return zipped({"manifest.aml": Writer(module, form).text()})
