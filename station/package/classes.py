"""The names of the standard (VDI/VDE/NAMUR 2658 parts 1, 3 and 4) that are looked for in a package. A class is known by
the last part of its path, so that other groups between do no harm."""

PACKAGE, INSTANCES, SERVICE, CONTROL = "ModuleTypePackage", "InstanceList", "Service", "ServiceControl"
# What has nothing more to tell than what is read elsewhere.
SETS_READ = ("SourceList", "ServiceSet")
# The strategies are those of drafts.
PROCEDURES = ("ServiceProcedure", "Procedure", "ServiceStrategy", "Strategy")
PROCEDURE_NUMBERS = ("ProcedureId", "ProcedureID", "StrategyId", "StrategyID")
PROCEDURE_PARAMETERS = ("ProcedureParameter", "StrategyParameter")
SERVICE_PARAMETERS = ("ConfigurationParameter",)
PARAMETERS = ("AnaServParam", "DIntServParam", "BinServParam", "StringServParam")
# Each view, and as what `pol` sees it.
VIEWS = {"AnaView": "AnaView", "AnaMon": "AnaView", "DIntView": "DIntView", "DIntMon": "DIntView", "BinView": "BinView",
         "BinMon": "BinView", "StringView": "StringView"}
# Where a view's value stands: the text of a StringView may have a name of its own.
VALUES = ("V", "Text")
# What a driver can't do without at a service, and what an operator can't.
FOLLOWED = ("StateCur", "CommandEn", "ProcedureCur", "StateOffAct", "StateOpAct", "StateAutAct", "SrcIntAct",
            "SrcExtAct", "CommandExt", "ProcedureExt")
BY_HAND = ("CommandOp", "ProcedureOp")
SET_BY, LIMITS = "VExt", ("VMin", "VMax")
# How a value is shown: its unit, its scale, and the texts of truth values and numbers.
UNIT, SCALE = "VUnit", ("VSclMin", "VSclMax")
SHOWN = (UNIT, *SCALE)
STATE_TEXT, NUMBER = r"VState([0-9]{1,10})", r"-?[0-9]{1,10}"
# Units by their codes: those that one meets most.
UNITS = {1000: "K", 1001: "°C", 1002: "°F", 1010: "m", 1012: "cm", 1013: "mm", 1034: "m³", 1038: "l", 1054: "s",
         1058: "min", 1059: "h", 1088: "kg", 1089: "g", 1092: "t", 1130: "Pa", 1133: "kPa", 1137: "bar", 1138: "mbar",
         1342: "%", 1349: "m³/h", 1353: "l/h", 1422: "pH"}
