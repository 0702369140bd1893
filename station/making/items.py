"""The attributes of data assemblies, and the groups in which the standard and drafts of it have them."""

BY = ("Op", "Aut", "Act")
MODE = [f"{state}{by}" for state in ("StateOff", "StateOp", "StateAut") for by in BY] + ["StateChannel"]
SOURCE = [f"{source}{by}" for source in ("SrcInt", "SrcExt") for by in BY] + ["SrcChannel"]
SET = ["WQC", "OSLevel", "VOp", "VInt", "VExt", "VReq", "VOut", "VFbk"]
NUMBER = [*SET, "VUnit", "VSclMin", "VSclMax", "VMin", "VMax", "Sync", "ApplyEn", "ApplyOp", "ApplyInt", "ApplyExt", *MODE,
          *SOURCE]
VIEW = ["WQC", "V", "VUnit", "VSclMin", "VSclMax"]
ITEMS = {
    "ServiceControl": ["WQC", "OSLevel", "CommandOp", "CommandInt", "CommandExt", "ProcedureOp", "ProcedureInt",
                       "ProcedureExt", "StateCur", "CommandEn", "ProcedureCur", "ProcedureReq", "PosTextID",
                       "InteractQuestionID", "InteractAnswerID", "InteractAddInfo", *MODE, *SOURCE],
    "AnaServParam": NUMBER, "DIntServParam": NUMBER,
    "BinServParam": [*SET, "VState0", "VState1", "ApplyEn", "ApplyExt"],
    "StringServParam": [*SET, "ApplyEn", "ApplyExt"],
    "AnaView": VIEW, "DIntView": VIEW, "BinView": ["WQC", "V", "VState0", "VState1"], "StringView": ["WQC", "Text"],
    "AnaMon": [*VIEW, "VAHEn", "VAHLim", "VAHAct", "VALEn", "VALLim", "VALAct", "OSLevel"],
    "BinMon": ["WQC", "V", "VState0", "VState1", "VFlaEn", "VFlaTime", "VFlaAct", "OSLevel"],
    "PIDCtrl": ["WQC", "PV", "SP", "MV"], "MonBinVlv": ["WQC", "Ctrl"], "LockView4": ["WQC", "Out"],
    "HealthStateView": ["WQC"],
}
STANDARD_GROUPS = {
    "ServiceControl": "ServiceElement/", "AnaServParam": "ParameterElement/", "DIntServParam": "ParameterElement/",
    "BinServParam": "ParameterElement/", "StringServParam": "ParameterElement/", "AnaView": "IndicatorElement/",
    "DIntView": "IndicatorElement/", "BinView": "IndicatorElement/", "StringView": "IndicatorElement/",
    "AnaMon": "IndicatorElement/AnaView/", "BinMon": "IndicatorElement/BinView/", "PIDCtrl": "ActiveElement/",
    "MonBinVlv": "ActiveElement/BinVlv/", "LockView4": "DiagnosticElement/", "HealthStateView": "DiagnosticElement/"}
DRAFT_GROUPS = {"AnaServParam": "OperationElement/", "AnaMon": "IndicatorElement/"}


def is_written(item):
    """Whether a control system writes an item, and doesn't only read it."""
    return item.endswith(("Op", "Ext", "Aut")) and not item.startswith("Interact")
