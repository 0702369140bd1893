"""The codes of VDI/VDE/NAMUR 2658 part 4 in the profile of docs/RULES.md: states, commands, modes and sources."""

STATES = {"Stopped": 4, "Starting": 8, "Idle": 16, "Paused": 32, "Execute": 64, "Stopping": 128, "Aborting": 256,
          "Aborted": 512, "Holding": 1024, "Held": 2048, "Unholding": 4096, "Pausing": 8192, "Resuming": 16384,
          "Resetting": 32768, "Completing": 65536, "Completed": 131072}
COMMANDS = {"Reset": 2, "Start": 4, "Stop": 8, "Hold": 16, "Unhold": 32, "Pause": 64, "Resume": 128, "Abort": 256,
            "Restart": 512, "Complete": 1024}
STATE_NAMES = {code: name for name, code in STATES.items()}
COMMAND_NAMES = {code: name for name, code in COMMANDS.items()}
# The item that shows each mode and each source, and the one by which an operator chooses it.
MODES = {"Off": "StateOff", "Operator": "StateOp", "Automatic": "StateAut"}
SOURCES = {"Internal": "SrcInt", "External": "SrcExt"}
SHOWS, CHOOSES = "Act", "Op"
# Who writes a command, a procedure or a parameter: a recipe, or an operator.
BY_RECIPE, BY_HAND = "Ext", "Op"
# The worst quality code of a value: from here on it is uncertain, and from here on good.
QUALITY, LEAST_UNCERTAIN, LEAST_GOOD, GOOD = "WQC", 64, 128, 255
