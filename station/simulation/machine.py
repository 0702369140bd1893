"""The state machine of a service, after VDI/VDE/NAMUR 2658 part 4 in the profile of docs/RULES.md."""
from adapters.codes import COMMANDS, STATES

STOPPED, ABORTED = ("Stopping", "Stopped"), ("Aborting", "Aborted")
HELD_FROM = ("Starting", "Execute", "Completing", "Pausing", "Paused", "Resuming", "Unholding")
# The state to which each command leads from a state.
BY_COMMAND = {("Idle", "Start"): "Starting", ("Execute", "Restart"): "Starting", ("Execute", "Complete"): "Completing",
              ("Execute", "Pause"): "Pausing", ("Paused", "Resume"): "Resuming", ("Held", "Unhold"): "Unholding",
              **{(state, "Reset"): "Resetting" for state in ("Completed", "Stopped", "Aborted")},
              **{(state, "Hold"): "Holding" for state in HELD_FROM},
              **{(state, "Stop"): "Stopping" for state in STATES if state not in STOPPED + ABORTED},
              **{(state, "Abort"): "Aborting" for state in STATES if state not in ABORTED}}
# The state to which a service goes by itself. From Execute only a procedure goes that completes by itself.
BY_ITSELF = {"Starting": "Execute", "Execute": "Completing", "Completing": "Completed", "Resetting": "Idle",
             "Pausing": "Paused", "Resuming": "Execute", "Holding": "Held", "Unholding": "Execute",
             "Stopping": "Stopped", "Aborting": "Aborted"}
AT_REST = ("Idle", "Completed", "Stopped", "Aborted")


def commands_from(state, is_self_completing):
    """The commands that a service takes in a state."""
    return [command for start, command in BY_COMMAND
            if start == state and not (is_self_completing and command == "Complete")]


def mask(commands):
    """These commands as a CommandEn."""
    return sum(COMMANDS[command] for command in commands)
