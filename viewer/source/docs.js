// The words of docs/RULES.md and docs/GUIDE.md: rules, waits, events, states and commands. Written by
// words-from-docs, never by hand. Knows nothing of the page, and has no word that isn't in the docs.
"use strict";
const docs = {
  rules: {
    TagTaken: {
      "number": 1,
      "star": false,
      "holds": "a module is docked or away under the tag",
      "remedy": "unplug the module of this tag first, or exchange it"
    },
    NoModule: {
      "number": 2,
      "star": false,
      "holds": "no module is docked or away under the tag",
      "remedy": "plug it; look for a mistyped tag"
    },
    PlantFull: {
      "number": 3,
      "star": true,
      "holds": "64 modules are docked or away",
      "remedy": "unplug a module that is no longer needed"
    },
    Held: {
      "number": 4,
      "star": true,
      "holds": "this open batch holds the module",
      "remedy": "wait for the end of the batch that is told, stop or abandon it, or exchange the module"
    },
    InExchange: {
      "number": 5,
      "star": false,
      "holds": "the tag's module is away, with this ticket",
      "remedy": "end or cancel the exchange with the ticket that is told"
    },
    NotInExchange: {
      "number": 6,
      "star": false,
      "holds": "the tag's module is docked",
      "remedy": "nothing is to be ended; the exchange was ended or cancelled before"
    },
    WrongTicket: {
      "number": 7,
      "star": false,
      "holds": "the two tickets differ: the exchange's, and that of the event",
      "remedy": "use the ticket {kept}; if you have another one, your exchange is over and somebody began a new one"
    },
    NoService: {
      "number": 8,
      "star": false,
      "holds": "the module's description has no such service",
      "remedy": "look for a mistyped name; compare with the description that was plugged"
    },
    NotAnEdge: {
      "number": 9,
      "star": false,
      "holds": "the service reported a state since docking, the new one is another, and no edge leads there",
      "remedy": "a report was lost or is wrong. Report the states that were passed, in their order (a report was lost). A module that no open batch holds or watches may also be unplugged and plugged again. One on which no step runs and whose services were last reported at rest may be exchanged, or its exchange begun and cancelled. It then begins unreported"
    },
    NoVariable: {
      "number": 10,
      "star": false,
      "holds": "the module's description has no such variable",
      "remedy": "look for a mistyped name; compare with the description that was plugged"
    },
    WrongKind: {
      "number": 11,
      "star": false,
      "holds": "the value isn't a whole number for AnaView or DIntView, a truth value for BinView, a text for StringView",
      "remedy": "the value doesn't fit the variable's kind; compare with the description"
    },
    RecipeKnown: {
      "number": 12,
      "star": false,
      "holds": "a recipe of this name was accepted",
      "remedy": "a recipe is never changed; give the new one another name"
    },
    NoRecipe: {
      "number": 13,
      "star": false,
      "holds": "no recipe of this name was accepted",
      "remedy": "send the recipe first"
    },
    BatchKnown: {
      "number": 14,
      "star": false,
      "holds": "a batch of this name was started, be it open or closed",
      "remedy": "names of batches are used once; take another"
    },
    NoBatch: {
      "number": 15,
      "star": false,
      "holds": "no batch of this name was started",
      "remedy": "start it; look for a mistyped name"
    },
    BatchClosed: {
      "number": 16,
      "star": false,
      "holds": "the batch is closed",
      "remedy": "the batch is over; its outcome stands in its line"
    },
    RoleUnbound: {
      "number": 17,
      "star": false,
      "holds": "the start neither binds nor watches a module for this role, the first such in the recipe's order",
      "remedy": "bind or watch one module for each role of the recipe, and for no other role"
    },
    RoleUnknown: {
      "number": 18,
      "star": false,
      "holds": "the start binds or watches a module for this role, which the recipe lacks; the first such in byte order",
      "remedy": "bind or watch one module for each role of the recipe, and for no other role"
    },
    OneModuleTwice: {
      "number": 19,
      "star": false,
      "holds": "this module plays two roles, bound or watched; the first, in the recipe's order of roles, that an earlier role has",
      "remedy": "bind or watch another module for one of the two roles"
    },
    WrongType: {
      "number": 20,
      "star": false,
      "holds": "the module's type isn't the role's",
      "remedy": "bind a module of the role's type and versions"
    },
    WrongVersion: {
      "number": 21,
      "star": false,
      "holds": "semver says that the module's version doesn't meet the role's requirement",
      "remedy": "bind a module of the role's type and versions"
    },
    NotCovered: {
      "number": 22,
      "star": false,
      "holds": "the module can't do this step of the role, the first such in chart order; or, where it can do all, it has no fitting variable of this name, the first such in order of appearance",
      "remedy": "the module can't do the step {missing}, or lacks the variable {missing}. One of seven: it has no such service; no such procedure; no such parameter; the setting's value is outside its range; or of another kind; the step has a {finish} where the procedure completes by itself, or none where it doesn't (then the recipe is at fault); it has no such variable, or one of a kind that the condition can't compare"
    },
    NotReported: {
      "number": 23,
      "star": false,
      "holds": "this service wasn't reported since docking",
      "remedy": "let the service report once since it was docked"
    },
    NotIdle: {
      "number": 24,
      "star": false,
      "holds": "the service was reported in this state, which isn't Idle",
      "remedy": "bring the service to Idle, by hand if need be, and report it"
    },
    Busy: {
      "number": 25,
      "star": true,
      "holds": "this open batch holds the module, which the start binds; the first such in the order of roles",
      "remedy": "wait for the other batch, or bind another module"
    },
    BatchesFull: {
      "number": 26,
      "star": true,
      "holds": "128 batches were started",
      "remedy": "forget the batches that are closed: ./renew does that with a kept plant"
    },
    NotAtRest: {
      "number": 27,
      "star": false,
      "holds": "this service was reported last in a state other than Idle, Completed, Stopped, Aborted; the first such in the description's order",
      "remedy": "let the service finish, or stop it, before the exchange"
    },
    ActiveStep: {
      "number": 28,
      "star": true,
      "holds": "the batch that holds the module has this active step on it; the first such in chart order",
      "remedy": "let the step end, or stop the batch, before the exchange"
    },
    HeldBack: {
      "number": 29,
      "star": true,
      "holds": "the new module doesn't fit its role in this batch: the one that holds the tag, or else the first of those that watch it",
      "remedy": "bring a module that fits its role in the batch that holds the tag and in each that watches it, or cancel the exchange"
    },
    ModeForbids: {
      "number": 30,
      "star": false,
      "holds": "an operator may not command in the last reported mode",
      "remedy": "put the service into mode Operator before you command it by hand"
    },
    StateForbids: {
      "number": 31,
      "star": false,
      "holds": "no edge with the command leaves the last reported state",
      "remedy": "the state machine has no such edge from the last reported state: wait for another state, or give another command"
    },
    NotEnabled: {
      "number": 32,
      "star": false,
      "holds": "the command's bit isn't in the last reported CommandEn",
      "remedy": "the module doesn't enable the command now: wait for a report whose CommandEn has it"
    },
    OutOfRange: {
      "number": 33,
      "star": false,
      "holds": "the value of a DIntView is outside 32 bits",
      "remedy": "the value doesn't fit the variable's kind; compare with the description"
    },
    NotFrozen: {
      "number": 34,
      "star": false,
      "holds": "the last accepted freeze, thaw or stop of the batch isn't a freeze, or there is none",
      "remedy": "nothing is to be done"
    },
    AlreadyFrozen: {
      "number": 35,
      "star": false,
      "holds": "the last accepted freeze, thaw or stop of the batch is a freeze; and hold is false in this freeze or true in that one",
      "remedy": "nothing is to be done"
    },
    SelfCompletes: {
      "number": 36,
      "star": false,
      "holds": "the command is Complete, and the running procedure completes by itself",
      "remedy": "the procedure completes by itself; it takes no Complete"
    },
    RecipesFull: {
      "number": 37,
      "star": false,
      "holds": "64 recipes are known",
      "remedy": "begin a new journal once the open batches are closed"
    },
    HistoryFull: {
      "number": 38,
      "star": true,
      "holds": "the history has 200,000 entries; the event is then not recorded",
      "remedy": "the history takes nothing more, a stop or an abandon neither. A kept plant goes on behind ./renew, with its open batches; else see how long a journal lasts"
    },
    Watched: {
      "number": 39,
      "star": true,
      "holds": "no batch holds the module, and this open batch watches it; the first such in the order of the starts",
      "remedy": "wait for the end of the batch that is told, stop or abandon it, or exchange the module"
    },
    WatchedStep: {
      "number": 40,
      "star": false,
      "holds": "the start watches a module for this role, and the chart has a step of the role; the first such in the recipe's order",
      "remedy": "bind the module: the recipe has a step of this role, and commands go only to modules that the batch holds"
    },
  },
  waits: {
    Frozen: {
      "for": "a thaw, a stop or an abandon",
      "look": "the batch was frozen; thaw, stop or abandon it. After a freeze with \"hold\":true look whether each service is Held: one that may not be held (mode Operator, or its mask) isn't asked, and runs on; an operated plant tells it as {unheld}"
    },
    Away: {
      "for": "a module that is in exchange",
      "look": "the module {tag} is being exchanged; end or cancel the exchange"
    },
    NotReported: {
      "for": "a first report of a service or variable since docking",
      "look": "no report or value of {name} came since the module was docked; let the module tell it"
    },
    InState: {
      "for": "another state of the step's service than the one told",
      "look": "the service of {step} is in {state}; wait for its next report. If it waits in Idle after a start, the command was lost (send it again: the report that follows is taken as ever), a report was lost (what helps), or somebody else has reset the service: then stop or abandon the batch. After a thaw it may wait for Held, or for the service to leave it (hold a batch)"
    },
    Forbidden: {
      "for": "a mode, state or enabled bit: the reason is one of the four above, for a recipe",
      "look": "{by} says why a recipe may not command now: ModeForbids, the module isn't in Automatic and External; NotEnabled, it doesn't enable the command; StateForbids, SelfCompletes as in the table below"
    },
    Unmet: {
      "for": "the step's finish condition",
      "look": "the step's condition isn't true yet"
    },
    NoArm: {
      "for": "an arm whose condition is true",
      "look": "no arm of the selection is true for the values reported last"
    },
  },
  forbids: {
    ModeForbids: "the speaker may not command in the last reported mode and source",
    SelfCompletes: "the command is Complete, and the running procedure completes by itself",
    StateForbids: "no edge with this command leaves the last reported state",
    NotEnabled: "the command's bit isn't in the last reported CommandEn; other bits don't matter",
  },
  events: {
    plug: "done; the module is docked under its tag",
    unplug: "done; the tag is free",
    report: "done; this is the service's last report",
    variable: "done; this is the variable's last value",
    recipe: "done; the recipe is known",
    start: "done; the batch is open, holds the modules that it binds and watches the others",
    advance: "did, waiting or closed, as told under Batches",
    freeze: "done",
    thaw: "done",
    stop: "did stop_asked, or done where it broke or was asked before",
    abandon: "closed as Abandoned",
    desk: "did asked; the command may be sent for the operator",
    exchange_begin: "the ticket; the module is away",
    exchange_end: "done; the new module is docked",
    exchange_cancel: "done; the old module is docked",
  },
  does: {
    freeze: "advance does nothing until a thaw, a stop, an abandon or a freeze with hold true. Nothing is sent; services go on.",
    freezeHolding: "each advance sends Hold to one service of the batch; when none is left to be asked it waits. A batch that was frozen with hold false is raised to this.",
    thaw: "the batch goes on where it was; what was held is unheld first",
    abandon: "closed at once as Abandoned. No command is sent, so its services go on as they are; its modules are free.",
  },
  states: {
    4: "Stopped",
    8: "Starting",
    16: "Idle",
    32: "Paused",
    64: "Execute",
    128: "Stopping",
    256: "Aborting",
    512: "Aborted",
    1024: "Holding",
    2048: "Held",
    4096: "Unholding",
    8192: "Pausing",
    16384: "Resuming",
    32768: "Resetting",
    65536: "Completing",
    131072: "Completed",
  },
  commands: {
    2: "Reset",
    4: "Start",
    8: "Stop",
    16: "Hold",
    32: "Unhold",
    64: "Pause",
    128: "Resume",
    256: "Abort",
    512: "Restart",
    1024: "Complete",
  },
};
