// German for the words of docs/RULES.md and docs/GUIDE.md, by the same keys as in docs.js: of a rule when it holds and
// what to do, of a wait what is waited for and what to look at. Behind them stands a sum of the English that they say:
// where that changed, the checks fail until somebody has looked at the German. Names of rules, states and commands stay
// the standard's; Stop is "stoppen" and Hold is "halten".
"use strict";
const german = {
  rules: {
    TagTaken: ["unter dem Tag ist ein Modul angedockt oder im Tausch",
      "zuerst das Modul dieses Tags ziehen, oder es tauschen", "2c9fc9b7"],
    NoModule: ["unter dem Tag ist kein Modul angedockt oder im Tausch",
      "das Modul stecken; nach einem vertippten Tag suchen", "a4cd727f"],
    PlantFull: ["64 Module sind angedockt oder im Tausch",
      "ein Modul ziehen, das nicht mehr gebraucht wird", "48a9b172"],
    Held: ["diese offene Charge belegt das Modul",
      "das Ende der genannten Charge abwarten, sie stoppen oder aufgeben, oder das Modul tauschen", "051ae19f"],
    InExchange: ["das Modul des Tags ist im Tausch, mit diesem Ticket",
      "den Tausch mit dem genannten Ticket beenden oder absagen", "50433a20"],
    NotInExchange: ["das Modul des Tags ist angedockt",
      "es ist nichts zu beenden; der Tausch wurde vorher beendet oder abgesagt", "7e417757"],
    WrongTicket: ["die beiden Tickets sind verschieden: das des Tausches und das des Ereignisses",
      "das Ticket {kept} verwenden; wer ein anderes hat, dessen Tausch ist vorbei, und jemand begann einen neuen",
      "b307abc1"],
    NoService: ["die Beschreibung des Moduls hat keinen solchen Dienst",
      "nach einem vertippten Namen suchen; mit der gesteckten Beschreibung vergleichen", "697449a1"],
    NotAnEdge: ["der Dienst hat seit dem Andocken einen Zustand gemeldet, der neue ist ein anderer, und keine Kante "
      + "führt dorthin",
      "eine Meldung ging verloren oder ist falsch. Die Zustände melden, die durchlaufen wurden, in ihrer Reihenfolge. "
      + "Ein Modul, das keine offene Charge belegt oder beobachtet, darf auch gezogen und wieder gesteckt werden. "
      + "Eines, auf dem kein Schritt läuft und dessen Dienste zuletzt in Ruhe gemeldet wurden, darf getauscht werden, "
      + "oder sein Tausch begonnen und abgesagt. Es beginnt dann ungemeldet", "e749fbd7"],
    NoVariable: ["die Beschreibung des Moduls hat keine solche Variable",
      "nach einem vertippten Namen suchen; mit der gesteckten Beschreibung vergleichen", "1c75e0b7"],
    WrongKind: ["der Wert ist keine ganze Zahl für AnaView oder DIntView, kein Wahrheitswert für BinView, kein Text "
      + "für StringView",
      "der Wert passt nicht zur Art der Variablen; mit der Beschreibung vergleichen", "421c398f"],
    RecipeKnown: ["ein Rezept dieses Namens wurde angenommen",
      "ein Rezept wird nie geändert; dem neuen einen anderen Namen geben", "4357b55f"],
    NoRecipe: ["kein Rezept dieses Namens wurde angenommen", "zuerst das Rezept senden", "e28e679b"],
    BatchKnown: ["eine Charge dieses Namens wurde gestartet, ob offen oder geschlossen",
      "Namen von Chargen gelten einmal; einen anderen nehmen", "847847ae"],
    NoBatch: ["keine Charge dieses Namens wurde gestartet",
      "sie starten; nach einem vertippten Namen suchen", "d94f6b22"],
    BatchClosed: ["die Charge ist geschlossen", "die Charge ist vorbei; ihr Ausgang steht in ihrer Zeile", "f034380d"],
    RoleUnbound: ["der Start bindet und beobachtet kein Modul für diese Rolle, die erste solche in der Reihenfolge "
      + "des Rezepts",
      "für jede Rolle des Rezepts ein Modul binden oder beobachten, und für keine andere Rolle", "52c33b55"],
    RoleUnknown: ["der Start bindet oder beobachtet ein Modul für diese Rolle, die dem Rezept fehlt; die erste solche "
      + "in Byte-Reihenfolge",
      "für jede Rolle des Rezepts ein Modul binden oder beobachten, und für keine andere Rolle", "273b14e2"],
    OneModuleTwice: ["dieses Modul spielt zwei Rollen, gebunden oder beobachtet; das erste in der Reihenfolge der "
      + "Rollen des Rezepts, das eine frühere Rolle hat",
      "für eine der beiden Rollen ein anderes Modul binden oder beobachten", "cd745957"],
    WrongType: ["der Typ des Moduls ist nicht der der Rolle",
      "ein Modul vom Typ und von den Versionen der Rolle binden", "5f7f9ab4"],
    WrongVersion: ["nach semver erfüllt die Version des Moduls nicht, was die Rolle verlangt",
      "ein Modul vom Typ und von den Versionen der Rolle binden", "62c73738"],
    NotCovered: ["das Modul kann diesen Schritt der Rolle nicht, den ersten solchen in der Reihenfolge des Plans; "
      + "oder es kann alle und hat keine passende Variable dieses Namens, die erste solche in der Reihenfolge des "
      + "Auftretens",
      "das Modul kann den Schritt {missing} nicht, oder ihm fehlt die Variable {missing}. Eines von sieben: es hat "
      + "keinen solchen Dienst; keine solche Prozedur; keinen solchen Parameter; der Wert der Einstellung liegt "
      + "außerhalb seines Bereichs; oder ist von anderer Art; der Schritt hat ein {finish}, wo die Prozedur von "
      + "selbst endet, oder keines, wo sie es nicht tut (dann ist das Rezept falsch); es hat keine solche Variable, "
      + "oder eine von einer Art, die die Bedingung nicht vergleichen kann", "d6489d3a"],
    NotReported: ["dieser Dienst wurde seit dem Andocken nicht gemeldet",
      "den Dienst seit dem Andocken einmal melden lassen", "ba2dd915"],
    NotIdle: ["der Dienst wurde in diesem Zustand gemeldet, und er ist nicht Idle",
      "den Dienst nach Idle bringen, nötigenfalls von Hand, und ihn melden lassen", "a87d1068"],
    Busy: ["diese offene Charge belegt das Modul, das der Start bindet; das erste solche in der Reihenfolge der "
      + "Rollen",
      "auf die andere Charge warten, oder ein anderes Modul binden", "f5d13c08"],
    BatchesFull: ["128 Chargen wurden gestartet",
      "die geschlossenen Chargen vergessen: das tut ./renew mit einer gespeicherten Anlage", "7df3a991"],
    NotAtRest: ["dieser Dienst wurde zuletzt in einem anderen Zustand als Idle, Completed, Stopped, Aborted gemeldet; "
      + "der erste solche in der Reihenfolge der Beschreibung",
      "den Dienst vor dem Tausch fertig werden lassen oder stoppen", "1cf64946"],
    ActiveStep: ["die Charge, die das Modul belegt, hat diesen Schritt darauf aktiv; den ersten solchen in der "
      + "Reihenfolge des Plans",
      "den Schritt vor dem Tausch enden lassen, oder die Charge stoppen", "9ba74d96"],
    HeldBack: ["das neue Modul passt nicht zu seiner Rolle in dieser Charge: der, die den Tag belegt, sonst der "
      + "ersten von denen, die ihn beobachten",
      "ein Modul bringen, das zu seiner Rolle passt, in der Charge, die den Tag belegt, und in jeder, die ihn "
      + "beobachtet, oder den Tausch absagen", "01089b80"],
    ModeForbids: ["in der zuletzt gemeldeten Betriebsart darf ein Bediener nicht befehlen",
      "den Dienst in die Betriebsart Operator bringen, bevor er von Hand befohlen wird", "4da4ac5d"],
    StateForbids: ["keine Kante mit dem Befehl verlässt den zuletzt gemeldeten Zustand",
      "der Zustandsautomat hat vom zuletzt gemeldeten Zustand aus keine solche Kante: auf einen anderen Zustand "
      + "warten, oder einen anderen Befehl geben", "b8ea89b8"],
    NotEnabled: ["das Bit des Befehls steht nicht im zuletzt gemeldeten CommandEn",
      "das Modul gibt den Befehl jetzt nicht frei: auf eine Meldung warten, deren CommandEn ihn hat", "04c62a4e"],
    OutOfRange: ["der Wert einer DIntView liegt außerhalb von 32 Bit",
      "der Wert passt nicht zur Art der Variablen; mit der Beschreibung vergleichen", "5e977ca5"],
    NotFrozen: ["das letzte angenommene Einfrieren, Auftauen oder Stoppen der Charge ist kein Einfrieren, oder es "
      + "gibt keines",
      "nichts ist zu tun", "6cc387bf"],
    AlreadyFrozen: ["das letzte angenommene Einfrieren, Auftauen oder Stoppen der Charge ist ein Einfrieren; und hold "
      + "ist in diesem false oder in jenem true",
      "nichts ist zu tun", "d6cdbb8d"],
    SelfCompletes: ["der Befehl ist Complete, und die laufende Prozedur endet von selbst",
      "die Prozedur endet von selbst; sie nimmt kein Complete", "bd040ea6"],
    RecipesFull: ["64 Rezepte sind bekannt",
      "ein neues Journal beginnen, sobald die offenen Chargen geschlossen sind", "a154f6b2"],
    HistoryFull: ["die Historie hat 200.000 Einträge; das Ereignis wird dann nicht aufgezeichnet",
      "die Historie nimmt nichts mehr an, auch kein Stoppen und kein Aufgeben. Eine gespeicherte Anlage geht hinter "
      + "./renew weiter, mit ihren offenen Chargen; sonst siehe, wie lange ein Journal reicht", "f8ea0c8f"],
    Watched: ["keine Charge belegt das Modul, und diese offene Charge beobachtet es; die erste solche in der "
      + "Reihenfolge der Starts",
      "das Ende der genannten Charge abwarten, sie stoppen oder aufgeben, oder das Modul tauschen", "248bc296"],
    WatchedStep: ["der Start beobachtet ein Modul für diese Rolle, und der Plan hat einen Schritt der Rolle; die "
      + "erste solche in der Reihenfolge des Rezepts",
      "das Modul binden: das Rezept hat einen Schritt dieser Rolle, und Befehle gehen nur an Module, die die Charge "
      + "belegt", "e65b4284"],
  },
  waits: {
    Frozen: ["ein Auftauen, Stoppen oder Aufgeben",
      "die Charge wurde eingefroren; auftauen, stoppen oder aufgeben. Nach einem Einfrieren mit \"hold\":true "
      + "nachsehen, ob jeder Dienst in Held ist: einer, der nicht gehalten werden darf (Betriebsart Operator, oder "
      + "seine Maske), wird nicht gebeten und läuft weiter; eine betriebene Anlage sagt es als unheld",
      "666dea01"],
    Away: ["ein Modul, das im Tausch ist",
      "das Modul {tag} wird getauscht; den Tausch beenden oder absagen", "d9f0d8ce"],
    NotReported: ["eine erste Meldung eines Dienstes oder einer Variablen seit dem Andocken",
      "seit dem Andocken kam keine Meldung und kein Wert von {name}; das Modul melden lassen", "7f8fce61"],
    InState: ["einen anderen Zustand vom Dienst des Schrittes als den genannten",
      "der Dienst von {step} ist in {state}; auf seine nächste Meldung warten. Wartet er nach einem Start in Idle, "
      + "ging der Befehl verloren (ihn noch einmal senden: die Meldung, die folgt, wird angenommen wie sonst), ging "
      + "eine Meldung verloren (die Zustände melden, die durchlaufen wurden), oder jemand anders hat den Dienst "
      + "zurückgesetzt: dann die Charge stoppen oder aufgeben. Nach einem Auftauen kann er auf Held warten, oder "
      + "darauf, dass der Dienst es verlässt", "83ecfb4b"],
    Forbidden: ["eine Betriebsart, einen Zustand oder ein Freigabebit: der Grund ist einer der vier oben, für ein "
      + "Rezept",
      "{by} sagt, warum ein Rezept jetzt nicht befehlen darf: ModeForbids, das Modul ist nicht in Automatic und "
      + "External; NotEnabled, es gibt den Befehl nicht frei; StateForbids, SelfCompletes wie in der Tabelle unten",
      "961a588d"],
    Unmet: ["die Bedingung finish des Schrittes", "die Bedingung des Schrittes ist noch nicht wahr", "2a945e89"],
    NoArm: ["einen Zweig, dessen Bedingung wahr ist",
      "kein Zweig der Auswahl ist für die zuletzt gemeldeten Werte wahr", "75f3e395"],
  },
  forbids: {
    ModeForbids: ["in der zuletzt gemeldeten Betriebsart und Quelle darf der Sprecher nicht befehlen", "0cc40250"],
    SelfCompletes: ["der Befehl ist Complete, und die laufende Prozedur endet von selbst", "96507675"],
    StateForbids: ["keine Kante mit diesem Befehl verlässt den zuletzt gemeldeten Zustand", "db19a9fc"],
    NotEnabled: ["das Bit des Befehls steht nicht im zuletzt gemeldeten CommandEn; andere Bits zählen nicht",
      "4045ca9f"],
  },
  events: {
    plug: ["erledigt; das Modul ist unter seinem Tag angedockt", "3d44301d"],
    unplug: ["erledigt; der Tag ist frei", "8f7d8b79"],
    report: ["erledigt; das ist die letzte Meldung des Dienstes", "2267a7e6"],
    variable: ["erledigt; das ist der letzte Wert der Variablen", "d51b9042"],
    recipe: ["erledigt; das Rezept ist bekannt", "095957e3"],
    start: ["erledigt; die Charge ist offen, belegt die Module, die sie bindet, und beobachtet die anderen",
      "b74b4936"],
    advance: ["getan, wartend oder geschlossen, wie bei den Chargen gesagt", "b03bc46b"],
    freeze: ["erledigt", "a4c3ed04"],
    thaw: ["erledigt", "a4c3ed04"],
    stop: ["stop_asked, oder erledigt, wo sie schon brach oder stoppen sollte", "58c16eec"],
    abandon: ["geschlossen als Abandoned", "555957cf"],
    desk: ["erlaubt; der Befehl darf für den Bediener gesendet werden", "b5ad80fc"],
    exchange_begin: ["das Ticket; das Modul ist im Tausch", "aa09eeb1"],
    exchange_end: ["erledigt; das neue Modul ist angedockt", "b9dcc5b6"],
    exchange_cancel: ["erledigt; das alte Modul ist angedockt", "76092c84"],
  },
  does: {
    freeze: ["advance tut nichts bis zu einem Auftauen, Stoppen, Aufgeben oder einem Einfrieren mit hold true. Nichts "
      + "wird gesandt; Dienste laufen weiter.", "b5c9e39b"],
    freezeHolding: ["jedes advance verlangt Hold von einem Dienst der Charge; ist keiner mehr zu bitten, wartet es. "
      + "Eine Charge, die mit hold false eingefroren war, wird dazu angehoben.", "89c9f3c0"],
    thaw: ["die Charge macht weiter, wo sie war; was gehalten war, wird vorher fortgesetzt", "61283f7e"],
    abandon: ["sofort geschlossen als Abandoned. Kein Befehl wird gesandt, ihre Dienste bleiben also, wie sie sind; "
      + "ihre Module sind frei.", "a8835c0c"],
  },
};
