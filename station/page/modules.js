// The modules: who has each, what its services are in, what it shows, and the commands that the person may give.
"use strict";
const modules = (() => {
  const { make, kept, button, faint } = draw;
  const STYLES = { Idle: "idle", Execute: "run", Completed: "full", Starting: "move", Completing: "move",
    Resetting: "move", Resuming: "move", Unholding: "move", Pausing: "pause", Paused: "pause", Holding: "hold",
    Held: "hold", Stopping: "stop", Stopped: "stop", Aborting: "abort", Aborted: "abort" };
  const chosen = {};
  const LOUD = new Set(["Stop", "Abort"]), SURE = new Set(["Abort"]);
  // A value as it is read: with its unit, or by its text where it has one.
  function value(each) {
    const holds = each.value !== null;
    const text = !holds ? "–" : each.texts[Number(each.value)] ?? `${words.value(each.value, each.kind)} ${each.unit}`;
    const told = each.told === null ? "–" : words.value(each.told, each.kind);
    const more = each.is_good ? "" : words.say("badQuality", told);
    return make("span", { class: each.is_good ? null : "bad" }, `${words.visible(each.label)}: ${text.trim()}`, more);
  }
  // How a state is drawn, by its name.
  const style = name => STYLES[name] ?? "unreported";
  const state = code => make("span", { class: `state ${style(words.state(code))}` }, words.state(code));
  // The modes and sources into which the person may put a service.
  const whyNoMode = ({ may_choose: mayChoose }) => (mayChoose ? null : page.state.live.by ? { denied: true }
    : { station: "nobody" });
  function choices(tag, service) {
    const { Mode, Src } = service.view, why = whyNoMode(service);
    const isInternal = Mode === "Automatic" && Src === "Internal";
    const own = [Mode === "Operator" ? "Automatic" : "Operator", ...(isInternal ? ["External"] : [])];
    return own.map(word => button(words.say("putInto", word), { do: "choose", tag, service: service.name, word }, why));
  }
  // Why the person may not give a command now, as `pol` would answer it.
  const whyNot = ({ whys }, code) => whys.find(([mask]) => mask & code)?.[1] ?? { station: "not_now" };
  // The commands, each enabled where its bit is in the mask that `pol` gives for this person.
  function commands(tag, service) {
    return Object.entries(docs.commands).map(([code, name]) => {
      const why = service.may & Number(code) ? null : whyNot(service, Number(code));
      return button(name, { do: "desk", tag, service: service.name, command: Number(code) }, why,
        { loud: LOUD.has(name), sure: SURE.has(name), tip: name === "Stop" ? "tip_stopByHand" : null });
    });
  }
  const buttons = all => make("div", { class: "buttons" }, ...all);
  function service(tag, each) {
    const { view } = each, mode = view ? `${view.Mode}${view.Mode === "Automatic" ? `, ${view.Src}` : ""}` : "";
    return make("div", { class: "service", "data-key": `service ${each.name}` },
      make("div", { class: "head" }, make("b", {}, words.visible(each.label)),
        view ? state(view.StateCur) : make("span", { class: "state" }, words.say("unreported")), faint(mode)),
      view ? kept("modes", [view.Mode, view.Src, whyNoMode(each)], () => buttons(choices(tag, each))) : null,
      kept("commands", [each.may, each.whys], () => buttons(commands(tag, each))));
  }
  // Who has a module, or that it is away.
  function whose(module) {
    if (module.ticket !== null) return words.say("awayUnder", module.ticket);
    const held = module.holder ? words.say("heldBy", module.holder) : words.say("free");
    return module.watchers.length ? `${held}, ${words.say("watchedBy", module.watchers.join(", "))}` : held;
  }
  // What may be done to the module as a whole; while it is away, how its exchange may end.
  function deeds(module) {
    const { tag, presses } = module;
    if (module.ticket === null) {
      return [button(words.say("exchange"), { do: "exchange_begin", tag }, presses.exchange_begin),
        button(words.say("unplugIt"), { do: "unplug", tag }, presses.unplug, { sure: true })];
    }
    const packages = module.ends.filter(each => each.package !== null);
    const old = module.ends.find(each => each.package === null), first = packages.find(each => each.why === null);
    const own = packages.find(each => each.package === chosen[tag]) ?? first ?? packages[0];
    return [field(tag, packages, own),
      button(words.say("isInPlace"), { do: "exchange_end", tag, package: own.package }, own.why),
      button(words.say("oldIsBack"), { do: "exchange_cancel", tag }, old.why)];
  }
  // The packages of what may have come in a module's place, one of which is chosen.
  function field(tag, packages, own) {
    const options = packages.map(({ package: name }) =>
      make("option", { value: name, "data-key": name, selected: name === own.package }, name));
    return make("select", { "data-tag": tag, "data-key": "field", "data-value": own.package,
      "aria-label": words.say("package") }, ...options);
  }
  const choose = each => { chosen[each.dataset.tag] = each.value; };
  // What a module shows that is in its place.
  const shown = each => [make("div", { class: "values" }, ...each.values.map(value)),
    ...each.services.map(own => service(each.tag, own)), trends.place(each.tag)];
  function module(each) {
    const style = each.ticket !== null ? "away" : each.is_there ? "" : "gone";
    const isOld = each.ticket === null && !each.is_there;
    return make("article", { class: `item ${style}`.trim(), "data-key": `module ${each.tag}` },
      make("h3", {}, make("span", {}, each.tag), faint(`${each.type} ${each.version}`),
        make("span", { class: "push" }), faint(whose(each))),
      isOld ? make("p", { class: "bad" }, words.say("notThere")) : null,
      ...(each.ticket === null ? shown(each) : []),
      kept("deeds", [each.ticket, each.presses, each.ends, chosen[each.tag]], () => buttons(deeds(each))));
  }
  // A tag of the site under which nothing stands.
  function absent({ tag, package: name, why }) {
    return make("article", { class: "item away", "data-key": `module ${tag}` },
      make("h3", {}, make("span", {}, tag), faint(words.say("unplugged"))),
      make("div", { class: "buttons", "data-key": "deeds" },
        button(words.say("plugIt", name), { do: "plug", tag, package: name }, why)));
  }
  const show = live => draw.into("module-list", ...live.modules.map(module), ...live.absent.map(absent));
  return { show, choose, style };
})();
