// Plain sentences for events and answers in the chosen language, and numbers as they are said. Takes its words from
// labels.js, docs.js and german.js. Knows nothing of drawing, and nothing of what happened before an event.
"use strict";
const words = (() => {
  let language = 0;
  const TURNS = /[\u0000-\u001f\u007f-\u009f\u00ad\u061c\u200b-\u200f\u2028-\u202e\u2060-\u2069\ufeff\ud800-\udfff]/gu;
  // Shows what could steer a screen or turn the order of writing as its escape, so that a text looks like what it is.
  const visible = text => String(text).replace(TURNS, sign => "\\u" + sign.charCodeAt(0).toString(16).padStart(4, "0"));
  const listed = pairs => Object.entries(pairs ?? {}).map(([role, tag]) => `${role} = ${tag}`).join(", ");
  // Which modules play a batch's roles, and which it watches.
  const played = ({ bind, watch }) => listed(bind) + (Object.keys(watch).length ? say("watches", listed(watch)) : "");
  // How a field of an event or an answer is said.
  const SAID = {
    state: code => docs.states[code] ?? `state ${code}`,
    command: code => docs.commands[code] ?? `command ${code}`,
    bind: listed,
    watch: watch => (watch ? say("watches", listed(watch)) : ""),
    answer: given => (given ? answer(given) : "?"),
    place: at => entryAt(at),
    left: own => leftState(own),
    who: person => (typeof person === "string" ? person : say("anOperator")),
    values: values => (Array.isArray(values) && values.length ? values.join(", ") : say("byNothing")),
  };
  function filled(form, values) {
    return form.replace(/\{([\w.]+)(?::(\w+))?\}/g, (_, path, how) => {
      const value = path.split(".").reduce((at, key) => at?.[key], values);
      return visible(how ? SAID[how](value) : value ?? "?");
    });
  }
  const say = (key, ...values) => filled(labels[key]?.[language] ?? key, values);
  const many = (key, count) => say(count === 1 && labels["n1" + key] ? "n1" + key : "n" + key, number(count));
  const form = (key, values) => filled(labels[key][language], values);
  // A whole number with its digits in groups.
  function number(value) {
    const [sign, digits] = String(value).startsWith("-") ? ["−", String(value).slice(1)] : ["", String(value)];
    return digits.length < 5 ? sign + digits : sign + digits.replace(/\B(?=(\d{3})+$)/g, "\u202f");
  }
  // An analogue value is told in whole thousandths; it is said as what it stands for, to the last digit.
  function thousandths(value) {
    const text = String(value), minus = text.startsWith("-"), digits = (minus ? text.slice(1) : text).padStart(4, "0");
    const rest = digits.slice(-3).replace(/0+$/, "");
    return (minus ? "−" : "") + digits.slice(0, -3) + (rest && (language ? "," : ".") + rest);
  }
  const isWhole = value => typeof value === "bigint" || (typeof value === "number" && Number.isInteger(value));
  function value(told, kind) {
    if (isWhole(told)) {
      return kind === "AnaView" || kind === "AnaServParam" ? thousandths(told) : String(told).replace("-", "−");
    }
    return typeof told === "string" ? `“${visible(told)}”` : visible(told);
  }
  // A service that was left running, short.
  const left = own => say("leftIn", own.service, own.tag, leftState(own));
  // In which state it was left: as reported last, if it was, and perhaps before it was started.
  function leftState({ state, isBefore }) {
    if (state === null) return say("unreportedState");
    return isBefore ? say("beforeItsStart", SAID.state(state)) : SAID.state(state);
  }
  // Which number an entry has is told by its history, which counts as an audit does: what is no entry has its line's.
  let placeOf = at => ({ entry: at + 1 });
  const places = how => { placeOf = how; };
  const entry = at => (placeOf(at).entry ? number(placeOf(at).entry) : entryAt(at));
  function entryAt(at) {
    const { entry: own, line } = placeOf(at);
    return own ? say("entryAt", number(own)) : say("atLine", number(line));
  }
  // On an axis a line that is no entry has no number.
  const tick = at => (placeOf(at).entry ? number(placeOf(at).entry) : "");
  // Milliseconds since 1970, from 2001 to 5138, are shown as a time; other stamps as numbers.
  const isTime = stamp => Number(stamp) > 1e12 && Number(stamp) < 1e14;
  function stamp(told) {
    if (!isWhole(told)) return visible(told);
    return isTime(told) ? new Date(Number(told)).toISOString().replace("T", " ").replace("Z", " UTC") : String(told);
  }
  // How long from one stamp to another, in two units at most.
  function lasted(from, to) {
    const all = to - from;
    if (!(all >= 0)) return "";
    if (!isTime(from)) return say("nStamps", number(all));
    if (all < 1000) return `${all} ms`;
    const parts = [[86400000, "d"], [3600000, "h"], [60000, "min"], [1000, "s"]];
    const first = parts.findIndex(([size]) => all >= size), [size, unit] = parts[first], below = parts[first + 1];
    const rest = below ? Math.floor((all % size) / below[0]) : Math.floor((all % size) / 100);
    if (!below) return `${Math.floor(all / size)}${rest ? (language ? "," : ".") + rest : ""} s`;
    return `${Math.floor(all / size)} ${unit}` + (rest ? ` ${rest} ${below[1]}` : "");
  }
  const EVENTS = { recipe: "recipeEvent", start: "startEvent" };
  function event(happened, kindOf = () => undefined) {
    const known = typeof happened?.ev === "string" && Object.hasOwn(docs.events, happened.ev);
    if (happened === undefined) return say("eventMissing");
    if (!known) {
      return say("noEvent") + (happened ? ": " + visible(JSON.stringify(happened, plainly)).slice(0, 300) : "");
    }
    const told = { ...happened };
    if (told.ev === "report") {
      told.mode = told.Mode === "Automatic" && told.Src === "External" ? "" : `, ${told.Mode}, ${told.Src}`;
    }
    if (told.ev === "variable") told.value = value(told.value, kindOf(told.tag, told.name));
    const key = told.ev === "freeze" && told.hold === true ? "freezeHolding" : EVENTS[told.ev] ?? told.ev;
    return form(key, told) + (told.ev !== "desk" && typeof told.by === "string" ? say("byWhom", told.by) : "");
  }
  const plainly = (_, told) => (typeof told === "bigint" ? String(told) : told);
  const named = (start, key) => start + String(key).split("_").map(part => part.charAt(0).toUpperCase() + part.slice(1))
    .join("");
  // What `pol` answered, short. The values of a decision may be given as they are said, with their variables' names.
  function answer(given, said) {
    if (!given) return say("noAnswer");
    if ("refused" in given) return `${say("refused")}: ${refusal(given)}`;
    if ("denied" in given) return given.policy === undefined ? say("deniedByNone") : say("deniedBy", given.policy);
    if ("bad" in given) {
      return `${say("refused")}: ${visible(given.bad)} ${visible(given.path ?? given.fault ?? "")}`.trim();
    }
    if ("did" in given) return known(named("did", given.did?.do), { ...given.did, values: said ?? given.did?.values });
    if ("wait" in given) return known(named("wait", given.wait), given);
    if ("closed" in given) return say("closedAs", given.closed);
    if ("ticket" in given) return say("ticket", given.ticket);
    return say("done");
  }
  // A refusal's rule with its fields, without a word around.
  const refusal = given => visible(given.rule) + details(given);
  const known = (key, values) => (Object.hasOwn(labels, key) ? form(key, values)
    : visible(JSON.stringify(values, plainly)));
  function details(given) {
    const told = Object.entries(given).filter(([key]) => key !== "refused" && key !== "rule");
    const said = told.map(([key, part]) =>
      `${visible(key)} ${["state", "from", "to"].includes(key) ? SAID.state(part) : visible(part)}`);
    return said.length ? ` (${said.join(", ")})` : "";
  }
  // The docs' words of a rule, a wait and an answer without more, in the chosen language. In braces they have fields,
  // which are an answer's where one is given, and else stand by their names.
  function rule(name, given = {}) {
    if (!Object.hasOwn(docs.rules, name)) return null;
    const own = docs.rules[name], [holds, remedy] = (language && german.rules[name]) || [own.holds, own.remedy];
    return { number: own.number, star: own.star, holds, remedy: withFields(remedy, given) };
  }
  function wait(name, given = {}) {
    if (!Object.hasOwn(docs.waits, name)) return null;
    const [what, look] = (language && german.waits[name]) || [docs.waits[name].for, docs.waits[name].look];
    return { for: what, look: withFields(look, given) };
  }
  // What is said of a rule that refused, as the history names it: also of a policy's rule and of lines at fault, which
  // aren't among the docs' rules.
  function refusedBy(key) {
    const own = rule(key), isPolicy = key === "denied" || key.startsWith("denied "), name = key.slice("denied ".length);
    if (own) {
      const more = own.star ? `${own.number} · ${say("starred")}` : String(own.number);
      return { name: key, more, remedy: own.remedy, holds: own.holds };
    }
    if (isPolicy) {
      return { name: name ? visible(name) : say("denied"), more: say("policy"), holds: "",
        remedy: say(name ? "deniedMore" : "deniedByNoneMore") };
    }
    return { name: visible(key), more: "", remedy: say(key.startsWith("bad ") ? "badLine" : "noWords"), holds: "" };
  }
  // For whom and what a policy's rule is, as it stands there: a list that is absent is for all.
  function ruleFor({ who, tags, services, commands }) {
    const lists = [["who", who ?? [say("everybody")]], ["module", tags], ["service", services],
      ["command", Array.isArray(commands) ? commands.map(SAID.command) : undefined]];
    const there = lists.filter(([, list]) => Array.isArray(list));
    return say("inPolicy", there.map(([key, list]) => `${say(key)}: ${list.join(", ")}`).join(" · "));
  }
  const withFields = (text, given) => text.replace(/\{(\w+)\}/g, (_, key) => {
    if (!Object.hasOwn(given, key)) return key;
    return visible(key === "state" ? SAID.state(given[key]) : given[key]);
  });
  const ownOf = (table, key) => (language && german[table][key]?.[0]) || docs[table][key];
  const word = (table, key) => (Object.hasOwn(docs[table], key) ? ownOf(table, key) : null);
  const set = isGerman => { language = isGerman ? 1 : 0; };
  return { say, many, visible, number, thousandths, value, stamp, isTime, left, leftState, lasted, places, entry,
    entryAt, tick, event, answer, refusal, rule, refusedBy, ruleFor, wait, word, listed, played, set,
    state: SAID.state, command: SAID.command, isGerman: () => language === 1 };
})();
