// Elements, and how what stands on the page becomes what is to stand there: each element that has a key stays itself,
// so that a press and the place of the keyboard aren't lost while all goes on. All text goes in as text, never as
// markup.
"use strict";
const draw = (() => {
  // The deed that was pressed once, and is done at the second press.
  const armed = { deed: null };
  // An element with its attributes and what is in it. What is null or empty is left out.
  function make(name, attributes = {}, ...within) {
    const made = document.createElement(name);
    for (const [key, value] of Object.entries(attributes)) {
      if (value !== null && value !== undefined && value !== false) made.setAttribute(key, value === true ? "" : value);
    }
    made.append(...within.filter(each => each !== null && each !== undefined && each !== ""));
    return made;
  }
  const keyOf = node => (node.nodeType === Node.ELEMENT_NODE ? node.dataset.key : undefined);
  const isAlike = (old, fresh) => old.nodeName === fresh.nodeName && keyOf(old) === keyOf(fresh);
  function patchAttributes(old, fresh) {
    for (const { name } of [...old.attributes]) {
      if (!fresh.hasAttribute(name)) old.removeAttribute(name);
    }
    for (const { name, value } of fresh.attributes) {
      if (old.getAttribute(name) !== value) old.setAttribute(name, value);
    }
  }
  // Makes an element like another one, keeping what is alike. A field shows the value that it is to have, or else what
  // was chosen in it. What is in an element that is `drawn` others draw.
  function patch(old, fresh) {
    if (old.nodeType === Node.TEXT_NODE) {
      if (old.data !== fresh.data) old.data = fresh.data;
      return;
    }
    patchAttributes(old, fresh);
    if (fresh.dataset.drawn !== undefined) return;
    const chosen = old.nodeName === "SELECT" ? fresh.dataset.value ?? old.value : null;
    fill(old, [...fresh.childNodes]);
    if (chosen !== null && [...old.options].some(option => option.value === chosen)) old.value = chosen;
  }
  // A part that is built only where it isn't there yet, or was built of other facts: most of what is drawn stays as it
  // was.
  function kept(key, facts, build) {
    const part = make("kept-part", { "data-key": key });
    part.kept = { facts: JSON.stringify([facts, armed.deed, words.isGerman()]), build };
    return part;
  }
  function built(part) {
    const made = part.kept.build();
    made.dataset.key = part.dataset.key;
    made.facts = part.kept.facts;
    return made;
  }
  // An element with all its parts built.
  function whole(node) {
    const made = node.kept ? built(node) : node;
    if (made.nodeType === Node.ELEMENT_NODE) {
      for (const part of made.querySelectorAll("kept-part")) part.replaceWith(whole(part));
    }
    return made;
  }
  const stays = (own, part) => part.kept !== undefined && own.facts === part.kept.facts;
  // What stands within an element becomes what is to stand there. Answers what stands there then.
  function become(own, part) {
    if (own && stays(own, part)) return own;
    const made = part.kept ? built(part) : part;
    if (!own || !isAlike(own, made)) return whole(made);
    patch(own, made);
    own.facts = made.facts;
    return own;
  }
  // What is to be within an element, in this order.
  function fill(holder, fresh) {
    const keyed = new Map([...holder.childNodes].filter(keyOf).map(node => [keyOf(node), node]));
    let place = holder.firstChild;
    for (const part of fresh) {
      const own = keyOf(part) ? keyed.get(keyOf(part)) : place && !keyOf(place) ? place : null;
      const made = become(own, part);
      if (made === place) place = place.nextSibling;
      else holder.insertBefore(made, place);
    }
    while (place) {
      const next = place.nextSibling;
      place.remove();
      place = next;
    }
  }
  const into = (id, ...fresh) => fill(document.getElementById(id), fresh.filter(each => each));
  // Why a press isn't permitted, and what to do, in the words of this page's buttons; where a rule has none here, what
  // it would be answered, and what the documents say to do.
  function reason(why) {
    if ("station" in why) return words.say(`station_${why.station}`, why.why ?? "");
    if ("denied" in why) return words.say(why.policy === undefined ? "why_denied" : "why_deniedBy", why);
    const rule = why.rule && words.rule(why.rule, why), own = `why_${why.rule}`;
    if (Object.hasOwn(ownWords, own)) return `${words.say(own, why)} (${words.visible(why.rule)})`;
    return `${words.answer(why)}${rule ? `: ${rule.remedy}` : ""}`;
  }
  // A button for a deed. It is enabled where nothing stands against it; a deed that is `sure` wants a second press.
  // Its tip says why it is closed, or else, where that is known, what it does.
  function button(text, deed, why = null, { loud = false, sure = false, tip = null } = {}) {
    const asked = JSON.stringify(deed);
    const styles = [loud ? "loud" : "", armed.deed === asked ? "sure" : ""].join(" ").trim();
    return make("button", { type: "button", "data-key": asked, "data-deed": asked, class: styles || null,
      disabled: why !== null, title: why !== null ? reason(why) : tip && words.say(tip), "data-sure": sure }, text);
  }
  const faint = (...within) => make("span", { class: "faint" }, ...within);
  return { make, kept, fill, into, button, faint, reason, armed };
})();
