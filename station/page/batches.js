// Batches, what each waits for and what may be done with it; recipes, and how each could be started now.
"use strict";
const batches = (() => {
  const { make, kept, button, faint } = draw;
  const DEEDS = ["hold", "freeze", "thaw", "stop", "abandon"], LOUD = new Set(["stop", "abandon"]);
  const TIPS = { stop: "tip_stop", abandon: "tip_abandon" };
  // What a batch waits for, or that it goes on. That it is held or frozen is said before that.
  function waits(batch, live) {
    if (!batch.wait) return words.say("goesOn");
    return batch.wait.wait === "Frozen" ? "" : charts.waited(batch, batch.wait, live);
  }
  function standing(batch) {
    const own = [batch.stopping ? words.say("isStopping") : "",
      batch.hold === null ? "" : words.say(batch.hold ? "isHeld" : "isFrozen")];
    return own.filter(each => each).join(", ");
  }
  function steps(batch) {
    const own = batch.steps.map(each => {
      const state = each.state === null ? words.say("unreported") : words.state(each.state);
      return words.say("stepIs", each.step, words.say(`now_${each.did}`), each.service, each.tag, state);
    });
    return own.map(text => make("p", { class: "branch" }, text));
  }
  // Each branch of a batch, or the steps that are active, where it doesn't go by its chart any more. What a single
  // branch waits for is said above already.
  function within(each, live) {
    const found = charts.branches(each, live), isAlone = found.length === 1;
    const line = ({ said, more }) => make("p", { class: "branch" }, isAlone ? "" : said,
      !isAlone && said && more ? " · " : "", faint(more));
    return found.length ? found.map(line) : steps(each);
  }
  const batch = live => each => {
    const presses = () => DEEDS.map(deed => button(words.say(`deed_${deed}`), { do: deed, batch: each.batch },
      each.presses[deed], { loud: LOUD.has(deed), sure: deed === "abandon", tip: TIPS[deed] }));
    return make("article", { class: "item", "data-key": `batch ${each.batch}` },
      make("h3", {}, make("span", {}, each.batch), faint(`${each.recipe}: ${words.played(each)}`)),
      make("p", { class: "waits" }, standing(each) ? make("b", {}, `${standing(each)}. `) : "", waits(each, live), " ",
        each.since ? make("span", { class: "faint", "data-since": each.since }) : null),
      ...within(each, live),
      kept("deeds", each.presses, () => make("div", { class: "buttons" }, ...presses())),
      ...charts.parts(each, live.batches.length));
  };
  // The modules that a person chose for roles of recipes, and what a start on them would be answered, as it was asked.
  const chosen = {}, asked = {};
  function tagsOf({ recipe, roles, assigned }) {
    return Object.fromEntries(roles.map(({ role, tags }) => {
      const own = chosen[recipe]?.[role];
      return [role, tags.includes(own) ? own : assigned?.[role] ?? tags[0] ?? ""];
    }));
  }
  // Why a start isn't permitted: for the modules that stand there by themselves the station says it, for others it is
  // asked.
  function whyNot(each, deed, entries) {
    const key = JSON.stringify(deed), isOwn = JSON.stringify(deed.tags) === JSON.stringify(each.assigned);
    if (isOwn || each.assigned === null) return each.why;
    const known = asked[each.recipe];
    if (known?.key !== key || known.entries !== entries) {
      asked[each.recipe] = { key, entries, why: known?.key === key ? known.why : { station: "asking" } };
      page.would(deed).then(why => { asked[each.recipe] = { key, entries, why }; page.show(); });
    }
    return asked[each.recipe].why;
  }
  function choice(recipe, { role, tags, is_read: isRead }, tag) {
    const options = tags.map(each => make("option", { value: each, "data-key": each, selected: each === tag }, each));
    const field = make("select", { "data-recipe": recipe, "data-role": role, "data-key": `field ${role}`,
      "data-value": tag }, ...options);
    return make("label", { "data-key": `role ${role}` }, `${role} `, field,
      isRead ? faint(` ${words.say("onlyRead")}`) : "");
  }
  // A recipe with a module for each role, and the start on them.
  const recipe = entries => each => {
    const tags = tagsOf(each), deed = { do: "start", batch: each.batch, recipe: each.recipe, tags };
    const why = whyNot(each, deed, entries);
    return make("div", { class: "item", "data-key": `recipe ${each.recipe}` },
      make("h3", {}, make("span", {}, each.recipe), make("span", { class: "push" }),
        button(words.say("startAs", each.batch), deed, why)),
      make("div", { class: "buttons", "data-key": "roles" },
        ...each.roles.map(role => choice(each.recipe, role, tags[role.role]))),
      why ? make("p", { class: "faint" }, draw.reason(why)) : null);
  };
  function choose(field) {
    chosen[field.dataset.recipe] = { ...chosen[field.dataset.recipe], [field.dataset.role]: field.value };
  }
  const closed = each => make("p", { class: "row", "data-key": `closed ${each.batch}` },
    make("b", {}, each.batch), ` ${each.outcome} `, faint(`${each.recipe}: ${words.played(each)}`));
  const calm = key => make("p", { class: "faint" }, words.say(key));
  function show(live) {
    draw.into("batch-list", ...(live.batches.length ? live.batches.map(batch(live)) : [calm("noneOpen")]));
    draw.into("recipe-list", ...(live.recipes.length ? live.recipes.map(recipe(live.entries)) : [calm("noRecipe")]));
    draw.into("closed-list", ...(live.closed.length ? live.closed.map(closed) : [calm("noneClosed")]));
  }
  return { show, choose };
})();
