// ---- the parts of the page

const stateOf = row => !row.stands ? ["removed", ""] : row.tombstoned ? ["tombstoned", "bad"] : row.jailed ? ["jailed", "bad"]
  : row.status === "bonded" ? ["bonded", "good"] : [row.status, "warn"];
const state = row => { const [text, kind] = stateOf(row); return el("span", {class: `state ${kind}`, text}); };
const dateOf = moment => `${moment.getUTCDate()} ${MONTHS[moment.getUTCMonth()]} ${moment.getUTCFullYear()}`;
const lead = text => el("p", {class: "lead", text});

function head() {
  const first = momentText(run.from), last = momentText(run.to), days = (millis(run.to) - millis(run.from)) / DAY;
  const dates = [dateOf(new Date(millis(run.from))), dateOf(new Date(millis(run.to)))];
  const theme = el("button", {class: "push", type: "button", onclick: () => {
    const now = document.documentElement.dataset.theme === "dark" ? "light" : "dark";
    document.documentElement.dataset.theme = now;
    theme.textContent = now === "dark" ? "Light" : "Dark";
    theme.setAttribute("aria-label", `Change to the ${now === "dark" ? "light" : "dark"} theme`);
  }});
  const wants = matchMedia("(prefers-color-scheme: dark)");
  const follow = () => { document.documentElement.dataset.theme = wants.matches ? "light" : "dark"; theme.click(); };
  follow();
  wants.addEventListener("change", follow);
  byId("head").append(el("div", {},
    el("h1", {text: run.from === run.to ? `Block ${count(run.from)}` : `Blocks ${count(run.from)} to ${count(run.to)}`}),
    el("p", {class: "soft"}, dates[0] === dates[1] ? dates[0] : `${dates[0]} to ${dates[1]}`,
      ` \u00b7 ${readable(first)} to ${readable(last)}`),
    el("p", {class: "soft small"}, `${plural(run.blocks, "block")} in ${days >= 2 ? days.toFixed(1) + " days" : (days * 24).toFixed(1) + " hours"}, `
      + `${plural(run.lines, "line")} of ${nameOf(run.name)}${run.inputs.length ? ", with " + run.inputs.join(", ") : ""}`)), theme);
  if (run.wrong.length) byId("head").after(el("div", {style: "max-width:1240px;margin:0 auto;padding:0 20px"},
    el("div", {class: "alarm", role: "alert"}, el("b", {text: "These lines do not add up, so figures of this page may be wrong."}),
      el("ul", {}, run.wrong.map(text => el("li", {text}))))));
}

function chainPart() {
  const {series, coins, rate, marks, pool} = data.chain, bond = run.bond, denom = run.denom;
  const bonded = points(series.bonded, 0), at = bonded.v.length - 1, row = coins.find(part => part.denom === denom) || {};
  const bondRow = coins.find(part => part.denom === bond);
  const active = points(series.active, 0), all = points(series.all, 0), jailed = points(series.jailed, 0), last = part => part.v[part.v.length - 1];
  const figureAt = (part, name, index, what) => [part.v[index], name, part.p[index], part.h[index], what];
  const shares = curve("Bonded share", "var(--c1)", series.bonded, {what: "bonded tokens after this block"});
  shares.y = shares.v.map((value, index) => 100 * Number(value) / Number(shares.more[index]));
  shares.shown = index => `${share(BigInt(shares.v[index]), BigInt(shares.more[index]), 6)}: ${inCoins(shares.v[index], bond)} of ${inCoins(shares.more[index], bond)} ${coin(bond)[1]}`;
  shares.fact = index => ({value: shares.v[index], denom: bond, place: shares.p[index], height: shares.h[index],
    what: `bonded tokens after this block, of a supply of ${shares.more[index]} ${bond}`, note: "reckoned from the report by the transfers and burns between"});
  const rates = rateCurve(rate, bond);
  const step = run.widths[0], coinOf = {denom, style: "band", step};
  const tiles = el("div", {class: "tiles"},
    at >= 0 && tile("Bonded share", share(BigInt(bonded.v[at]), BigInt(bonded.more[at])),
      figure(figureAt(bonded, bond, at, "reckoned from the report by the transfers and burns between"), "bonded tokens after the last block")),
    tile("Validators bonded", figure(figureAt(active, "", active.v.length - 1, "reckoned from the report"), "bonded validators after the last block"),
      `of ${last(all)} that stand, ${last(jailed)} of them jailed`),
    rates && tile("A bonded token gets in a year", el("span", {"data-is": "rate", text: yearly(rate, bond)}), "over the whole run, before commission"),
    row.fees && tile("Fees of blocks", figure(row.fees, "fees that blocks gave to distribution"), "to validators and the community pool"),
    row.rewards && tile("Rewards paid", figure(row.rewards, "rewards that were paid to delegators"), "whole coins, to delegators"),
    row.commission && tile("Commission paid", figure(row.commission, "commission that was paid to operators"), "whole coins, to operators"),
    bondRow && tile("Supply", figure(bondRow.supply, "supply in the report"), bondRow.burned
      ? el("span", {}, "burned ", figure(bondRow.burned, "burned")) : "nothing was burned"),
    tile("Community pool", figures(pool, "the community pool in the report")));
  const pictures = charts([
    new Chart({title: "Bonded share of the supply", unit: "%", curves: [shares], about: "Bonded tokens against the supply, after each block."}),
    rates && new Chart({title: "What a bonded token gets in a year", unit: "%", curves: [rates], fromZero: true,
      about: "Shares of the step's fees over its bonded tokens, as of a year of 365 days; before commission."}),
    new Chart({title: "Fees, block by block", unit: unitOf(denom), fromZero: true, about: "What each block gave to validators and the community pool.",
      curves: [curve("Fees", "var(--c1)", series.fees, {...coinOf, what: "fees of this block"})], hint: "No block gave fees."}),
    new Chart({title: "Given and paid out, added up", unit: unitOf(denom), fromZero: true, about: "Shares of fees, and the whole coins that left of them.", curves: [
      curve("Given to validators", "var(--c1)", series.allocated, {...coinOf, style: "step", places: 18, what: "all shares of fees up to this block, the last of them in this line"}),
      curve("Rewards paid", "var(--c3)", series.rewards, {...coinOf, style: "step", what: "all rewards paid up to this block, the last of them in this line"}),
      curve("Commission paid", "var(--c4)", series.commission, {...coinOf, style: "step", what: "all commission paid up to this block, the last of it in this line"})]}),
    new Chart({title: "Validators", isWhole: true, fromZero: true, about: "How many stand, are bonded, and are jailed.", curves: [
      curve("All", "var(--c6)", series.all, {what: "validators after this block"}), curve("Bonded", "var(--c1)", series.active, {what: "bonded validators after this block"}),
      curve("Jailed", "var(--c2)", series.jailed, {what: "jailed validators after this block"})]}),
    new Chart({title: "Supply and burns", unit: unitOf(bond), about: "The supply of the bond denomination; each burn is a mark.",
      curves: [curve("Supply", "var(--c1)", series.supply, {denom: bond, what: "supply after this block, reckoned from the report by the burns"})], marks: marks.rows.slice(0, 300)}),
  ].filter(Boolean));
  return part("chain", "The chain", el("div", {}, tiles, pictures, coinTable(coins)));
}
function rateCurve(rows, bond) {
  if (!rows.length) return null;
  const made = curve("In a year", "var(--c3)", "", {});
  Object.assign(made, {style: "step", h: rows.map(row => row[0]), x: rows.map(row => millis(row[0])), y: rows.map(row => row[1] / 1e6),
    v: rows.map(row => String(row[1])), p: rows.map(row => row[5]), shown: at => cut(decimal(String(rows[at][1]), 6)) + "%",
    fact: at => ({value: decimal(String(rows[at][1]), 6), shown: cut(decimal(String(rows[at][1]), 6)) + " % a year", place: rows[at][5], from: rows[at][4], height: rows[at][0],
      what: `the blocks of these lines shared ${decimal(rows[at][2], 18)} ${run.denom} among ${rows[at][3]} bonded ${bond} in ${decimal(rows[at][6], 9).replace(/\.?0+$/, "")} s`,
      note: "a year has 365 days"})});
  return made;
}
/** Of the whole run: all that was given, over the bonded tokens of each step for as long as it took. */
function yearly(rows) {
  let given = 0n, work = 0n;
  for (const row of rows) { given += BigInt(row[2]); work += BigInt(row[3]) * BigInt(row[6]); }
  const year = 365n * 86400n * 10n ** 9n;
  return work ? cut(decimal(String(given * year * 10n ** 8n / (work * 10n ** 18n)), 6), 4) + "%" : "";
}
function coinTable(coins) {
  const names = [["first", "Supply at first"], ["burned", "Burned"], ["supply", "Supply at the end"], ["fees", "Fees of blocks"],
    ["allocated", "Given to validators"], ["rewards", "Rewards paid"], ["commission", "Commission paid"]];
  return el("div", {}, el("h3", {text: "By denomination"}), table({id: "coins", caption: "What the chain has, burned and gave, by denomination", rows: coins, pin: true, of: row => row.denom,
    filter: coins.length > 8 ? "Filter denominations" : null, columns: [
      {name: "Denomination", key: row => row.denom, text: row => row.denom, cell: row => el("span", {title: row.denom, text: short(row.denom)})},
      ...names.map(([name, title]) => ({name: title, num: true, key: row => row[name] ? whole(row[name][0]) : null,
        cell: row => figure(row[name], `${title.toLowerCase()}: ${row.denom}`)}))]}));
}
function part(id, title, ...rest) {
  return el("section", {id, "aria-labelledby": `${id}-title`}, el("h2", {id: `${id}-title`, text: title}), ...rest);
}

// ---- validators

function validatorPart() {
  const rows = data.validators, total = rows.filter(row => row.tokens).reduce((sum, row) => sum + whole(row.tokens[0]), 0n);
  const state_ = {shown: null}, place = el("div", {id: "validator", tabindex: "-1"});
  const ordered = [...rows].sort((a, b) => (a.rank || 1e9) - (b.rank || 1e9) || compare(b.tokens ? whole(b.tokens[0]) : -1n, a.tokens ? whole(a.tokens[0]) : -1n));
  const open = (row, moves) => {
    state_.shown = row;
    place.replaceChildren(validatorDetail(row, ordered, next => open(next, false)));
    list.fill();
    if (moves) { place.scrollIntoView({block: "start"}); place.focus({preventScroll: true}); }
  };
  const list = table({id: "validators-table", caption: "Validators as the report at the end has them", rows: ordered, filter: "Filter by address or state", pin: true,
    sorted: ordered.some(row => row.rank) ? [0, false] : null, current: row => row === state_.shown, of: row => row.a, columns: [
      {name: "Rank", num: true, key: row => row.rank || null, text: row => String(row.rank || ""), cell: row => row.rank ? String(row.rank) : "\u2013"},
      {name: "Operator", key: row => row.a, text: row => row.a, cell: row => el("button", {class: "addr", type: "button", title: row.a, text: short(row.a), onclick: () => open(row, true)})},
      {name: "State", key: row => stateOf(row)[0], text: row => stateOf(row)[0], cell: state},
      {name: `Tokens, ${unitOf(run.bond)}`, num: true, key: row => row.tokens ? whole(row.tokens[0]) : null, cell: row => figure(row.tokens, "tokens of the validator in the report", bare(run.bond))},
      {name: "Part", num: true, key: row => row.tokens ? whole(row.tokens[0]) : null, cell: row => row.tokens && total ? share(whole(row.tokens[0]), total) : "\u2013"},
      {name: "Rate", num: true, key: row => row.rate ? whole(row.rate[0]) : null, cell: row => figure(row.rate, "commission rate in the report", percent)},
      {name: `Given, ${unitOf(run.denom)}`, num: true, key: row => own(row.allocated) ? whole(own(row.allocated)[0]) : null, cell: row => figure(own(row.allocated), "shares of fees, added up", bare(run.denom))},
      {name: "Paid out", num: true, key: row => own(row.paid) ? whole(own(row.paid)[0]) : null, cell: row => figure(own(row.paid), "rewards paid to its delegators, added up", bare(run.denom))},
      {name: "Missed", num: true, key: row => row.missed ? whole(row.missed[0]) : null, cell: row => figure(row.missed, "missed votes of the window in the report", group)},
      {name: "Slashes", num: true, key: row => row.slashes, cell: row => row.slashes ? el("span", {}, String(row.slashes)) : el("span", {class: "soft", text: "0"})},
      {name: "Delegators", num: true, key: row => row.delegators ? whole(row.delegators[0]) : null, cell: row => figure(row.delegators, "delegations in the report", group)},
      {name: "Stake", cell: row => spark(row.series.stake)}]});
  if (ordered.length) open(ordered[0], false);
  return part("validators", "Validators", lead(run.asked
    ? `Those with which the chosen addresses have to do: ${rows.length} of ${plural(run.all, "validator")}.`
    : "As the report at the end has them. Choose an operator for its curves."), list, place);
}

function validatorDetail(row, ordered, go) {
  const {series} = row, bond = run.bond, step = run.widths[1], place = ordered.indexOf(row), marks = row.marks.rows;
  const choice = el("select", {"aria-label": "Validator", onchange: event => go(ordered[event.target.value])}, ordered.map((other, at) =>
    el("option", {value: at, selected: other === row, text: `${other.rank ? other.rank + ". " : ""}${short(other.a)}, ${stateOf(other)[0]}`})));
  const turn = (text, by) => el("button", {class: "push", type: "button", text, disabled: !ordered[place + by], onclick: () => go(ordered[place + by])});
  const allowed = run.window && row.missed ? `${run.allowed} of ${count(run.window)} may be missed` : null;
  const tiles = el("div", {class: "tiles"},
    tile("Tokens", figure(row.tokens, "tokens of the validator in the report"), row.rank ? `rank ${row.rank}` : null),
    tile("Commission rate", figure(row.rate, "commission rate in the report", percent), row.commission && row.commission.length
      ? el("span", {}, "not withdrawn ", figure(own(row.commission) || row.commission[0], "commission in the report")) : "nothing to withdraw"),
    tile("Given, added up", figures(row.allocated.slice(0, 3), "shares of fees, added up"), "shares of fees, before commission"),
    tile("Paid to delegators", figures(row.paid.slice(0, 3), "rewards paid to its delegators, added up")),
    tile("Commission paid", figures(row.withdrawn.slice(0, 3), "commission withdrawn, added up")),
    tile("Not paid out yet", figures((row.outstanding || []).slice(0, 3), "outstanding rewards in the report")),
    tile("Votes missed", figure(row.missed, "missed votes of the window in the report", group), allowed),
    tile("Slashes", el("span", {text: String(row.slashes)}), row.burned.length ? el("span", {}, "burned ", figure(row.burned[0], "burned of its tokens, added up")) : "nothing burned"),
    tile("Delegators", figure(row.delegators, "delegations in the report", group), `${count(row.came)} came, ${count(row.went)} went`));
  const hint = "Without the input, or a report in front, no line tells the stakes that stood first.";
  const limit = run.window && series.missed ? {at: run.allowed, name: `${run.allowed} may be missed`} : null;
  const pictures = charts([
    new Chart({title: "Stake", unit: unitOf(bond), marks, hint, about: "What rewards are reckoned on, after each block; slashes and jailings are marks.",
      curves: row.known ? [curve("Stake", "var(--c1)", series.stake, {places: 18, denom: bond, what: "stake after this block: the sum of its delegations' stakes"})] : []}),
    new Chart({title: "Rank by stake", isUpside: true, isWhole: true, hint, about: "1 has the most; of equal stakes the lower address.",
      curves: [curve("Rank", "var(--c4)", series.rank, {what: "rank after this block"})]}),
    new Chart({title: "Given, block by block", unit: unitOf(run.denom), fromZero: true, hint: "It was given nothing.", about: "Its share of each block's fees, before commission.",
      curves: [curve("Given", "var(--c3)", series.given, {places: 18, denom: run.denom, style: "band", step, what: "share of this block's fees"})]}),
    new Chart({title: "Votes missed in the window", isWhole: true, fromZero: true, limit: limit && maxOf(series.missed) * 3 > run.allowed ? limit : null,
      hint: "Votes stand in the input alone.", about: run.window ? `Of the last ${plural(run.window, "vote")}; over ${count(run.allowed)} missed is downtime.` : "Of the votes of these blocks; the window is not told.",
      curves: [curve("Missed", "var(--c2)", series.missed, {what: "missed votes after this block"})]}),
    new Chart({title: "Delegators", isWhole: true, about: "How many delegations it has after each block.",
      curves: [curve("Delegators", "var(--c1)", series.delegators, {what: "delegations after this block"})]}),
    new Chart({title: "Commission paid, added up", unit: unitOf(run.denom), fromZero: true, hint: "No commission was paid.", about: "Whole coins that its operator withdrew.",
      curves: [curve("Commission", "var(--c4)", series.withdrawn, {denom: run.denom, what: "all commission paid up to this block, the last of it in this line"})]})]);
  return el("div", {class: "one", "data-of": row.a}, el("div", {class: "bar"}, turn("Back", -1), choice, turn("Next", 1)),
    el("h3", {}, address(row.a, true), " ", state(row)), row.cons && el("p", {class: "soft small"}, "consensus address ", address(row.cons, true)),
    tiles, pictures, eventTable(row), visitTable(row));
}
const maxOf = text => text ? points(text, 0).v.reduce((most, value) => Math.max(most, Number(value)), 0) : 0;
const keptOf = (kept, what) => kept.count > kept.rows.length ? `${count(kept.rows.length)} of ${plural(kept.count, what)}: the first and the last ones.` : "";
const when = at => ({name: "Time, UTC", key: row => row[at], text: row => readable(momentText(row[at])), cell: row => readable(momentText(row[at])).replace(" UTC", "")});
const heightColumn = {name: "Height", num: true, key: row => row[0], text: row => String(row[0]), cell: row => count(row[0])};
const lineColumn = what => ({name: "Line", num: true, key: row => row[1], cell: row => lineButton(row[1], row[0], what(row))});

function eventTable(row) {
  if (!row.marks.count) return null;
  return el("div", {}, el("h3", {text: "What happened to it"}), el("p", {class: "soft small", text: keptOf(row.marks, "event")}),
    table({caption: "What happened to the validator", rows: row.marks.rows, most: 10, filter: row.marks.rows.length > 10 ? "Filter events" : null, columns: [heightColumn, when(0),
      {name: "Event", key: mark => mark[2], text: mark => mark[2] + " " + mark[3], cell: mark => el("span", {class: `state ${/slash|jailed|tomb/.test(mark[2]) && mark[2] !== "unjailed" ? "bad" : ""}`, text: mark[2]})},
      {name: "More", cell: mark => el("span", {class: "small", text: mark[3]})}, lineColumn(mark => `${mark[2]} ${mark[3]}`)]}));
}
function visitTable(row) {
  if (!row.visits.count) return null;
  return el("div", {}, el("h3", {text: "Delegators that came and went"}), el("p", {class: "soft small", text: keptOf(row.visits, "visit")}),
    table({caption: "Delegators that came and went", rows: row.visits.rows, most: 10, filter: row.visits.rows.length > 10 ? "Filter by address" : null, columns: [heightColumn, when(0),
      {name: "Delegator", key: visit => visit[3], text: visit => visit[3], cell: visit => address(visit[3])},
      {name: "What", key: visit => visit[2], text: visit => visit[2], cell: visit => el("span", {class: `state ${visit[2] === "came" ? "good" : "warn"}`, text: visit[2]})},
      {name: "Stake", num: true, key: visit => visit[4] ? BigInt(visit[4]) : null, cell: visit => visit[4]
        ? figure([decimal(visit[4], 18), run.bond, visit[1], visit[0], ...(visit[2] === "came" ? [] : ["what its rewards were reckoned on before"])], visit[2] === "came" ? "stake of the delegation that began" : "stake of the delegation that ended") : el("span", {class: "soft", text: "\u2013"})},
      lineColumn(visit => `${visit[3]} ${visit[2]}`)]}));
}

// ---- addresses

const KINDS = {reward: "good", commission: "good", slash: "bad", fee: "", refused: "warn"};
function addressPart() {
  return part("addresses", data.addresses.length === 1 ? "The address" : "Addresses", data.addresses.map(addressDetail));
}
function addressDetail(row) {
  const total = (word, side) => row.totals.find(part => part[0] === word && part[1] === side), bond = run.bond;
  const sum = (word, side, what) => { const found = total(word, side); return found ? figures(found[2], what) : el("span", {class: "soft", text: "none"}); };
  const {series} = row, colours = ["var(--c1)", "var(--c3)", "var(--c4)"];
  const stakes = points(series.stake, 18), at = stakes.v.length - 1;
  const coinCurves = (group, what) => Object.entries(group).map(([denom, text], index) => curve(unitOf(denom), colours[index], text, {denom, what}));
  const units = group => { const names = Object.keys(group); return names.length === 1 ? unitOf(names[0]) : "whole coins"; };
  const tiles = el("div", {class: "tiles"},
    tile("Balance", figures(row.balance, "balance in the report")),
    tile("Stake", at >= 0 && whole(stakes.v[at]) ? figure([stakes.v[at], bond, stakes.p[at], stakes.h[at], "the sum of the stakes on which its rewards are reckoned"], "stake after the last block") : el("span", {class: "soft", text: "none"}),
      row.staked.length ? `at ${plural(row.staked.length, "validator")}` : null),
    tile("Rewards paid", sum("reward", "in", "rewards paid, added up"), total("reward", "in") ? plural(total("reward", "in")[3], "payment") : null),
    total("commission", "in") && tile("Commission paid", sum("commission", "in", "commission paid, added up"), plural(total("commission", "in")[3], "payment")),
    tile("Pending", figures(row.sum, "pending in the report, added up"), "in the report, not paid yet"),
    tile("Lost in slashes", sum("slash", "aside", "lost of its stake, each cut to whole units"), total("slash", "aside") ? plural(total("slash", "aside")[3], "slash", "slashes") : null),
    tile("Fees paid", sum("fee", "out", "fees paid, added up"), total("fee", "out") ? plural(total("fee", "out")[3], "fee") : null),
    row.unbonding.length ? tile("Unbonding", el("div", {class: "stack"}, row.unbonding.slice(0, 3).map(part => el("div", {}, figure(part[1], `unbonding until ${part[2]}`)))), plural(row.unbonding.length, "entry", "entries")) : null);
  const pictures = charts([
    new Chart({title: "Balance", unit: units(series.balance), curves: coinCurves(series.balance, "balance after this block"), about: "After each block that changed it.", hint: "No line moves its coins."}),
    new Chart({title: "Stake", unit: unitOf(bond), marks: row.marks.rows, about: "What its rewards are reckoned on; slashes are marks.", hint: "No line tells of a stake.",
      curves: at >= 0 ? [curve("Stake", "var(--c1)", series.stake, {places: 18, denom: bond, what: "stake after this block: the sum of its delegations' stakes"})] : []}),
    new Chart({title: "Paid, added up", unit: units(series.paid), fromZero: true, curves: coinCurves(series.paid, "all rewards and commission paid up to this block"), about: "Rewards and commission.", hint: "It was paid nothing."})]);
  return el("article", {style: "margin-top:8px", "data-of": row.a}, el("h3", {}, address(row.a, true)), tiles, pictures, stakeTable(row), moveTable(row));
}
function stakeTable(row) {
  if (!row.staked.length) return null;
  const pending = new Map(row.pending.map(([validator, list]) => [validator, list]));
  return el("div", {}, el("h3", {text: "Delegations in the report"}), table({caption: "Delegations in the report", rows: row.staked, most: 10, columns: [
    {name: "Validator", key: part => part[0], text: part => part[0], cell: part => address(part[0])},
    {name: "Shares", num: true, key: part => whole(part[1][0]), cell: part => figure(part[1], "shares of the delegation in the report")},
    {name: "Pending", num: true, cell: part => figures(pending.get(part[0]) || [], "pending in the report")}]}));
}
function moveTable(row) {
  const rows = row.rows.rows, amount = (side, move) => move[3] !== side ? el("span", {class: "soft", text: ""})
    : el("div", {class: "stack"}, move[4].map(([value, denom]) => el("div", {}, figure([value, denom, move[1], move[0]], move[2]))));
  const key = side => move => move[3] === side && move[4].length ? BigInt(move[4][0][0]) : null;
  return el("div", {}, el("h3", {text: "Payments, and all that moved"}), el("p", {class: "soft small", text: keptOf(row.rows, "row") || "Out and in are whole coins of the balance; aside is what did not pass through it."}),
    table({id: "moves", caption: "Payments, and all that moved", rows, filter: "Filter: reward, fee, an address", columns: [when(0),
      {name: "What", key: move => move[2], text: move => move[2], cell: move => el("span", {class: `state ${KINDS[move[2].split(" ")[0]] ?? ""}`, text: move[2].length > 28 ? move[2].slice(0, 28) + MORE : move[2], title: move[2]})},
      {name: "In", num: true, key: key("in"), cell: move => amount("in", move)}, {name: "Out", num: true, key: key("out"), cell: move => amount("out", move)},
      {name: "Aside", num: true, key: key("aside"), cell: move => amount("aside", move)},
      {name: "With", key: move => move[5], text: move => move[5], cell: move => address(move[5])}, heightColumn, lineColumn(move => move[2])]}));
}

// ---- statements

function statementPart() {
  const {rows} = data.statements, cells = rows.flatMap(row => row[4].map(coins => ({row, coins})));
  const bar = ({row, coins}) => {
    const [denom, low, reward, high, slack] = coins, units = text => whole(text), from = units(low) - units(slack), to = units(high);
    const span = to - from || 1n, part = value => Number((value - from) * 10000n / span) / 100;
    const at = Math.max(0, Math.min(100, part(units(reward)))), left = part(units(low)), inside = units(reward) >= from && units(reward) <= to;
    const X = value => 8 + value * 5.84, colour = inside ? "var(--c3)" : "var(--c5)";
    const drawn = svg("svg", {viewBox: "0 0 600 34", height: 34, preserveAspectRatio: "none", role: "img",
      "aria-label": `reward ${reward}, at least ${low} less ${slack}, at most ${high} ${denom}`},
      svg("rect", {x: X(0), y: 13, width: Math.max(2, X(left) - X(0)), height: 8, rx: 4, fill: "var(--c2)", opacity: .35}),
      svg("rect", {x: X(left), y: 11, width: Math.max(3, X(100) - X(left)), height: 12, rx: 4, fill: colour, opacity: .5}),
      svg("line", {x1: X(at), x2: X(at), y1: 4, y2: 30, stroke: "var(--ink)", "stroke-width": 2.5}));
    const fig = (value, what) => el("span", {}, figure([value, denom, row[1], row[0]], what, text => cut(inCoins(text, denom), 40)), el("span", {class: "unit", text: " " + unitOf(denom)}));
    return el("div", {}, el("div", {class: "where"}, el("b", {}, fig(reward, "reward of the statement")),
      el("span", {class: "soft small"}, `height ${count(row[0])}, `, address(row[2]), " at ", address(row[3])),
      el("span", {class: `state ${inside ? "good" : "bad"}`, text: inside ? "within" : "outside"})), drawn,
      el("div", {class: "where small soft"}, el("span", {}, "at least ", fig(low, "low of the statement"), " less slack ", fig(slack, "slack of the statement")),
        el("span", {}, "at most ", fig(high, "high of the statement"))));
  };
  return part("statements", "Statements", lead("Each bar goes from the least reward, less the slack of rounding, to the greatest one; the slack is the lighter part, and the line across is the reward that was paid. Bars are as wide as their own bounds lie apart. "
    + "Whether the bounds are right is another question, which the command check answers."), el("div", {class: "card bars"}, cells.slice(0, 100).map(bar)),
    cells.length > 100 && el("p", {class: "soft small", text: `The first 100 of ${cells.length} are drawn.`}), el("p", {class: "soft small", text: keptOf(data.statements, "statement")}));
}

// ---- the whole

function foot() {
  const [chain, validators] = run.widths, wide = [...new Set(run.widths)].filter(width => width > 1);
  const thin = wide.length ? `Curves are thinned: of each step of ${count(chain)} blocks (of validators ${count(validators)}, of addresses ${count(run.widths[2])}) the least, the greatest and the last value stay, each of one block; no value is an average. Bands reach from the least to the greatest.`
    : "Nothing was thinned: each block that told a value has its point.";
  const list = [thin, "Each figure is as its line has it, or a sum that is exact; behind it stands where it is from. Where \u2026 follows, digits are cut and not rounded: point at the figure, or click it, for all of them.",
    `Values at the beginning that no line tells are reckoned back from the report at the end${run.inputs.length ? ", and held against the genesis where there is one" : ""}.`,
    run.voted ? "Votes and rates of commission between reports are those of the input." : "The input was not given, so votes, changes of rates and the stakes that stood first are not told.",
    `Rewards are drawn in ${run.denom || "no denomination"}; --denom chooses another. Stakes are what rewards are reckoned on: the tokens of the report but for rounding.`,
    "This file asks for nothing from anywhere. It was made by page.py from lines of stakeplay; nothing is proved of it."];
  byId("foot").append(el("h2", {text: "About this page"}), el("ul", {}, list.map(text => el("li", {text}))));
}

head();
document.body.append(el("div", {id: "told", class: "vh", role: "status", "aria-live": "polite"}));
const parts = [data.addresses.length && addressPart, data.statements.rows.length && statementPart, chainPart, data.validators.length && validatorPart].filter(Boolean).map(make => make());
byId("main").append(...parts);
byId("nav").append(el("div", {}, [...parts.map(node => [node.id, node.querySelector("h2").textContent]), ["foot", "About"]].map(([id, text]) => el("a", {href: "#" + id, text}))));
foot();
requestAnimationFrame(() => requestAnimationFrame(() => { document.documentElement.dataset.drawn = String(Math.round(performance.now() - began)); }));
window.stakeplay = {points, data, charts: () => [...Chart.all.values()]};
})();
