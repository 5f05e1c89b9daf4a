// What the page has more where orders may be given: who orders, what became of the orders, and the buttons.

import { acknowledgers, knowers } from "../alarm_list.mjs";
import { by, make, set } from "../dom.mjs";
import { afterBuild, afterRestart, afterShow, extras, isPast, modeSayers, tree } from "../model.mjs";
import { acknowledge, knowerOf } from "./acknowledging.mjs";
import { offerAnew, offerOperators, ordersOf, showButtons } from "./choosing.mjs";
import { isManual } from "./counted.mjs";
import { followOrders } from "./fates.mjs";
import { choose } from "./given.mjs";
import { modeOf } from "./modes.mjs";
import { nameField } from "./naming.mjs";
import { asksToken, tokenField } from "./token.mjs";

const chooser = make("label", "", "orders as"), select = make("select");
chooser.id = "who";
select.id = "operator";
select.addEventListener("change", () => { choose(select.value); showButtons(); offerOperators(); });
chooser.append(select);
const standing = make("span", "", "orders"), told = make("div", "hidden"), list = make("ol");
standing.id = "console";
standing.setAttribute("role", "status");
told.id = "told";
told.setAttribute("role", "status");
list.id = "given";
list.className = "given";
list.setAttribute("aria-label", "orders that were given here");
by("clock").before(chooser, nameField(), ...(asksToken() ? [tokenField()] : []), standing);
by("alarms").after(list, told);
set(by("never"), "A click orders once you have said yes.");
extras.push(ordersOf);
// what the console tells is of now alone
modeSayers.push((d) => isPast ? "" : modeOf(d) || (d.parent && isManual(d) ? "manual" : ""));
knowers.push(knowerOf);
acknowledgers.push(acknowledge);
afterBuild.push(offerAnew);
afterShow.push(showButtons);
// A screen that has begun again has another key, and its page has to be loaded again.
afterRestart.push(() => location.reload());
if (tree) offerAnew();
followOrders();
