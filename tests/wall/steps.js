/* Behind the script of a page: steps through all calls by the page's button and writes what then stands there, as program.awk does.
   The channels that the waiting requests name come from the log, the numbers of those that name one from the program: a line
   'miscounted' says where they differ. */
window.onload = () => {
  const find = id => document.getElementById(id), seen = [];
  const text = (part, name) => part.querySelector(`[data-is=${name}]`).textContent.replace("\u2212", "-");
  const total = Number(find("total").textContent);
  for (let step = 1; step <= total; step++) {
    for (const item of document.querySelectorAll("#said [data-reply]")) seen.push(`reply ${item.dataset.reply}`);
    seen.push(`answer ${document.querySelector("#said [data-answer]").dataset.answer}`);
    seen.push(`call ${find("number").textContent} looks ${find("looks").textContent}`);
    for (const c of document.querySelectorAll("article")) {
      const precedence = text(c, "precedence");
      seen.push(`channel ${c.dataset.channel} key ${text(c, "key")} precedence ${precedence === "\u2013" ? "" : precedence}` +
                ` locked ${+(text(c, "locked") === "locked")} stopped ${+(text(c, "stopped") === "stopped")}` +
                ` writes ${text(c, "writes")} naming ${text(c, "naming")}`);
    }
    for (const row of document.querySelectorAll("#list tr"))
      seen.push(`waits ${text(row, "desk")} ${text(row, "id")} ${text(row, "precedence")} held ${+(text(row, "held") === "held")}` +
                ` since ${text(row, "since")}`);
    for (const c of document.querySelectorAll("article")) {
      const naming = [...document.querySelectorAll("#list tr")].filter(row => text(row, "channels").includes(c.dataset.channel));
      if (naming.length !== Number(text(c, "naming"))) seen.push(`miscounted ${c.dataset.channel}`);
    }
    find("on").click();
  }
  const list = document.body.appendChild(document.createElement("pre"));
  list.id = "seen";
  list.textContent = `\n${seen.join("\n")}\n`;
};
