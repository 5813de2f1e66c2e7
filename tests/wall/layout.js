/* Behind the script of a page in a frame: at some calls, and at a last one whose cards have all that a card can have, in both views, says
   which leaf of a card ends outside it, or is cut, and whether the page is wider than its window; the wall, on a screen that lies, must
   not be higher either. */
window.onload = () => {
  const wrong = [], size = `${innerWidth}x${innerHeight}`;
  const lowest = calls.findIndex(call => call.board.some(c => c.precedence < -100 && c.naming > 9));
  const chosen = [...calls.keys()].filter(at => at % 40 === 39 || at === lowest || at === calls.length - 1);
  const full = calls[calls.length - 1];
  full.board = full.board.map(c => ({ ...c, key: 65535, precedence: -128, locked: true, stopped: true, writes: 64, naming: 64 }));
  const outside = (card, leaf) => {
    const a = card.getBoundingClientRect(), b = leaf.getBoundingClientRect();
    return b.width && (b.right > a.right + 1 || b.bottom > a.bottom + 1 || b.left < a.left - 1);
  };
  const cut = leaf => !leaf.matches(".ids") && getComputedStyle(leaf).display !== "inline" && leaf.scrollWidth > leaf.clientWidth + 1;
  const tell = () => wrong.length ? wrong.slice(0, 5).join("; ") : "all inside";
  for (const view of ["engineer", "wall"]) {
    document.documentElement.classList.toggle("wall", view === "wall");
    resize();
    for (const at of chosen) {
      go(at);
      for (const card of document.querySelectorAll(".channel"))
        for (const leaf of card.querySelectorAll("*"))
          if (!leaf.children.length && leaf.textContent && (outside(card, leaf) || cut(leaf)))
            wrong.push(`${view} call ${at + 1}: ${leaf.textContent} in card ${card.dataset.channel}`);
      const root = document.documentElement;
      if (root.scrollWidth > innerWidth + 1) wrong.push(`${view} call ${at + 1}: the page is wider than its window`);
      if (view === "wall" && innerWidth > innerHeight && root.scrollHeight > innerHeight + 1)
        wrong.push(`call ${at + 1}: the wall is ${root.scrollHeight} high`);
    }
  }
  parent.postMessage(`${size} ${channels} channels: ${chosen.length} calls, ${tell()}`, "*");
};
