#!/usr/bin/env python3
"""Drives the page of `draw` in headless Chromium, over its remote debugging port, and tries what a reader does with it.

usage: checks/page.py PAGE FOLDER CYCLE

Pictures of the page at that cycle, on a wide and on a narrow screen, light and dark, are left in FOLDER, to be looked at.
Beside Python's library it needs the program chromium."""
import os
import sys

from chromium import CONTRAST, NAMED, STEP_TIME, TOO_FAINT, Page, need_chromium
from common import HAS_TIMES, finish, tell, wrong_arguments

OPENS, STEPS = 1000, 50  # milliseconds


# The cells of the cycle that are wholly in view, and how many there are.
IN_VIEW = """(() => {
  const view = document.getElementById('view').getBoundingClientRect(), label = document.querySelector('#rows .label').getBoundingClientRect();
  const cells = [...document.querySelectorAll('.cell.on')].map(cell => cell.getBoundingClientRect());
  const seen = cells.filter(r => r.left >= label.right && r.right <= view.right && r.top >= view.top && r.bottom <= view.bottom);
  return [seen.length, cells.length];
})()"""

# Whether the head of the cycle, and the address of its newest row, are in view once the picture is scrolled away.
AT_THE_EDGES = """(() => {
  const view = document.getElementById('view');
  view.scrollTop += 3000;
  view.scrollLeft += 3000;
  return new Promise(done => setTimeout(() => {
    const box = view.getBoundingClientRect(), label = document.querySelector('#rows .label').getBoundingClientRect();
    const heads = document.getElementById('heads').getBoundingClientRect();
    done(Math.abs(label.left - box.left) < 3 && Math.abs(heads.top - box.top) < 3);
  }, 200));
})()"""

def try_wide(page, url, cycle, folder):
    took = []
    for _ in range(3):
        page.call("Page.navigate", url="about:blank")
        page.open(f"{url}#{cycle}")
        took.append(page.ask("performance.timing.domContentLoadedEventEnd - performance.timing.navigationStart"))
    tell(f"the page opens within {OPENS} ms, at the best of three", min(took) <= OPENS or not HAS_TIMES, took)
    tell("#N opens at cycle N", page.cycle() == cycle, page.cycle())
    seen, all_cells = page.ask(IN_VIEW)
    tell("every cell of the cycle is in view", seen == all_cells and seen > 0, (seen, all_cells))
    page.picture(os.path.join(folder, "page-wide-light.png"))
    marked = page.ask("[...document.querySelectorAll('#source .on, #listing .on')].length")
    tell("its words and lines are marked", marked > 1, marked)
    page.key("ArrowRight")
    page.key("PageDown")
    tell("keys go on by 1 and by 16", page.cycle() == cycle + 17, page.cycle())
    tell("the address of the page has the cycle", page.ask("location.hash") == f"#{cycle + 17}", page.ask("location.hash"))
    page.key("ArrowRight", modifiers=2)
    tell("keys with modifiers are left to the browser", page.cycle() == cycle + 17, page.cycle())
    page.ask("location.hash = '#x'")
    page.settle()
    tell("#x is the first cycle", page.cycle() == 0, page.cycle())
    page.ask(f"location.hash = '#{cycle}'")
    page.settle()
    tell("#N goes to cycle N", page.cycle() == cycle, page.cycle())
    tell("addresses and cycle numbers stay at the edges", page.ask(AT_THE_EDGES))
    page.key("End")
    page.key("ArrowLeft")
    seen, all_cells = page.ask(IN_VIEW)
    tell("every cell near the end is in view", seen == all_cells and seen > 0, (seen, all_cells))
    page.ask(f"location.hash = '#{cycle}'")
    page.settle()
    took = page.ask(STEP_TIME)
    tell(f"a step takes at most {STEPS} ms", took <= STEPS or not HAS_TIMES, took)
    page.ask("document.getElementById('kind').value = 'store'; document.getElementById('after').click()")
    tell("the next store is found", "stores" in page.ask("document.getElementById('stages').textContent"))
    nodes = [node for node in page.call("Accessibility.getFullAXTree")["nodes"] if not node.get("ignored")]
    unnamed = [node["role"]["value"] for node in nodes if node.get("role", {}).get("value") in NAMED and not node.get("name", {}).get("value")]
    count = sum(node.get("role", {}).get("value") in NAMED for node in nodes)
    tell("every control has a name for screen readers", count > 10 and not unnamed, unnamed)


def try_look(page, url, cycle, name):
    page.open(f"{url}#{cycle}")
    faint = page.ask(TOO_FAINT)
    tell(f"contrast is at least {CONTRAST} in {os.path.basename(name)}", not faint, faint[:4])
    wide = page.ask("document.documentElement.scrollWidth - innerWidth")
    tell("nothing stands beside the screen", wide <= 0, wide)
    seen, all_cells = page.ask(IN_VIEW)
    tell("every cell of the cycle is in view", seen == all_cells and seen > 0, (seen, all_cells))
    page.picture(name)


def main():
    if len(sys.argv) != 4 or not sys.argv[3].isdecimal() or not os.path.isfile(sys.argv[1]):
        wrong_arguments("expected a page, a folder and a cycle")
    need_chromium()
    file, folder, cycle = sys.argv[1], sys.argv[2], int(sys.argv[3])
    url = "file://" + os.path.abspath(file)
    page = Page(1500, 900)
    try_wide(page, url, cycle, folder)
    tell("the page has no fault", not page.faults, page.faults)
    page.close()
    for screen, width, height in (("wide", 1500, 900), ("narrow", 390, 844)):
        for scheme in ("light", "dark"):
            page = Page(width, height, scheme == "dark")
            try_look(page, url, cycle, os.path.join(folder, f"page-{screen}-{scheme}.png"))
            page.close()
    return finish("page", "properties of the page")


if __name__ == "__main__":
    sys.exit(main())
