# Opens reports in a browser and compares what they show with the JSON document: PROGRAM..., then the folder for pictures.
import collections
import json
import os
import subprocess
import sys
import tempfile
import time

sys.path.insert(0, os.path.dirname(os.path.abspath(__file__)))
import feeds  # noqa: E402
from browser import Browser  # noqa: E402

TOP = os.path.dirname(os.path.dirname(os.path.abspath(__file__)))
PROGRAM, PICTURES = sys.argv[1:-1], sys.argv[-1]
PAGE = 50


def same(what, have, wanted):
    if have != wanted:
        raise AssertionError(f"{what}:\n  have   {have!r}\n  wanted {wanted!r}")


def holds(what, condition):
    if not condition:
        raise AssertionError(what)


# A feed with its page and what the command says of it otherwise, with options that both take; all are made at the same time.
class Case:
    def __init__(self, folder, name, feed, plain=False, options=()):
        self.name, self.page = name, os.path.join(folder, name + ".html")
        self.feed, self.path = feed, os.path.join(folder, feed)
        words = {"report": ["report", feed, "-o", self.page], "json": ["check", "--json", feed]}
        # Where all text is plain, the document shows it as the command does.
        if not plain:
            words["text"] = ["check", "--all", feed]
        self.runs = {key: subprocess.Popen(PROGRAM + value + list(options), cwd=folder, stdout=subprocess.PIPE) for key, value in words.items()}

    # What the runs printed; the statuses agree.
    def wait(self):
        said = {key: run.communicate()[0].decode() for key, run in self.runs.items()}
        same(f"{self.name}: statuses", len({run.returncode for run in self.runs.values()}), 1)
        self.json = json.loads(said["json"])
        # What the page lists: findings, or the faults of a refused feed.
        self.findings = self.json["findings"] or self.json["faults"]
        # The lines as the command shows them: each stands directly below its place, which may end in a column. One that is cut around its carets
        # stands whole under another rule.
        self.texts, place = {f"{found['name']}:{found['line']}": found["text"] for found in self.findings}, None
        for line in said.get("text", "").splitlines():
            if place and line.startswith("    ") and not (line.startswith("    ... ") or line.endswith(" ...")):
                self.texts[place] = line[4:]
            at = line[len(self.feed) + 1:].split(": ", 1)[0] if line.startswith(self.feed + "/") else ""
            place = ":".join(at.split(":")[:2])
        return self


# What a card shows.
CARDS = """[...document.querySelectorAll('#list > .finding')].map((card) => ({
  place: Number(card.dataset.place), where: card.querySelector('.where').textContent, rule: card.querySelector('.rule').textContent,
  words: card.querySelector('.words')?.textContent || '', text: card.querySelector('.own-line .line-text')?.textContent ?? null,
  marks: [...card.querySelectorAll('.own-line mark')].map((mark) => [mark.title, mark.textContent]),
  gaps: card.querySelectorAll('.own-line .gap').length, means: card.querySelectorAll('.body strong').length }))"""

STATUS = "document.getElementById('status').textContent"


def number(found):
    return found.get("rule", found.get("number"))


# The cards of the page that is shown are the findings that the document has there.
def compare_cards(browser, case, wanted):
    cards = browser.value(CARDS)
    same(f"{case.name}: how many are shown", len(cards), len(wanted))
    for card, found in zip(cards, wanted):
        line = f", line {found['line']:,}" if found["line"] else ""
        column = f", column {found['column']} ({found['column_name']})" if found.get("column") else ""
        same(f"{case.name}: place", card["where"], found["name"] + line + column)
        kind = "Rule" if "rule" in found else "Refusal"
        same(f"{case.name}: rule", card["rule"], f"{kind} {number(found)}: {found['meaning']}")
        same(f"{case.name}: words", card["words"], found["words"])
        holds(f"{case.name}: how to mend {card}", card["means"] >= 3)
        if found["text"] is not None and not card["gaps"]:
            same(f"{case.name}: text of {card['where']}", card["text"], case.texts[f"{found['name']}:{found['line']}"])
        compare_marks(case, card, found)


# The value of a field.
def unquoted(field):
    return field[1:-1].replace('""', '"') if field.startswith('"') else field


# What is marked stands in the finding's own columns.
def compare_marks(case, card, found):
    columns = {20: 1, 21: 1, 22: 1, 23: 1, 24: 2, 26: 2, 27: 2, 28: 1, 29: 1, 30: 1, 31: 1, 5: 1, 6: 1, 8: 1, 11: 1, 12: 1, 13: 1, 14: 1, 60: 1, 61: 1, 62: 1}
    holds(f"{case.name}: marks of {card}", len(card["marks"]) >= columns.get(number(found), 0))
    about = found["about"]
    if found.get("column"):
        same(f"{case.name}: what the mark is called", [title for title, _ in card["marks"]], [f"column {found['column']}"])
    # What can't be printed is shown as an escape.
    if number(found) in (20, 11, 13) and about["value"].isprintable():
        same(f"{case.name}: mark", unquoted(card["marks"][0][1]), about["value"])
    if "date" in about:
        same(f"{case.name}: mark of the date", card["marks"][1:], [["date", about["date"]]])
    if number(found) == 14:
        same(f"{case.name}: mark", card["marks"], [[f"byte {about['byte']}", f"\\x{about['found']}"]])
    if number(found) == 24:
        same(f"{case.name}: marks", [text for _, text in card["marks"]], [about["start_date"], about["end_date"]])
    if number(found) == 28:
        same(f"{case.name}: mark", int(card["marks"][0][1]), about["stop_sequence"])
    # What breaks a rule of the profile for boards, and nothing else; the feeds for it have their columns in this order, and times of eight letters.
    breaks = {60: lambda value: value is None, 61: lambda value: value in (2, 3), 62: lambda value: value is not None and value >= "48:00:00"}
    if number(found) in breaks:
        wanted = [[name, "" if value is None else str(value)] for name, value in about.items() if breaks[number(found)](value)]
        same(f"{case.name}: marks", card["marks"], wanted)


# Waits until so many are chosen, and the first page of them is shown.
def chosen(browser, case, count):
    word = "fault" if case.json["refusal"] else "finding"
    total = f", of {len(case.findings):,} in all" if count < len(case.findings) else ""
    wanted = f"{f'1 to {PAGE} of ' if count > PAGE else ''}{count:,} {word}{'s' * (count != 1)}{total}"
    if count == 0:
        wanted = f"No {word} fits the filter{total}"
    try:
        browser.wait(f"{STATUS} === {json.dumps(wanted)}", 20)
    except TimeoutError:
        same(f"{case.name}: status", browser.value(STATUS), wanted)


# Walks over pages by their buttons and compares each; of a long list the first two, one in the middle and the last.
def walk(browser, case):
    pages = max(1, -(-len(case.findings) // PAGE))
    chosen(browser, case, len(case.findings))
    for page in range(pages) if pages < 6 else [0, 1, pages // 2, pages - 1]:
        if page == pages // 2 and pages >= 6:
            browser.value(f"{{ const box = document.querySelector('#pages-above input'); box.value = {page + 1}; box.dispatchEvent(new Event('change')); }}")
        elif page == pages - 1 and pages >= 6:
            browser.value("document.querySelector('#pages-below [aria-label=\"Last page\"]').click()")
        elif page:
            browser.value("document.querySelector('#pages-above [aria-label=\"Next page\"]').click()")
        compare_cards(browser, case, case.findings[page * PAGE:(page + 1) * PAGE])
    holds(f"{case.name}: the next page", pages == 1 or browser.value("document.querySelector('[aria-label=\"Next page\"]').disabled"))
    browser.value("document.getElementById('filter').reset()")


# Verdict, totals and records.
def compare_head(browser, case):
    document = case.json
    total = len(case.findings)
    words = {"accepted": "✓Accepted", "refused": "✕Refused", "findings": f"!{total:,} finding{'s' * (total != 1)}"}
    same(f"{case.name}: verdict", browser.value("document.getElementById('verdict').textContent"), words[document["verdict"]])
    same(f"{case.name}: feed", browser.value("document.querySelector('h1').textContent"), document["feed"])
    profile = browser.value("document.querySelector('.top #profile')?.textContent ?? ''")
    same(f"{case.name}: profile", profile.split(":")[0], "" if document["profile"] == "plain" else f"Profile {document['profile']}")
    unread = browser.value("[...document.querySelectorAll('#unread code')].map((name) => name.textContent)")
    same(f"{case.name}: files not read", unread, document["unread"]["names"])
    counts = collections.Counter(number(found) for found in case.findings)
    rows = browser.value("[...document.querySelectorAll('#totals tbody tr')].map((row) => [Number(row.dataset.number), row.querySelector('.count').textContent])")
    same(f"{case.name}: totals", rows, [[rule, f"{count:,}"] for rule, count in sorted(counts.items())])
    if document["totals"]:
        same(f"{case.name}: totals of the document", [[one["rule"], one["count"]] for one in document["totals"]], sorted(map(list, counts.items())))
    records = browser.value("[...document.querySelectorAll('#read tbody tr')].map((row) => row.cells[1].textContent)")
    # Of a refused feed nobody says what its records are.
    shown = ["not supplied" if count is None else f"{count:,}" for count in document["records"] or []]
    dates = "" if os.path.exists(os.path.join(case.path, "calendar_dates.txt")) else "not supplied"
    same(f"{case.name}: records", records, shown or [""] * 5 + [dates])
    compare_advice(browser, case)
    line = browser.value("document.getElementById('records')?.textContent ?? ''")
    wanted = ", ".join(f"{name} {count}" for name, count in zip(feeds.NAMES, shown))
    same(f"{case.name}: records in a line", line, f"Records read: {wanted}. More" if wanted else "")


# Of a refused feed: how many faults there are and what to do, what the verdict names, and what the headers hide.
def compare_advice(browser, case):
    total, first = len(case.findings), case.json["refusal"]
    leads = browser.value("[...document.querySelectorAll('.lead.advice, .lead.named, .lead.hidden-faults')].map((lead) => lead.textContent)")
    if not first:
        return same(f"{case.name}: advice", leads, [])
    these = "1 fault: mend it" if total == 1 else f"{total:,} faults: mend all of these"
    same(f"{case.name}: advice", leads[0], these + ", then check again for findings.")
    holds(f"{case.name}: {leads[1]}", leads[1].startswith(f"The verdict names refusal {first['number']} in {first['name']}"))
    # The header of routes.txt, with lines below it; the others stand alone.
    same(f"{case.name}: what isn't judged", sum("weren't judged" in lead for lead in leads[2:]), int(case.name == "faults"))


def set_filter(browser, **values):
    for name, value in values.items():
        event = "input" if name == "text" else "change"
        browser.value(f"{{ const box = document.getElementById('filter-{name}'); box.value = {json.dumps(str(value))}; box.dispatchEvent(new Event('{event}')); }}")


# Each filter leaves the findings that the document has for it.
def filters(browser, case, text):
    for file in sorted({found["file"] for found in case.findings}):
        wanted = [found for found in case.findings if found["file"] == file]
        set_filter(browser, file=file)
        chosen(browser, case, len(wanted))
        compare_cards(browser, case, wanted[:PAGE])
    set_filter(browser, file=0)
    for rule in sorted({number(found) for found in case.findings}):
        wanted = [found for found in case.findings if number(found) == rule]
        browser.value(f"document.querySelector('#totals tr[data-number=\"{rule}\"] .count button').click()")
        chosen(browser, case, len(wanted))
        compare_cards(browser, case, wanted[:PAGE])
    browser.value("document.getElementById('filter').reset()")
    set_filter(browser, text=text)
    wanted = [found for found in case.findings if text.lower() in (found["words"] + "\n" + (found["text"] or "")).lower()]
    holds(f"{case.name}: some have '{text}' and some don't", 0 < len(wanted) < len(case.findings))
    chosen(browser, case, len(wanted))
    compare_cards(browser, case, wanted[:PAGE])
    set_filter(browser, text="nobody has this text")
    chosen(browser, case, 0)
    browser.value("document.getElementById('filter').reset()")
    chosen(browser, case, len(case.findings))


# Where the nth dot of a layer of the map is on the screen.
DOT = """(() => { const path = document.querySelector('#map .LAYER'), dot = path.getAttribute('d').split('M')[PLACE + 1].split(/[ h]/).map(Number);
  document.getElementById('map').scrollIntoView({block: 'center', behavior: 'instant'});
  const point = new DOMPoint(dot[0], dot[1]).matrixTransform(path.getScreenCTM()); return [point.x, point.y]; })()"""


# Every stop is drawn, the faulty ones apart, and a click on one leads to its findings.
def stops_map(browser, case):
    own = sorted({found["line"] for found in case.findings if found["file"] == 1})
    dots = "['stop', 'call', 'own'].map((name) => document.querySelector('#map .' + name).getAttribute('d').split('M').length - 1)"
    plain, calls, marked = browser.value(dots)
    same(f"{case.name}: stops with findings of their own", marked, len(own))
    same(f"{case.name}: all stops", plain + calls + marked, case.json["records"][0])
    for n, line in enumerate(own[:3]):
        browser.click(*browser.value(DOT.replace("LAYER", "own").replace("PLACE", str(n))))
        browser.wait("!document.getElementById('stop-filter').hidden")
        lines = browser.value("[...document.querySelectorAll('#list .where')].map((where) => where.textContent)")
        holds(f"{case.name}: a click on the stop of line {line} shows {lines}", f"stops.txt, line {line}" in lines)
        same(f"{case.name}: the place of the focus", browser.value("document.activeElement.id"), "findings")
        browser.value("document.getElementById('stop-filter-clear').click()")
        chosen(browser, case, len(case.findings))
    return calls


# Stops without coordinates are drawn nowhere and leave the map as wide as it was; the list beside it leads to their findings.
def without_place(browser, case):
    dots = "['stop', 'call', 'own'].map((name) => document.querySelector('#map .' + name).getAttribute('d').split('M').length - 1)"
    same(f"{case.name}: stops on the map", browser.value(dots), [4, 0, 1])
    same(f"{case.name}: the note", browser.value("document.getElementById('map-note').textContent"), "5 stops by their coordinates, 2 more without any, 2 with findings. Choose one for its findings.")
    figures = browser.value("[...document.querySelectorAll('#map g text:not(.label)')].map((text) => Number(text.textContent.slice(0, -1)))")
    holds(f"{case.name}: degrees {figures}", figures and all(52 < figure < 53 or 13 < figure < 14 for figure in figures))
    browser.value("document.querySelector('#faulty [data-stop=\"7\"]').click()")
    chosen(browser, case, 2)
    same(f"{case.name}: rings", browser.value("document.querySelectorAll('#map .chosen-stop').length"), 0)
    browser.value("document.getElementById('stop-filter-clear').click()")
    chosen(browser, case, len(case.findings))


# Where no stop has coordinates there is no map, and what leads to a stop's findings still does.
def no_map(browser, case):
    same(f"{case.name}: the map is hidden", browser.value("document.getElementById('map-section').hidden"), True)
    browser.value("document.querySelector('#list [data-stop]').click()")
    chosen(browser, case, len(case.findings))


# The trip's rows go by sequence, the step that falls is drawn once, and a departure before its arrival too.
def time_diagram(browser, case):
    picture = "document.querySelector('.diagram[open] svg')"
    rows = browser.value(f"[...{picture}.querySelectorAll('text')].map((text) => text.firstChild.data).filter((text) => / /.test(text))")
    same("shuffled: rows", [" ".join(row.split()) for row in rows], ["10 A", "20 B", "30 C", "40 D"])
    same("shuffled: steps that fall", browser.value(f"{picture}.querySelectorAll('.fall').length"), 1)
    same("shuffled: departures before arrivals", browser.value(f"{picture}.querySelectorAll('.back').length"), 1)
    label = browser.value(f"{picture}.getAttribute('aria-label')")
    holds(label, "line 4 arrives at 08:40:00, before line 2 departs at 08:50:00" in label)


# The trip of an untimed line has its rows and says where times are missing; that of a late time reaches it on its axis.
def boards_diagram(browser, case):
    pictures = browser.value("[...document.querySelectorAll('.diagram[open] svg')].map((svg) => [...svg.querySelectorAll('text')].map((text) => text.firstChild.data))")
    same("boards: pictures", len(pictures), 2)
    bus, ferry = [[" ".join(text.split()) for text in picture] for picture in pictures]
    holds(f"boards: {bus}", {"1 Port", "2 Old Mill", "3 Hill Farm", "4 Church", "no times"} <= set(bus))
    holds(f"boards: {ferry}", {"3 Cape", "4 North Quay", "48:00"} <= set(ferry) and "no times" not in ferry)
    holds("boards: no step falls", browser.value("document.querySelectorAll('.diagram .fall, .diagram .back').length") == 0)


# By keys alone: the skip link first, then on to the filter; text typed there filters.
def keyboard(browser, case):
    browser.open(case.page)
    browser.key("Tab", "Tab", 9)
    same("the first stop of the focus", browser.value("document.activeElement.className"), "skip")
    browser.key("Enter", "Enter", 13, "\r")
    seen = []
    for _ in range(8):
        browser.key("Tab", "Tab", 9)
        seen.append(browser.value("document.activeElement.id"))
        if seen[-1] == "filter-text":
            break
    same("the way of the focus", seen, ["filter-file", "filter-number", "filter-text"])
    browser.call("Input.insertText", text="stop_times.txt:")
    chosen(browser, case, sum(found["file"] == 5 for found in case.findings))
    browser.key("Tab", "Tab", 9)
    browser.key("Enter", "Enter", 13, "\r")
    chosen(browser, case, len(case.findings))


# Whatever one can use has a name for a screen reader, and so has each picture.
def names(browser, case):
    roles = {"button", "combobox", "searchbox", "link", "spinbutton", "textbox", "image", "group", "list", "table", "navigation", "search"}
    needing = roles - {"list", "table"}
    seen = set()
    for node in browser.call("Accessibility.getFullAXTree")["nodes"]:
        role, name = node.get("role", {}).get("value"), node.get("name", {}).get("value")
        if not node.get("ignored") and role in needing:
            seen.add(role)
            holds(f"{case.name}: a {role} without a name: {node}", name or role == "group")
    return seen


# The contrast of text against what it stands on, at its lowest.
CONTRAST = """(() => {
  const parts = (color) => color.match(/[\\d.]+/g).map(Number);
  const even = (part) => (part / 255 <= .03928 ? part / 255 / 12.92 : ((part / 255 + .055) / 1.055) ** 2.4);
  const light = (color) => { const [r, g, b] = parts(color).map(even); return .2126 * r + .7152 * g + .0722 * b; };
  const ground = (node) => {
    for (; node; node = node.parentElement) {
      const color = getComputedStyle(node).backgroundColor, [, , , opaque = 1] = parts(color);
      if (opaque > 0) return color;
    }
    return 'rgb(255, 255, 255)';
  };
  const all = document.querySelectorAll('p, h1, h2, h3, th, td, summary, mark, .place, .line-text, button:not(:disabled), label, code, a');
  const ratio = (node) => {
    const [one, other] = [light(getComputedStyle(node).color), light(ground(node))].sort((a, b) => b - a);
    return [(one + .05) / (other + .05), node.className || node.tagName, node.textContent.slice(0, 30)];
  };
  return [...all].filter((node) => node.offsetParent && node.textContent.trim()).map(ratio).sort((a, b) => a[0] - b[0])[0];
})()"""


# Light and dark can be read, and on a phone nothing sticks out.
def looks(browser, case):
    for dark in [False, True]:
        browser.dark(dark)
        lowest = browser.value(CONTRAST)
        holds(f"{case.name}: contrast in the {'dark' if dark else 'light'}: {lowest}", lowest[0] >= 4.5)
        browser.screenshot(os.path.join(PICTURES, f"{case.name}-{'dark' if dark else 'light'}.png"))
    browser.dark(False)
    for width in [320, 390]:
        browser.size(width, 800, 1, True)
        browser.wait("(document.querySelector('#map svg')?.viewBox.baseVal.width ?? 0) <= innerWidth")
        time.sleep(0.3)
        same(f"{case.name}: width on a phone", browser.value("document.documentElement.scrollWidth"), width)
    browser.screenshot(os.path.join(PICTURES, f"{case.name}-phone.png"))
    browser.size(1200, 900)


# On paper stand more findings than on a page of the screen, and afterwards the page is as it was.
def printed(browser, case):
    browser.value("addEventListener('beforeprint', () => { window.printed = document.querySelectorAll('#list > .finding').length; })")
    browser.pdf(os.path.join(PICTURES, f"{case.name}.pdf"))
    same(f"{case.name}: printed", browser.value("window.printed"), min(300, len(case.findings)))
    same(f"{case.name}: shown after printing", browser.value("document.querySelectorAll('#list > .finding').length"), min(PAGE, len(case.findings)))


# Nothing of the feed became an element, a handler or a script.
def harmless(browser, case):
    same(f"{case.name}: scripts ran", browser.value("String(window.broken)"), "undefined")
    odd = "[...document.querySelectorAll('img, iframe, object, embed, b, i, form:not(#filter), link, base')].filter((node) => !node.closest('noscript')).length"
    same(f"{case.name}: odd elements", browser.value(odd), 0)
    handlers = "[...document.querySelectorAll('*')].flatMap((node) => node.getAttributeNames()).filter((name) => name.startsWith('on')).length"
    same(f"{case.name}: handlers", browser.value(handlers), 0)
    same(f"{case.name}: styles", browser.value("document.querySelectorAll('style').length"), 1)
    same(f"{case.name}: scripts", browser.value("[...document.scripts].filter((script) => script.type !== 'application/json').length"), 1)


# What the content policy forbids doesn't happen, however it came into the page.
def policy(browser, case):
    browser.value("""{ for (const make of [() => { const script = document.createElement('script'); script.append('window.broken = 1'); document.body.append(script); },
      () => { document.body.insertAdjacentHTML('beforeend', '<img src=x onerror="window.broken=1">'); }, () => { new Image().src = 'x.png'; },
      () => { const link = document.createElement('link'); link.rel = 'stylesheet'; link.href = 'x.css'; document.head.append(link); }]) { try { make(); } catch (error) {} } }""")
    browser.value("new Promise((done) => setTimeout(done, 100))")
    same(f"{case.name}: scripts ran", browser.value("String(window.broken)"), "undefined")
    holds(f"{case.name}: the policy was broken and said so", len(browser.wrong()) >= 3)


# Without its script the page still has the verdict, the totals and the first findings.
def without_script(browser, case, more=lambda: None):
    browser.call("Emulation.setScriptExecutionDisabled", value=True)
    browser.call("Page.navigate", url="file://" + case.page)
    browser.wait("document.readyState === 'complete'")
    same(f"{case.name}: findings without a script", browser.value("document.querySelectorAll('noscript li').length"), min(100, len(case.findings)))
    compare_head(browser, case)
    more()
    browser.call("Emulation.setScriptExecutionDisabled", value=False)


# Each letter of lines that are shown, with its place from the left and from the top.
LETTERS = """[...document.querySelectorAll('SHOWN')].map((line) => {
  const texts = document.createTreeWalker(line, NodeFilter.SHOW_TEXT), letters = [];
  for (let text = texts.nextNode(); text; text = texts.nextNode()) {
    for (let place = 0; place < text.length; place++) {
      const range = new Range();
      range.setStart(text, place);
      range.setEnd(text, place + 1);
      const { left, top } = range.getBoundingClientRect();
      letters.push([text.data[place], left, top]);
    }
  }
  return letters;
})"""


# The fields of a line stand from left to right, whatever letters are in them, and letters that go left do so inside their field.
def fields_in_order(browser, case, shown):
    lines = browser.value(LETTERS.replace("SHOWN", shown))
    leftward = 0
    for letters in lines:
        fields, quoted = [[]], False
        for letter, left, _ in letters:
            quoted ^= letter == '"'
            if letter == "," and not quoted:
                fields.append([])
            else:
                fields[-1].append((letter, left))
        text = "".join(letter for letter, _, _ in letters)
        holds(f"{case.name}: one row: {text}", len({round(top / 12) for _, _, top in letters}) == 1)
        edges = [(min(left for _, left in field), max(left for _, left in field)) for field in fields if field]
        holds(f"{case.name}: fields of {text}: {edges}", all(one[1] < other[0] for one, other in zip(edges, edges[1:])))
        for field in fields:
            places = [left for letter, left in field if "\u0590" < letter < "\u0700"]
            holds(f"{case.name}: letters of {text}", places == sorted(places, reverse=True))
            leftward += len(places) > 1
    holds(f"{case.name}: {len(lines)} lines, {leftward} fields go left", len(lines) > 5 and leftward > 5)


# A trip of a million lines is drawn around the one that falls, without a standstill.
def long_trip(browser, case):
    seconds = browser.open(case.page)
    holds(f"long_trip: opened in {seconds:.1f} s", seconds < 20)
    same("long_trip: findings", [[found["line"], number(found)] for found in case.findings], [[feeds.FALLS + 1, 29]])
    label = browser.value("document.querySelector('.diagram[open] svg').getAttribute('aria-label')")
    # Of the four lines that depart in the second before, the first.
    line, before = feeds.FALLS + 1, feeds.FALLS - 3
    falls = f"line {line} arrives at {feeds.trip_time(feeds.FALLS)}, before line {before} departs at {feeds.trip_time(feeds.FALLS - 1)}"
    holds(label, label.endswith(f"with {feeds.MOST_LINES - 1} lines, line {line} marked: {falls}"))
    same("long_trip: steps that fall", browser.value("document.querySelectorAll('.diagram[open] .fall').length"), 1)


# Opens a large page: soon, with few elements, and without a long standstill.
def opened(browser, name, page, seconds):
    took = browser.open(page)
    holds(f"{name}: opened in {took:.1f} s", took < seconds)
    holds(f"{name}: elements", browser.value("document.querySelectorAll('main *').length") < 4000)
    longest = browser.value("""new Promise((done) => {
      new PerformanceObserver((list) => done(Math.max(...list.getEntries().map((entry) => entry.duration)))).observe({type: 'longtask', buffered: true});
      setTimeout(() => done(0), 1000);
    })""")
    holds(f"{name}: the longest standstill was {longest} ms", longest < 4000)
    heap = browser.call("Runtime.getHeapUsage")["totalSize"] >> 20
    holds(f"{name}: {heap} MiB", heap < 1000)
    print(f"report: {name} opens in {took:.1f} s, the longest standstill {longest:.0f} ms, {heap} MiB", flush=True)


# 65,000 findings, all of them in the page.
def large(browser, case):
    same("many: findings", len(case.findings), 65000)
    opened(browser, "65,000 findings", case.page, 20)


# A million findings by a million stops: the page has the first ones of each rule, says so, and has all of them in its totals. Those that it lists
# are the document's.
def million(browser, folder):
    page, total, listed = os.path.join(folder, "million.html"), feeds.MOST_LINES - 2, 100_000
    report = subprocess.Popen(PROGRAM + ["report", "million", "-o", page], cwd=folder, stdout=subprocess.PIPE)
    ends = [[], ["--after", f"5,{listed - 49},29"]]
    documents = [subprocess.run(PROGRAM + ["check", "--json", "million", "--room", "50"] + words, cwd=folder, stdout=subprocess.PIPE).stdout for words in ends]
    same("million: report", (report.communicate()[0], report.returncode), (f"findings: {total}\n".encode(), 1))
    size = os.path.getsize(page)
    holds(f"million: {size} bytes", size < 100_000_000)
    opened(browser, "a million findings", page, 30)
    note = browser.value("document.getElementById('left-out').textContent")
    same("million: what is left out", note, f"Listed here are {listed:,} of {total:,} findings, the first {listed // 2:,} of each rule. tusuchiy check --json has all of them.")
    same("million: totals", browser.value("[...document.querySelectorAll('#totals .count')].map((cell) => cell.textContent)"), [f"{total // 2:,}"] * 2)
    for document, last in zip(documents, [False, True]):
        if last:
            browser.value("document.querySelector('#pages-above button[data-to=\"1999\"]').click()")
        case = type("Case", (), {"name": "million", "texts": {}, "findings": json.loads(document)["findings"]})
        case.texts = {f"{found['name']}:{found['line']}": found["text"] for found in case.findings}
        shown = f"{listed - 49:,} to {listed:,}" if last else "1 to 50"
        same("million: status", browser.value(STATUS), f"{shown} of {listed:,} findings, of {total:,} in all")
        compare_cards(browser, case, case.findings)
    words = browser.value("document.getElementById('map-note').textContent")
    # Every sixteenth stop, and those at which the listed trips call.
    holds(words, words.endswith(f" of {feeds.MOST_LINES - 1:,} stops by their coordinates, {listed // 2 + 1:,} with findings that are listed. Choose one for its findings."))


# The README's picture: the totals, the map, and a finding with its time diagram.
def picture(browser, case):
    browser.size(1040, 1600, 0.7)
    browser.open(case.page)
    browser.value("document.querySelector('#totals tr[data-number=\"29\"] .count button').click()")
    browser.wait("document.querySelectorAll('#list > .finding').length === 1")
    browser.value("document.activeElement.blur(), scrollTo({top: 0, behavior: 'instant'})")
    bottom = browser.value("document.getElementById('list').getBoundingClientRect().bottom")
    browser.size(1040, int(bottom) + 20, 0.7)
    browser.screenshot(os.path.join(PICTURES, "report.png"))


def every_page(browser, case):
    browser.open(case.page)
    compare_head(browser, case)
    if case.findings:
        walk(browser, case)
    same(f"{case.name}: what went wrong", browser.wrong(), [])
    same(f"{case.name}: what was asked for", browser.asked(), ["file://" + case.page])
    harmless(browser, case)


def main():
    os.makedirs(PICTURES, exist_ok=True)
    with tempfile.TemporaryDirectory() as folder:
        for name in ["many", "million", "long_trip", "leftward", "town", "nodes", "nowhere", "hostile_refused", "hostile_bytes", "shuffled"]:
            getattr(feeds, name)(os.path.join(folder, name))
        feeds.hostile(os.path.join(folder, feeds.HOSTILE_NAME))
        large_case, long_case = [Case(folder, name, name, plain=True) for name in ["many", "long_trip"]]
        cases = {name: Case(folder, name, os.path.join(TOP, "examples", name)) for name in ["feed", "findings", "refused", "by-date", "faults"]}
        cases.update({name: Case(folder, name, name) for name in ["town", "nodes", "nowhere", "hostile_refused", "hostile_bytes", "shuffled", "leftward"]})
        cases["hostile"] = Case(folder, "hostile", feeds.HOSTILE_NAME)
        # With the profile for boards: a feed of its own, one with other findings, one that a board can show, a refused one, and markup in the way.
        boards = {"boards": "boards", "both": "findings", "shown": "by-date", "still-refused": "refused"}
        cases["unasked"] = Case(folder, "unasked", os.path.join(TOP, "examples", "boards"))
        for name, feed in boards.items():
            cases[name] = Case(folder, name, os.path.join(TOP, "examples", feed), options=("--profile", "boards"))
        cases["hostile-boards"] = Case(folder, "hostile-boards", feeds.HOSTILE_NAME, options=("--profile", "boards"))
        browser = Browser()
        try:
            browser.size(1200, 900)
            browser.dark(False)
            for case in cases.values():
                every_page(browser, case.wait())
                looks(browser, case)
            profiles = {name: case.json["profile"] for name, case in cases.items() if case.json["profile"] != "plain"}
            same("the profile for boards", profiles, {name: "boards" for name in [*boards, "hostile-boards"]})
            verdicts = [cases[name].json["verdict"] for name in ["unasked", "boards", "both", "shown", "still-refused"]]
            same("verdicts with the profile", verdicts, ["accepted", "findings", "findings", "accepted", "refused"])
            browser.open(cases["boards"].page)
            filters(browser, cases["boards"], "phone")
            same("boards: stops where trips call", stops_map(browser, cases["boards"]), 4)
            boards_diagram(browser, cases["boards"])
            without_script(browser, cases["boards"])
            same("hostile_refused: the column", cases["hostile_refused"].json["refusal"]["column"], 3)
            same("hostile_bytes: the refusal", number(cases["hostile_bytes"].json["refusal"]), 14)
            browser.open(cases["town"].page)
            filters(browser, cases["town"], "entrance")
            holds("town: stops where trips call", stops_map(browser, cases["town"]) >= 2)
            seen = names(browser, cases["town"])
            holds(f"roles: {seen}", {"button", "combobox", "searchbox", "image"} <= seen)
            keyboard(browser, cases["town"])
            browser.open(cases["nodes"].page)
            without_place(browser, cases["nodes"])
            browser.open(cases["nowhere"].page)
            no_map(browser, cases["nowhere"])
            browser.open(cases["faults"].page)
            filters(browser, cases["faults"], "wanted")
            without_script(browser, cases["faults"])
            browser.open(cases["shuffled"].page)
            time_diagram(browser, cases["shuffled"])
            browser.open(cases["leftward"].page)
            fields_in_order(browser, cases["leftward"], "#list .line-text")
            without_script(browser, cases["leftward"], lambda: fields_in_order(browser, cases["leftward"], "noscript code"))
            long_trip(browser, long_case.wait())
            browser.open(cases["hostile"].page)
            filters(browser, cases["hostile"], "constructor")
            stops_map(browser, cases["hostile"])
            printed(browser, cases["hostile"])
            harmless(browser, cases["hostile"])
            policy(browser, cases["hostile"])
            without_script(browser, cases["hostile"])
            large(browser, large_case.wait())
            every_page(browser, large_case)
            filters(browser, large_case, "T3199,")
            million(browser, folder)
            picture(browser, cases["town"])
        finally:
            browser.close()
    print("report: six examples, the profile for boards, a town, stops without coordinates, lines from right to left, a trip of a million lines, hostile feeds, 65,000 findings and a million show in a browser what the JSON document says", flush=True)


main()
