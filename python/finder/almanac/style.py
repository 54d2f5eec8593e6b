"""The look of an almanac's page: on a desk, on a phone, in the dark and on paper. It names no other file."""

from .entries import Group

LIGHT = """
--paper:#fbfaf7;--ink:#1d2330;--soft:#566072;--line:#dcd8cf;--stripe:#f3f0e9;--card:#fff;
--moon:#6457b0;--seasons:#a0650e;--eclipses:#b3302f;--planets:#1c7265;--meetings:#2967a8;--moon-meetings:#87527f;
--days:#7a5c00;--weeks:#1c7265;
--back:#f3dcd6;--tint:#faeeeb;--lit:#fff4c8;--dark:#39414f;
--daylight:#dcebf7;--dusk1:#a9bfdb;--dusk2:#6f86b4;--dusk3:#46568c;--night:#1e2749"""
DARK = """
--paper:#11151d;--ink:#e7e5de;--soft:#a0a9ba;--line:#2e3644;--stripe:#1a202b;--card:#151a24;
--moon:#aba2f2;--seasons:#e2b05c;--eclipses:#f28080;--planets:#62c8b8;--meetings:#82b6ee;--moon-meetings:#cda0c6;
--days:#e2b05c;--weeks:#62c8b8;
--back:#45282b;--tint:#241a1f;--lit:#f5ecc0;--dark:#05070b;
--daylight:#8fa6bd;--dusk1:#6d84a6;--dusk2:#48597f;--dusk3:#2c3760;--night:#0d1330"""

DESK = """
*{box-sizing:border-box}
body{margin:0;background:var(--paper);color:var(--ink);-webkit-text-size-adjust:100%;
font:16px/1.5 system-ui,-apple-system,"Segoe UI",Roboto,"DejaVu Sans",sans-serif}
main{max-width:1240px;margin:0 auto;padding:32px 24px 64px}
h1{font:600 36px/1.15 Georgia,"DejaVu Serif",serif;margin:0 0 6px;letter-spacing:-.01em}
h2{font:600 22px/1.2 Georgia,"DejaVu Serif",serif;margin:34px 0 6px}
h2.year{font-size:28px;border-top:2px solid var(--ink);padding-top:14px;margin-top:44px}
.lead{color:var(--soft);margin:0 0 20px;max-width:78ch}
.glance{list-style:none;margin:0 0 22px;padding:12px 0;columns:19em;column-gap:28px;border-block:1px solid var(--line)}
.glance li{break-inside:avoid;display:flex;gap:10px;align-items:baseline;padding:1px 0}
.glance time{color:var(--soft);font-variant-numeric:tabular-nums;white-space:nowrap;min-width:7.2em}
.glance b{font-weight:600;color:var(--c)}
figure{margin:0 0 24px}
figure svg{display:block;width:100%;height:auto;background:var(--card);border:1px solid var(--line);border-radius:8px}
svg text{fill:var(--ink);font-family:system-ui,-apple-system,"Segoe UI",Roboto,"DejaVu Sans",sans-serif}
svg .lane{font-weight:600}svg .month{fill:var(--soft)}svg .stripe{fill:var(--stripe)}svg .back{fill:var(--back)}
svg .rule{stroke:var(--line)}svg .sun{stroke:var(--seasons);opacity:.5}
svg .curve{fill:none;stroke:var(--c);stroke-width:1.5}
svg .close{stroke:var(--meetings);stroke-width:3}svg .wide{stroke:var(--meetings);stroke-width:1.3;opacity:.65}
.halves{display:none}
figcaption{color:var(--soft);font-size:14px;margin-top:8px}
figcaption span{white-space:nowrap;margin-right:14px}
figcaption svg{display:inline;width:14px;height:14px;border:0;background:none;vertical-align:-2px;margin-right:4px}
svg .daylight{fill:var(--daylight)}svg .dusk1{fill:var(--dusk1)}svg .dusk2{fill:var(--dusk2)}
svg .dusk3{fill:var(--dusk3)}svg .night{fill:var(--night)}svg .moonlight{fill:#fff2c4}
svg .planet{fill:none;stroke-width:1.8}svg .rising{stroke-dasharray:4 3}
.p-mercury{stroke:#8f8f8f;background:#8f8f8f}.p-venus{stroke:#c99b00;background:#c99b00}
.p-mars{stroke:#e0512c;background:#e0512c}.p-jupiter{stroke:#b06ad0;background:#b06ad0}
.p-saturn{stroke:#1fa56a;background:#1fa56a}
figcaption i.line{display:inline-block;width:18px;height:3px;vertical-align:middle;margin-right:5px}
caption{text-align:left;color:var(--soft);font-size:14px;padding:6px 8px}
table.days{font-variant-numeric:tabular-nums;margin-bottom:12px}
table.days th,table.days td{padding:2px 6px;text-align:right;font-size:14px}
table.days th[scope=colgroup]{text-align:center}
table.days thead tr:first-child th:first-child,table.weeks thead th:first-child{text-align:left}
table.days tbody th{text-align:left;color:var(--ink);white-space:nowrap}
table.days small{color:var(--soft)}table.days thead th{font-size:12px}
tr.sunday th,tr.sunday td{border-bottom-color:var(--soft)}
div.weeks{display:grid;grid-template-columns:repeat(auto-fill,minmax(250px,1fr));gap:20px}
table.weeks{font-variant-numeric:tabular-nums;table-layout:auto}
table.weeks th,table.weeks td{padding:1px 6px;font-size:14px;text-align:right}
table.weeks tbody th{color:var(--ink);font-weight:600;text-align:left}
table.weeks caption{font-weight:600;color:var(--ink)}
body:has(#show-days:not(:checked)) table.days,body:has(#show-weeks:not(:checked)) .weeks{display:none}
.day.again{color:var(--soft)}
.shown{display:none}
@supports selector(:has(a)){.shown{display:flex;flex-wrap:wrap;gap:8px;padding:10px 0;position:sticky;top:0;z-index:1;
background:var(--paper);border-bottom:1px solid var(--line)}}
.shown label{border:1px solid var(--c);color:var(--c);border-radius:99px;padding:2px 12px;font-size:14px;cursor:pointer}
.shown input{position:absolute;opacity:0;width:0}
.shown label:has(input:checked){background:var(--c);color:var(--paper)}
.shown label:has(input:focus-visible){outline:2px solid var(--ink);outline-offset:2px}
table{border-collapse:collapse;width:100%;table-layout:fixed}
th{font-size:13px;font-weight:600;color:var(--soft);text-align:left;padding:4px 8px;border-bottom:1px solid var(--line)}
td{padding:5px 8px;vertical-align:top;border-bottom:1px solid var(--line);overflow-wrap:break-word}
.day{width:78px;white-space:nowrap}.day small{color:var(--soft);font-size:14px}
.at{width:72px;white-space:nowrap;font-variant-numeric:tabular-nums}
.what{width:356px}tbody .what{font-weight:600;padding:5px 8px 5px 24px;text-indent:-16px;font-size:16px;color:var(--ink);
vertical-align:top;overflow-wrap:break-word}
tbody .what::before{content:"";display:inline-block;width:9px;height:9px;border-radius:50%;background:var(--c);
margin-right:7px}
td.say{color:var(--soft)}.say em{color:var(--eclipses);font-style:normal;font-weight:600}
.win{width:178px;text-align:right}
td.win{font:13px/1.85 ui-monospace,"DejaVu Sans Mono",monospace;color:var(--soft)}
tr.moment td,tr.moment th{font-size:14px;padding-top:1px;padding-bottom:1px;border-bottom:0}
tr.moment td.win{font-size:13px}
tr.moment .what{font-weight:400;color:var(--soft)}tr.moment .what::before{visibility:hidden}
tr.moment:has(+tr:not(.moment))>*,tr.moment:last-child>*{border-bottom:1px solid var(--line);padding-bottom:6px}
tr.several>*{border-bottom:0}
tr.eclipses>*{background:var(--tint)}
@media screen and (max-width:1080px){.what{width:30%}.win{width:175px}}
footer{margin-top:44px;border-top:1px solid var(--line);padding-top:14px;color:var(--soft);font-size:14px;
max-width:92ch}
footer b{color:var(--ink)}footer code{font-size:12px;overflow-wrap:anywhere}
"""

PHONE = """
main{padding:20px 16px 44px}h1{font-size:28px}
.whole{display:none}.halves{display:block}.halves svg{margin-bottom:8px}
.glance{columns:1;padding:8px 0}
.shown{gap:5px;padding:8px 0}.shown label{padding:1px 9px;font-size:13px}
.tw{display:none}
table.events,.events tbody,.events caption{display:block}.events thead{display:none}
.events tr{display:grid;grid-template-columns:56px 66px minmax(0,1fr);padding:7px 0;border-bottom:1px solid var(--line)}
.events td,.events th{border:0!important;padding:0 4px!important;width:auto!important}
.events .what{padding-left:18px!important}
td.say,td.win{grid-column:3;text-align:left;padding-left:18px!important}td.say:empty,td.win:empty{display:none}
td.win,tr.moment td.win{font-size:12px;line-height:1.6}td.win:not(:empty)::before{content:"certified "}
.events tr.several{border-bottom:0;padding-bottom:0}.events tr.moment{padding:2px 0;border-bottom:0}
.events tr.moment .at{font-size:13px}
.events tr.moment:has(+tr:not(.moment)),.events tr.moment:last-child{border-bottom:1px solid var(--line);padding-bottom:7px}
tr.eclipses{background:var(--tint)}
table.days{table-layout:auto}table.days th[scope=colgroup]{display:none}
table.days th,table.days td{padding:2px 3px}div.weeks{grid-template-columns:1fr}
"""

PAPER = """
@page{size:A4;margin:13mm 12mm}
body{font-size:8pt;line-height:1.35;background:#fff}main{max-width:none;padding:0}
h1{font-size:20pt}h2{font-size:12pt;margin:10pt 0 1pt;break-after:avoid}
.shown{display:none!important}
.lead{margin-bottom:7pt}.glance{columns:3;padding:4pt 0;margin-bottom:8pt;column-gap:12pt}.glance li{gap:5pt}
figure,tr{break-inside:avoid}figure svg{width:calc(100% - 1pt)}
figure{margin-bottom:6pt}figcaption{font-size:7.5pt;margin-top:4pt}
figcaption span{margin-right:8pt}figcaption svg{width:8pt;height:8pt;margin-right:2pt;vertical-align:-1pt}
th{font-size:7pt;padding:1pt 3pt}td{padding:1.5pt 3pt}caption{font-size:7.5pt;padding:2pt 3pt}
td.win,tr.moment td.win{font-size:6.8pt;line-height:1.6}
.day small,tr.moment td{font-size:7.4pt}.events .day{width:34pt}.at{width:38pt}.win{width:94pt}.what{width:172pt}
tbody .what{padding:1.5pt 3pt 1.5pt 13pt;text-indent:-10pt;font-size:8pt}
tbody .what::before{width:5pt;height:5pt;margin-right:5pt}
tr.moment{break-before:avoid}tr.moment .what{font-size:7.4pt}
table.days th,table.days td{padding:.6pt 2pt;font-size:7pt}table.days thead th{font-size:6.5pt}
div.weeks{grid-template-columns:repeat(4,1fr);gap:8pt}table.weeks th,table.weeks td{padding:.4pt 2pt;font-size:6.8pt}
*{-webkit-print-color-adjust:exact;print-color-adjust:exact}
footer{font-size:7.5pt;max-width:none;margin-top:14pt}footer p{margin:3pt 0}footer code{font-size:6.5pt}
"""


def style() -> str:
    """The style sheet of a page."""
    names = [group.value for group in Group]
    colours = "".join(f".c-{name},tr.{name}{{--c:var(--{name})}}" for name in names)
    hidden = "".join(f"body:has(#show-{name}:not(:checked)) tr.{name}{{display:none}}" for name in names)
    dark = f"@media screen and (prefers-color-scheme:dark){{:root{{color-scheme:dark;{DARK}}}}}"
    phone = f"@media screen and (max-width:760px){{{PHONE}}}"
    return f":root{{color-scheme:light;{LIGHT}}}{dark}{DESK}{colours}{hidden}{phone}@media print{{{PAPER}}}"
