"""The template of an almanac's page, for jinja2: all texts are escaped but the drawings, which are SVG."""

PAGE = """\
<!DOCTYPE html>
<html lang="en">
<head>
<meta charset="utf-8">
<meta http-equiv="Content-Security-Policy" content="{{ policy | safe }}">
<meta name="viewport" content="width=device-width, initial-scale=1">
<title>{{ title }}</title>
<style>{{ style | safe }}</style>
</head>
<body>
<main>
<h1>{{ title }}</h1>
<p class="lead">{{ lead }}</p>
{% for year in years %}
{% if year.name %}
<h2 class="year">{{ year.name }}</h2>
{% endif %}
{% if year.glance %}
<ul class="glance">
{% for item in year.glance %}
<li class="c-{{ item.group }}"><time datetime="{{ item.iso }}">{{ item.shown }}</time><b>{{ item.name }}</b></li>
{% endfor %}
</ul>
{% endif %}
{% for figure in year.figures %}
<figure><div class="whole">{{ figure.whole | safe }}</div><div class="halves">{{ figure.halves | safe }}</div>
<figcaption>{{ figure.caption | safe }}</figcaption></figure>
{% endfor %}
{% if loop.first %}
<div class="shown" role="group" aria-label="What is shown">
{% for group in groups %}
<label class="c-{{ group.value }}"><input type="checkbox" id="show-{{ group.value }}" checked>{{ group.title }}</label>
{% endfor %}
</div>
{% endif %}
{% for month in year.months %}
<h2>{{ month.title }}</h2>
{% if month.days %}
<table class="days">
<caption>Sun and Moon by day, {{ month.title }}, {{ zone }}</caption>
<thead>
<tr class="days"><th scope="col" rowspan="2">Day</th><th scope="colgroup" colspan="4">Morning</th>
<th scope="colgroup" colspan="2">Transit</th><th scope="colgroup" colspan="4">Evening</th>
<th scope="colgroup" colspan="4" class="moon">Moon</th></tr>
<tr class="days"><th scope="col" class="tw">18°</th><th scope="col" class="tw">12°</th><th scope="col" class="tw">6°</th>
<th scope="col">Sun\u00adrise</th><th scope="col" class="tw">at</th><th scope="col" class="tw">alt.</th>
<th scope="col">Sun\u00adset</th>
<th scope="col" class="tw">6°</th><th scope="col" class="tw">12°</th><th scope="col" class="tw">18°</th>
<th scope="col" class="moon">Moon\u00adrise</th><th scope="col" class="tw">transit</th><th scope="col">Moon\u00adset</th>
<th scope="col">lit</th></tr>
</thead>
<tbody>
{% for row in month.days %}
<tr class="days{{ ' sunday' if row.is_sunday }}"><th scope="row">{{ row.day }} <small>{{ row.weekday }}</small></th>
{% for cell in row.cells %}<td{% if cell.css %} class="{{ cell.css }}"{% endif %}>{{ cell.text }}</td>{% endfor %}</tr>
{% endfor %}
</tbody>
</table>
{% endif %}
{% if month.rows %}
<table class="events">
<caption>Events, {{ month.title }}</caption>
<thead><tr><th scope="col" class="day">Day</th><th scope="col" class="at">{{ zone }}</th><th scope="col" class="what">Event</th>
<th scope="col" class="say">Numbers</th><th scope="col" class="win">Certified window, TDB</th></tr></thead>
<tbody>
{% for row in month.rows %}
<tr class="{{ row.css }}"><td class="day{{ ' again' if row.is_again }}">{{ row.day }} <small>{{ row.weekday }}</small></td>
<td class="at"><time datetime="{{ row.iso }}">{{ row.time }}</time></td><th scope="row" class="what">{{ row.name }}</th>
<td class="say">{{ row.said }}{% if row.warned %}{{ '; ' if row.said }}<em>{{ row.warned }}</em>{% endif %}</td>
<td class="win">{{ row.window }}</td></tr>
{% endfor %}
</tbody>
</table>
{% endif %}
{% endfor %}
{% endfor %}
{% if weeks %}
<h2 class="weeks">Planets by week</h2>
<div class="weeks">
{% for planet in weeks %}
<table class="weeks">
<caption>{{ planet.name }}, {{ zone }}</caption>
<thead><tr class="weeks"><th scope="col">Day</th><th scope="col">rises</th><th scope="col">transits</th>
<th scope="col">sets</th></tr></thead>
<tbody>
{% for row in planet.rows %}
<tr class="weeks"><th scope="row">{{ row.day }}</th><td>{{ row.rises }}</td><td>{{ row.transits }}</td>
<td>{{ row.sets }}</td></tr>
{% endfor %}
</tbody>
</table>
{% endfor %}
</div>
{% endif %}
<footer>
{% for note in notes %}
<p>{% if note.word %}<b>{{ note.word }}</b>{% endif %}{{ note.rest }}</p>
{% endfor %}
<p>Files: {% for file in files %}{{ file.name }} (SHA-256 <code>{{ file.sha256 }}</code>){{ ', ' if not loop.last }}{%
endfor %}.</p>
</footer>
</main>
</body>
</html>
"""
